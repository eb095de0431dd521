/*
 * evdisk: the event disk manager of a volcano station.
 *
 * A disk is 1 to 4,096 blocks of 512 bytes with the small catalogue of 4,096 bytes, or 1 to 1,048,576 blocks with the
 * large catalogue of 16,384 bytes. Format goes by the catalogue's length, and so does every call after it. Both belong
 * to the caller, who lends them for the time of a call and keeps their bytes in between. A call uses no memory of its
 * own but the stack, and nothing else: no files, no clock, no state.
 *
 * Every call gives back a number of 0 or more, the answer, or a negative one, its refusal: of those that are listed at
 * the call, the first that holds. A refused call changes no byte. Whatever the numbers and the bytes are, a call ends.
 *
 * What a call assumes, which nothing checks:
 *
 *    - Each pointer points to as many bytes as the length after it says, or as many numbers where it points to
 *      uint16_t. With a length of 0 it is not used. Bytes need no alignment; numbers are aligned as uint16_t is.
 *    - The buffers of one call do not overlap, and nobody else changes them, or reads one that is not const, while the
 *      call lasts. Calls on other buffers may run at the same time.
 *    - There is stack enough: no call was measured to need more than 77,568 bytes, and `./test` fails if one needs
 *      256 KiB. That is measured, not proved.
 *    - The caller is x86-64 code that keeps to the System V calling convention, as C compilers for Linux do: a buffer
 *      is two arguments, its pointer and its length of 8 bytes, and the result is of 8 bytes with a sign.
 *    - memcpy and memset, which the archive takes from the C library, do as the C standard says.
 */
#ifndef EVDISK_H
#define EVDISK_H

#include <stddef.h>
#include <stdint.h>

enum {
  EVDISK_BLOCK = 512,                 /* the bytes of a block */
  EVDISK_MOST_FILES = 64,             /* the most files of a disk */
  EVDISK_CATALOGUE = 4096,            /* the bytes of the small catalogue, which is version 1 */
  EVDISK_MOST_BLOCKS = 4096,          /* the most blocks of a disk with the small catalogue */
  EVDISK_LARGE_CATALOGUE = 16384,     /* the bytes of the large catalogue, which is version 2 */
  EVDISK_LARGE_MOST_BLOCKS = 1048576, /* the most blocks of a disk with the large catalogue */
  EVDISK_FITS_ALREADY = 256           /* what evdisk_which answers if nothing has to be removed */
};

/* The refusals. A call looks for those that are listed at it, in that order, which is that of the numbers but for one
 * thing: evdisk_replace looks for -12 and -13 before -11. */
enum {
  EVDISK_REFUSED_CATALOGUE_LENGTH = -1,  /* the catalogue buffer is neither 4,096 nor 16,384 bytes long */
  EVDISK_REFUSED_NO_DISK = -2,           /* format alone: the disk buffer is not 1 to 4,096 blocks of 512 bytes long, or
                                          * 1 to 1,048,576 with the large catalogue */
  EVDISK_REFUSED_NOT_SOUND = -3,         /* the catalogue is not sound, or its version does not suit its length */
  EVDISK_REFUSED_DISK_LENGTH = -4,       /* the disk buffer is not as long as the catalogue says */
  EVDISK_REFUSED_ID_ZERO = -5,           /* the id is 0 */
  EVDISK_REFUSED_ID_MISSING = -6,        /* no file has this id */
  EVDISK_REFUSED_ID_THERE = -7,          /* a file has this id already */
  EVDISK_REFUSED_BUFFER_LENGTH = -8,     /* the content or output buffer is empty or no multiple of 512 bytes long, or n
                                          * is 0 (evdisk_which) */
  EVDISK_REFUSED_PAST_END = -9,          /* the pages go past the end of the file */
  EVDISK_REFUSED_FILES_FULL = -10,       /* there are 64 files already */
  EVDISK_REFUSED_NO_SPACE = -11,         /* there are fewer free blocks than the content has; for evdisk_replace the
                                          * blocks of the old file count as free */
  EVDISK_REFUSED_LETTER_UNKNOWN = -12,   /* evdisk_replace alone: the content's quality letter is none of R, D, Q, M */
  EVDISK_REFUSED_LETTER_NOT_ABOVE = -13, /* evdisk_replace alone: that letter does not rank above the stored one */
  EVDISK_REFUSED_LIST_LENGTH = -14       /* evdisk_which alone: the list has not 64 places */
};

#ifdef __cplusplus
extern "C" {
#endif

/* Makes the catalogue that of a disk with no file, in the version of the catalogue's length. The disk is not touched.
 * Answers its number of blocks. Refusals: -1, -2. */
int64_t evdisk_format(uint8_t *cat, size_t cat_length, const uint8_t *disk, size_t disk_length);

/* Adds a file with the pages of content, 512 bytes each. Answers their number. The file lies in one piece for each 1 of
 * that number in binary, and no division of as many blocks into pieces whose lengths are powers of two has fewer. After
 * every call that holds of each file, and of the free blocks too. Refusals: -1, -3, -4, -5, -7, -8, -10, -11. */
int64_t evdisk_add(uint8_t *cat, size_t cat_length, uint8_t *disk, size_t disk_length, uint16_t id,
                   const uint8_t *content, size_t content_length);

/* Removes a file and joins free space; two free halves of one section are joined first, and nothing is copied for
 * them. Answers how many blocks were copied: at most the sum of the place values at which the free blocks plus the
 * file's blocks carry in binary. Refusals: -1, -3, -4, -5, -6. */
int64_t evdisk_remove(uint8_t *cat, size_t cat_length, uint8_t *disk, size_t disk_length, uint16_t id);

/* Puts the pages of content, a reviewed event, in the place of a file. Byte 6 of a page, counted from 0, is its quality
 * letter, and the four letters rank R, D, Q, M, lowest first: that of content's first page must rank above that of the
 * file's first page, where any other byte ranks below all. Everything is then as after a removal of the file and an add
 * of content with its id; 64 files are no hindrance. Answers how many blocks the removal copied: at most the sum of the
 * place values at which the free blocks plus the old file's blocks carry in binary. Refusals: -1, -3, -4, -5, -6, -8,
 * -12, -13, -11, in this order. */
int64_t evdisk_replace(uint8_t *cat, size_t cat_length, uint8_t *disk, size_t disk_length, uint16_t id,
                       const uint8_t *content, size_t content_length);

/* Fills out with pages of a file, from the page first on; pages count from 0. Answers how many pages out has. Refusals:
 * -1, -3, -4, -5, -6, -8, -9. */
int64_t evdisk_read(const uint8_t *cat, size_t cat_length, const uint8_t *disk, size_t disk_length, uint16_t id,
                    uint64_t first, uint8_t *out, size_t out_length);

/* Answers how often the drive seeks when the pages of a file are read in order: at how many places in page order a
 * piece does not start right after the one before it. That is at most the ones of the file's blocks in binary, less
 * one. A file is read in one read more than it has breaks, and so in at most as many as it has pieces, which are the
 * fewest, as said at evdisk_add. Refusals: -1, -3, -5, -6. */
int64_t evdisk_breaks(const uint8_t *cat, size_t cat_length, uint16_t id);

/* Answers the number of free blocks. Refusals: -1, -3. */
int64_t evdisk_free(const uint8_t *cat, size_t cat_length);

/* Answers the number of blocks if the catalogue is sound and the disk is as long as it says. Refusals: -1, -3, -4. */
int64_t evdisk_check(const uint8_t *cat, size_t cat_length, const uint8_t *disk, size_t disk_length);

/* Writes to places, a list of 64 numbers, the ids of the files whose removal alone would let n blocks in: those whose
 * blocks and the free ones together are at least n. They stand by the blocks that the removal would copy, fewest first,
 * and for equal counts by lower id; zeros follow. Answers how many ids there are, which may be none, or
 * EVDISK_FITS_ALREADY if n blocks are free, and then writes only zeros. places_length counts the places and not their
 * bytes. Only the catalogue is read. Refusals: -1, -3, -8, -14. */
int64_t evdisk_which(const uint8_t *cat, size_t cat_length, uint64_t n, uint16_t *places, size_t places_length);

#ifdef __cplusplus
}
#endif

#endif
