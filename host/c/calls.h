/*
 * The buffers of the program, its calls on them, and what it expects of them. The disk has disk_length bytes, and the
 * catalogue cat_length.
 */
#ifndef CALLS_H
#define CALLS_H

#include "evdisk.h"

/* A disk of 16 blocks, which is the longest content and output too, and one of 2 blocks more than 64 files need. */
enum { BLOCKS = 16, DISK = BLOCKS * EVDISK_BLOCK, MANY = EVDISK_MOST_FILES + 2 };

/* A byte more than the large catalogue, and a block more than the small catalogue's greatest disk. */
extern uint8_t cat[EVDISK_LARGE_CATALOGUE + 1], disk[(EVDISK_MOST_BLOCKS + 1) * EVDISK_BLOCK];
extern uint8_t content[DISK], out[DISK];
/* The list of evdisk_which, and a place after it. */
extern uint16_t places[EVDISK_MOST_FILES + 1];
extern size_t cat_length, disk_length;
/* Whether something was not as expected. */
extern int wrong;

/* Says so if these differ. */
void expect(const char *what, int64_t got, int64_t want);

/* Keeps the bytes of catalogue, disk, output and list, and expects a refusal: its number, and every byte as it was
 * kept. */
void keep(void);
void refuse(const char *what, int64_t got, int64_t want);

/* The calls. Format makes the disk so many blocks long; the pages of an added file have the byte of its id. Those that
 * replace a file have the byte 200, and the first of them has this quality letter. */
int64_t format(size_t blocks);
int64_t add(uint16_t id, size_t pages);
int64_t removed(uint16_t id);
int64_t replaced(uint16_t id, uint8_t letter, size_t pages);
int64_t read_pages(uint16_t id, uint64_t first, size_t pages);
int64_t breaks(uint16_t id);
int64_t free_blocks(void);
int64_t check(void);
int64_t which(uint64_t n);

/* Every refusal, replacements, and which removals let blocks in, with the catalogue of this length. */
void refusals(void);
void replacements(void);
void removals_that_help(void);

#endif
