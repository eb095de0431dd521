/*
 * Every refusal by its number, of every call that gives it, and that a refused call changes no byte. Those that replace
 * alone gives, and its order, are in replacing.c, and so are those of which in which.c.
 */
#include <stdio.h>
#include <string.h>

#include "calls.h"

/* The bytes before refused calls. */
static uint8_t cat_before[sizeof cat], disk_before[sizeof disk], out_before[sizeof out];
static uint16_t places_before[EVDISK_MOST_FILES + 1];

void keep(void)
{
  memset(out, 238, sizeof out);
  memset(places, 238, sizeof places);
  memcpy(cat_before, cat, sizeof cat);
  memcpy(disk_before, disk, sizeof disk);
  memcpy(out_before, out, sizeof out);
  memcpy(places_before, places, sizeof places);
}

void refuse(const char *what, int64_t got, int64_t want)
{
  expect(what, got, want);
  if (memcmp(cat, cat_before, sizeof cat) || memcmp(disk, disk_before, sizeof disk)
      || memcmp(out, out_before, sizeof out) || memcmp(places, places_before, sizeof places)) {
    printf("%s with %zu bytes of catalogue: a byte was changed\n", what, cat_length);
    wrong = 1;
  }
}

/* The calls that are lent the disk, but format. */
static void refuse_with_disk(const char *what, int64_t want)
{
  refuse(what, add(7, 1), want);
  refuse(what, removed(9), want);
  refuse(what, replaced(9, 'M', 1), want);
  refuse(what, read_pages(9, 0, 1), want);
  refuse(what, check(), want);
}

/* All calls but format. */
static void refuse_all(const char *what, int64_t want)
{
  refuse_with_disk(what, want);
  refuse(what, breaks(9), want);
  refuse(what, free_blocks(), want);
  refuse(what, which(14), want);
}

/* By the lengths of catalogue and disk. */
static void refused_lengths(void)
{
  const size_t length = cat_length, lengths[] = {0, EVDISK_CATALOGUE - 1, length - 1, length + 1};
  keep();
  for (size_t i = 0; i < sizeof lengths / sizeof *lengths; i++) {
    cat_length = lengths[i];
    refuse("format, length of the catalogue", evdisk_format(cat, cat_length, disk, disk_length), -1);
    refuse_all("length of the catalogue", -1);
  }
  cat_length = length;
  refuse("format of no block", evdisk_format(cat, length, NULL, 0), -2);
  refuse("format of half a block", evdisk_format(cat, length, disk, 256), -2);
  if (length == EVDISK_CATALOGUE)
    refuse("format of 4,097 blocks", evdisk_format(cat, length, disk, sizeof disk), -2);
  disk_length = DISK - EVDISK_BLOCK;
  refuse_with_disk("short disk", -4);
  disk_length = DISK + 1;
  refuse_with_disk("long disk", -4);
  disk_length = DISK;
}

/* By the catalogue, of which one byte is changed at a time: the version becomes the other one. */
static void refused_catalogues(void)
{
  uint8_t *last = &cat[cat_length - 1];
  cat[1] ^= 3;
  keep();
  refuse_all("version that does not suit the length", -3);
  cat[1] ^= 3;
  *last = 1;
  keep();
  refuse_all("byte after the free pairs", -3);
  *last = 0;
}

/* By the other arguments. */
static void refused_arguments(void)
{
  keep();
  refuse("add of id 0", add(0, 1), -5);
  refuse("remove of id 0", removed(0), -5);
  refuse("read of id 0", read_pages(0, 0, 1), -5);
  refuse("breaks of id 0", breaks(0), -5);
  refuse("remove of no file", removed(5), -6);
  refuse("read of no file", read_pages(5, 0, 1), -6);
  refuse("breaks of no file", breaks(5), -6);
  refuse("add of a file that is there", add(9, 1), -7);
  refuse("add of nothing", evdisk_add(cat, cat_length, disk, DISK, 7, NULL, 0), -8);
  refuse("add of 511 bytes", evdisk_add(cat, cat_length, disk, DISK, 7, content, 511), -8);
  refuse("read into nothing", evdisk_read(cat, cat_length, disk, DISK, 9, 0, NULL, 0), -8);
  refuse("read into 513 bytes", evdisk_read(cat, cat_length, disk, DISK, 9, 0, out, 513), -8);
  refuse("read of pages 1 and 2 of 2", read_pages(2, 1, 2), -9);
  refuse("read from the last number on", read_pages(9, UINT64_MAX, 1), -9);
  refuse("add of 14 blocks where 13 are free", add(7, 14), -11);
}

static void sixty_five_files(void)
{
  expect("format of 66 blocks", format(MANY), MANY);
  for (uint16_t id = 1; id <= EVDISK_MOST_FILES; id++)
    expect("add of one of 64 files", add(id, 1), 1);
  keep();
  refuse("add of a 65th file", add(65, 1), -10);
  refuse("add of a 65th file that does not fit", add(65, 3), -10);
}

/* The names of the refusals are those of the numbers. */
static void names(void)
{
  const int64_t named[] = {
    EVDISK_REFUSED_CATALOGUE_LENGTH, EVDISK_REFUSED_NO_DISK, EVDISK_REFUSED_NOT_SOUND, EVDISK_REFUSED_DISK_LENGTH,
    EVDISK_REFUSED_ID_ZERO, EVDISK_REFUSED_ID_MISSING, EVDISK_REFUSED_ID_THERE, EVDISK_REFUSED_BUFFER_LENGTH,
    EVDISK_REFUSED_PAST_END, EVDISK_REFUSED_FILES_FULL, EVDISK_REFUSED_NO_SPACE, EVDISK_REFUSED_LETTER_UNKNOWN,
    EVDISK_REFUSED_LETTER_NOT_ABOVE, EVDISK_REFUSED_LIST_LENGTH};
  for (int i = 0; i < 14; i++)
    expect("name of a refusal", named[i], -1 - i);
}

/* Mostly on 16 blocks with two files, of which 13 are free. */
void refusals(void)
{
  names();
  expect("format", format(BLOCKS), BLOCKS);
  expect("add 9", add(9, 1), 1);
  expect("add 2", add(2, 2), 2);
  refused_lengths();
  refused_catalogues();
  refused_arguments();
  sixty_five_files();
}
