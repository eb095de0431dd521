/* The calls by the lengths of calls.h. */
#include <stdio.h>
#include <string.h>

#include "calls.h"

uint8_t cat[EVDISK_LARGE_CATALOGUE + 1], disk[(EVDISK_MOST_BLOCKS + 1) * EVDISK_BLOCK];
uint8_t content[DISK], out[DISK];
uint16_t places[EVDISK_MOST_FILES + 1];
size_t cat_length, disk_length;
int wrong;

void expect(const char *what, int64_t got, int64_t want)
{
  if (got != want) {
    printf("%s with %zu bytes of catalogue: %lld, and not %lld\n", what, cat_length, (long long)got, (long long)want);
    wrong = 1;
  }
}

int64_t format(size_t blocks)
{
  disk_length = blocks * EVDISK_BLOCK;
  return evdisk_format(cat, cat_length, disk, disk_length);
}

int64_t add(uint16_t id, size_t pages)
{
  memset(content, id, pages * EVDISK_BLOCK);
  return evdisk_add(cat, cat_length, disk, disk_length, id, content, pages * EVDISK_BLOCK);
}

int64_t removed(uint16_t id)
{
  return evdisk_remove(cat, cat_length, disk, disk_length, id);
}

int64_t read_pages(uint16_t id, uint64_t first, size_t pages)
{
  return evdisk_read(cat, cat_length, disk, disk_length, id, first, out, pages * EVDISK_BLOCK);
}

int64_t breaks(uint16_t id)
{
  return evdisk_breaks(cat, cat_length, id);
}

int64_t free_blocks(void)
{
  return evdisk_free(cat, cat_length);
}

int64_t check(void)
{
  return evdisk_check(cat, cat_length, disk, disk_length);
}

int64_t which(uint64_t n)
{
  return evdisk_which(cat, cat_length, n, places, EVDISK_MOST_FILES);
}
