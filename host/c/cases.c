/*
 * Cases 4 to 8 and 11 of the scope document, a removal that finds free buddies, replacements, which removals let blocks
 * in, and every refusal, with either catalogue, by the C header alone. Ends with status 1 and says where, if a call
 * gives back another number or other bytes.
 */
#include <string.h>

#include "calls.h"

enum { FEW = 8 };

static void expect_pages(uint16_t id, size_t pages)
{
  expect("read", read_pages(id, 0, pages), (int64_t)pages);
  for (size_t i = 0; i < pages * EVDISK_BLOCK; i++)
    expect("byte read", out[i], id);
}

/* Case 6, on a fresh disk: 5 at (0,2) (2,1), 9 at (3,1), 2 at (4,2). */
static void case_6(void)
{
  expect("format", format(BLOCKS), BLOCKS);
  expect("add 5", add(5, 3), 3);
  expect("add 9", add(9, 1), 1);
  expect("add 2", add(2, 2), 2);
  expect("breaks of 5", breaks(5), 0);
  expect("breaks of 9", breaks(9), 0);
  expect("breaks of 2", breaks(2), 0);
}

static void case_7(void)
{
  int64_t before = disk[6 * EVDISK_BLOCK];
  expect("remove 5", removed(5), 1);
  expect("free", free_blocks(), 13);
  expect("check", check(), BLOCKS);
  expect_pages(9, 1);
  expect_pages(2, 2);
  expect("place of 9", disk[7 * EVDISK_BLOCK], 9);
  expect("free block beside it", disk[6 * EVDISK_BLOCK], before);
}

static void case_8(void)
{
  expect("add 7 of 11 blocks", add(7, 11), EVDISK_REFUSED_NO_SPACE);
  expect("add 7 of 10 blocks", add(7, 10), 10);
  expect("breaks of 7 at (8,8) (6,2)", breaks(7), 1);
  expect("free", free_blocks(), 0);
  expect_pages(7, 10);
  expect("first place of 7", disk[8 * EVDISK_BLOCK], 7);
  expect("last place of 7", disk[7 * EVDISK_BLOCK], 7);
}

/* Case 11, with file 4 at block 7 until file 3 is there. File 2 is at (0,4) (4,2) (6,1), and after the removal at (0,4)
 * (14,2) (13,1); file 3 is at (8,4) (12,1) all the time. */
static void case_11(void)
{
  expect("format", format(BLOCKS), BLOCKS);
  expect("add 2", add(2, 7), 7);
  expect("add 4", add(4, 1), 1);
  expect("add 3", add(3, 5), 5);
  expect("add 1", add(1, 1), 1);
  expect("remove 4", removed(4), 0);
  expect("breaks of 2 before the removal", breaks(2), 0);
  expect("breaks of 3 before the removal", breaks(3), 0);
  expect("remove 1", removed(1), 3);
  expect("breaks of 2 after the removal", breaks(2), 2);
  expect("breaks of 3 after the removal", breaks(3), 0);
  expect_pages(2, 7);
  expect_pages(3, 5);
}

/* Two files of 3 blocks: 5 at (0,2) (2,1), and 6 at (4,2) (3,1), which adjoin but are read as blocks 4, 5, 3. */
static void adjoining(void)
{
  expect("format", format(BLOCKS), BLOCKS);
  expect("add 5", add(5, 3), 3);
  expect("add 6", add(6, 3), 3);
  expect("place of the last page of 6", disk[3 * EVDISK_BLOCK], 6);
  expect("breaks of 5", breaks(5), 0);
  expect("breaks of 6", breaks(6), 1);
}

/* On a disk of 8 blocks: two free halves of one section are joined first, so that file 2 stays where it is. */
static void free_buddies(void)
{
  expect("format of 8 blocks", format(FEW), FEW);
  expect("add 1", add(1, 1), 1);
  expect("add 2", add(2, 2), 2);
  expect("add 3", add(3, 3), 3);
  expect("remove 1", removed(1), 0);
  expect("remove 3", removed(3), 0);
  expect_pages(2, 2);
  expect("first place of 2", disk[2 * EVDISK_BLOCK], 2);
  expect("last place of 2", disk[3 * EVDISK_BLOCK], 2);
  expect("place of 3, which is free", disk[4 * EVDISK_BLOCK], 3);
  expect("add 4 of 4 blocks", add(4, 4), 4);
  expect("place of 4", disk[4 * EVDISK_BLOCK], 4);
}

static void with_catalogue(size_t length, uint8_t version)
{
  memset(cat, 255, sizeof cat);
  cat_length = length;
  case_6();
  expect("version", cat[0] * 256 + cat[1], version);
  case_8();
  case_11();
  adjoining();
  free_buddies();
  case_6();
  case_7();
  refusals();
  replacements();
  removals_that_help();
  expect("byte after the catalogue", cat[length], 255);
}

int main(void)
{
  with_catalogue(EVDISK_CATALOGUE, 1);
  expect("format of 4,096 blocks", format(EVDISK_MOST_BLOCKS), EVDISK_MOST_BLOCKS);
  with_catalogue(EVDISK_LARGE_CATALOGUE, 2);
  expect("format of 4,097 blocks", format(EVDISK_MOST_BLOCKS + 1), EVDISK_MOST_BLOCKS + 1);
  return wrong;
}
