/*
 * Which removals let blocks in: worked cases, numbers of blocks that no disk has, all of 64 files, and every refusal in
 * its order.
 */
#include "calls.h"

/* What the places have before a call. */
enum { BEFORE = 0xabcd };

static void fill_places(void)
{
  for (size_t i = 0; i < sizeof places / sizeof *places; i++)
    places[i] = BEFORE;
}

/* The answer, and the list: so many ids, then zeros, and nothing written after its end. */
static void expect_list(uint64_t n, int64_t answer, const uint16_t *ids, size_t count)
{
  fill_places();
  expect("which", which(n), answer);
  for (size_t i = 0; i < EVDISK_MOST_FILES; i++)
    expect("place of the list", places[i], i < count ? ids[i] : 0);
  expect("place after the list", places[EVDISK_MOST_FILES], BEFORE);
}

static void expect_fits(uint64_t n)
{
  expect_list(n, EVDISK_FITS_ALREADY, NULL, 0);
}

static void expect_ids(uint64_t n, const uint16_t *ids, size_t count)
{
  expect_list(n, (int64_t)count, ids, count);
}

/* Case 6, of which 10 blocks are free: removing 2 or 9 copies nothing, and removing 5 copies a block. */
static void case_6(void)
{
  const uint16_t for_11[] = {2, 9, 5}, for_13[] = {5};
  expect("format", format(BLOCKS), BLOCKS);
  expect("add 5", add(5, 3), 3);
  expect("add 9", add(9, 1), 1);
  expect("add 2", add(2, 2), 2);
  expect_fits(1);
  expect_fits(10);
  expect_ids(11, for_11, 3);
  expect_ids(13, for_13, 1);
  expect_ids(14, NULL, 0);
  expect_ids(BLOCKS + 1, NULL, 0);
  expect_ids((UINT64_C(1) << 32) + 11, NULL, 0);
  expect_ids(UINT64_MAX, NULL, 0);
}

/* Four files of 3 blocks and one of 2, so that 2 are free: the removals copy 0, 1, 1, 2 and 2 blocks in this order. */
static void equal_counts(void)
{
  const uint16_t for_3[] = {6, 1, 4, 2, 3}, *for_5 = for_3 + 1;
  expect("format", format(BLOCKS), BLOCKS);
  for (uint16_t id = 1; id <= 4; id++)
    expect("add of 3 blocks", add(id, 3), 3);
  expect("add 6", add(6, 2), 2);
  expect_fits(2);
  expect_ids(3, for_3, 5);
  expect_ids(5, for_5, 4);
  expect_ids(6, NULL, 0);
}

/* The first id of the list is that of a removal that lets the blocks in. */
static void first_of_the_list(void)
{
  fill_places();
  expect("which for 5 blocks", which(5), 4);
  expect("add of 5 blocks", add(7, 5), EVDISK_REFUSED_NO_SPACE);
  expect("removal of the first", removed(places[0]), 1);
  expect_fits(5);
  expect("add of 5 blocks after it", add(7, 5), 5);
}

/* On a disk that 64 files fill but for 2 blocks all of them are listed, and that an add would be refused for their
 * number does not count. */
static void among_64(void)
{
  expect("format of 66 blocks", format(MANY), MANY);
  for (uint16_t id = EVDISK_MOST_FILES; id >= 1; id--)
    expect("add of one of 64 files", add(id, 1), 1);
  expect_fits(2);
  fill_places();
  expect("which for 3 blocks", which(3), EVDISK_MOST_FILES);
  uint64_t seen = 0;
  for (size_t i = 0; i < EVDISK_MOST_FILES; i++)
    seen |= places[i] >= 1 && places[i] <= EVDISK_MOST_FILES ? UINT64_C(1) << (places[i] - 1) : 0;
  expect("ids that are not in the list", (int64_t)~seen, 0);
  expect("place after the list", places[EVDISK_MOST_FILES], BEFORE);
  expect_ids(4, NULL, 0);
}

/* Those before the list's, though n is 0 and there is no list; then lists of other lengths. */
static void refused(void)
{
  const size_t lengths[] = {1, EVDISK_MOST_FILES - 1, EVDISK_MOST_FILES + 1};
  expect("format", format(BLOCKS), BLOCKS);
  expect("add 5", add(5, 3), 3);
  keep();
  refuse("which, length of the catalogue", evdisk_which(cat, cat_length - 1, 0, NULL, 0), -1);
  cat[cat_length - 1] = 1;
  keep();
  refuse("which, byte after the free pairs", evdisk_which(cat, cat_length, 0, NULL, 0), -3);
  cat[cat_length - 1] = 0;
  keep();
  refuse("which for no block", which(0), -8);
  refuse("which for no block and no list", evdisk_which(cat, cat_length, 0, NULL, 0), -8);
  refuse("which with no list", evdisk_which(cat, cat_length, 14, NULL, 0), -14);
  for (size_t i = 0; i < sizeof lengths / sizeof *lengths; i++) {
    refuse("which with another list", evdisk_which(cat, cat_length, 14, places, lengths[i]), -14);
    refuse("which with another list, fits already", evdisk_which(cat, cat_length, 1, places, lengths[i]), -14);
    refuse("which for no block, another list", evdisk_which(cat, cat_length, 0, places, lengths[i]), -8);
  }
}

void removals_that_help(void)
{
  case_6();
  equal_counts();
  first_of_the_list();
  among_64();
  refused();
}
