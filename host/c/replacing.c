/*
 * Replacements: worked cases, the letters over each other, every refusal in its order, and one among 64 files.
 */
#include <string.h>

#include "calls.h"

/* Where the quality letter of a page stands. */
enum { LETTER = 6 };

/* Makes content so many pages of a byte, the first with a quality letter. */
static void fill(uint8_t byte, uint8_t letter, size_t pages)
{
  memset(content, byte, pages * EVDISK_BLOCK);
  content[LETTER] = letter;
}

static int64_t add_lettered(uint16_t id, uint8_t letter, size_t pages)
{
  fill((uint8_t)id, letter, pages);
  return evdisk_add(cat, cat_length, disk, disk_length, id, content, pages * EVDISK_BLOCK);
}

int64_t replaced(uint16_t id, uint8_t letter, size_t pages)
{
  fill(200, letter, pages);
  return evdisk_replace(cat, cat_length, disk, disk_length, id, content, pages * EVDISK_BLOCK);
}

/* The file has these pages. */
static void expect_file(uint16_t id, uint8_t byte, uint8_t letter, size_t pages)
{
  fill(byte, letter, pages);
  memset(out, 0, sizeof out);
  expect("read", read_pages(id, 0, pages), (int64_t)pages);
  expect("pages read", memcmp(out, content, pages * EVDISK_BLOCK), 0);
  expect("read past the end", read_pages(id, pages, 1), EVDISK_REFUSED_PAST_END);
}

/* Case 6, with the letter D in each file: 10 blocks are free. */
static void case_6_lettered(void)
{
  expect("format", format(BLOCKS), BLOCKS);
  expect("add 5", add_lettered(5, 'D', 3), 3);
  expect("add 9", add_lettered(9, 'D', 1), 1);
  expect("add 2", add_lettered(2, 'D', 2), 2);
}

static void expect_others(void)
{
  expect("check", check(), BLOCKS);
  expect_file(9, 9, 'D', 1);
  expect_file(2, 2, 'D', 2);
  expect("place of 9", disk[7 * EVDISK_BLOCK], 9);
}

/* As in case 7 the removal copies a block. A longer file comes to (0,4), of which 9 had the last block. */
static void longer(void)
{
  case_6_lettered();
  expect("replace 5 by 4 pages", replaced(5, 'Q', 4), 1);
  expect("free", free_blocks(), 9);
  expect("breaks of 5", breaks(5), 0);
  expect("last place of 5", disk[3 * EVDISK_BLOCK], 200);
  expect_file(5, 200, 'Q', 4);
  expect_others();
}

/* A shorter one comes to block 6, which the removal leaves free. */
static void shorter(void)
{
  case_6_lettered();
  expect("replace 5 by a page", replaced(5, 'M', 1), 1);
  expect("free", free_blocks(), 12);
  expect("place of 5", disk[6 * EVDISK_BLOCK], 200);
  expect_file(5, 200, 'M', 1);
  expect_others();
}

/* Space is short if there are more pages than 10 free blocks and 3 of the old file, and the letters come first. As many
 * pages come to (8,8) (0,4) (6,1). */
static void longest(void)
{
  case_6_lettered();
  keep();
  refuse("replace by 14 pages with another letter", replaced(5, 'q', 14), EVDISK_REFUSED_LETTER_UNKNOWN);
  refuse("replace by 14 pages with a lower letter", replaced(5, 'R', 14), EVDISK_REFUSED_LETTER_NOT_ABOVE);
  refuse("replace by 14 pages with the same letter", replaced(5, 'D', 14), EVDISK_REFUSED_LETTER_NOT_ABOVE);
  refuse("replace by 14 pages", replaced(5, 'Q', 14), EVDISK_REFUSED_NO_SPACE);
  expect("replace 5 by 13 pages", replaced(5, 'Q', 13), 1);
  expect("free", free_blocks(), 0);
  expect("breaks of 5", breaks(5), 2);
  expect_file(5, 200, 'Q', 13);
  expect_others();
}

/* The rank of a letter, 0 for any other byte. */
static int rank(uint8_t letter)
{
  const char *letters = "RDQM", *found = letter ? strchr(letters, letter) : NULL;
  return found ? (int)(found - letters) + 1 : 0;
}

/* Every letter over every letter, with bytes that are none on both sides. */
static void letters(void)
{
  const uint8_t bytes[] = {'R', 'D', 'Q', 'M', 'S', 'm', 0, 255};
  for (size_t i = 0; i < sizeof bytes; i++)
    for (size_t k = 0; k < sizeof bytes; k++) {
      const uint8_t old = bytes[i], new = bytes[k];
      expect("format", format(BLOCKS), BLOCKS);
      expect("add 5", add_lettered(5, old, 3), 3);
      keep();
      if (!rank(new))
        refuse("another letter", replaced(5, new, 3), -12);
      else if (rank(new) <= rank(old))
        refuse("a letter that is not above", replaced(5, new, 3), -13);
      else
        expect("a letter above", replaced(5, new, 3), 0);
      expect_file(5, rank(new) > rank(old) ? 200 : 5, rank(new) > rank(old) ? new : old, 3);
    }
}

/* On 6 blocks the first pages of a file of 3 are at blocks 4 and 5, and the last at block 0: the letter at block 4
 * counts. */
static void first_page(void)
{
  expect("format of 6 blocks", format(6), 6);
  expect("add 5", add_lettered(5, 'Q', 3), 3);
  expect("place of the first page", disk[4 * EVDISK_BLOCK + LETTER], 'Q');
  disk[LETTER] = 'R';
  keep();
  refuse("a letter above the last page's", replaced(5, 'D', 3), -13);
  disk[LETTER] = 'M';
  expect("a letter above the first page's", replaced(5, 'M', 2), 0);
  expect_file(5, 200, 'M', 2);
}

/* The refusals before the letters', though a letter is none and the pages are too many. */
static void earlier_refusals(void)
{
  case_6_lettered();
  keep();
  cat_length--;
  refuse("replace, length of the catalogue", replaced(0, 'X', 14), -1);
  cat_length++;
  cat[cat_length - 1] = 1;
  keep();
  refuse("replace, byte after the free pairs", replaced(0, 'X', 14), -3);
  cat[cat_length - 1] = 0;
  keep();
  disk_length++;
  refuse("replace, length of the disk", replaced(0, 'X', 14), -4);
  disk_length--;
  refuse("replace of id 0", replaced(0, 'X', 14), -5);
  refuse("replace of no file", evdisk_replace(cat, cat_length, disk, DISK, 7, NULL, 0), -6);
  refuse("replace by nothing", evdisk_replace(cat, cat_length, disk, DISK, 5, NULL, 0), -8);
  fill(200, 'X', 1);
  refuse("replace by 6 bytes", evdisk_replace(cat, cat_length, disk, DISK, 5, content, 6), -8);
  refuse("replace by 511 bytes", evdisk_replace(cat, cat_length, disk, DISK, 5, content, 511), -8);
}

/* That there are 64 files is no refusal, and the file stays one of them. */
static void among_64(void)
{
  expect("format of 66 blocks", format(MANY), MANY);
  for (uint16_t id = 1; id <= EVDISK_MOST_FILES; id++)
    expect("add of one of 64 files", add_lettered(id, 'R', 1), 1);
  keep();
  refuse("replace by 4 pages where 3 fit", replaced(33, 'D', 4), -11);
  expect("replace one of 64 files", replaced(33, 'D', 3), 0);
  expect("free", free_blocks(), 0);
  for (uint16_t id = 1; id <= EVDISK_MOST_FILES; id++)
    if (id != 33)
      expect_file(id, (uint8_t)id, 'R', 1);
  expect_file(33, 200, 'D', 3);
  expect("add of a 65th file", add(65, 1), EVDISK_REFUSED_FILES_FULL);
}

void replacements(void)
{
  longer();
  shorter();
  longest();
  letters();
  first_page();
  earlier_refusals();
  among_64();
}
