//! A disk drawn with letters: one for each block, or for as many blocks as it takes that the map of a large disk can be
//! read.

use crate::places::{free_places, places};
use crate::table::{counted, width};
use event_disk::{Listing, Version};

/// The letters of files: as many as a disk has files at most.
const LETTERS: &[u8; 64] = b"0123456789ABCDEFGHIJKLMNOPQRSTUVWXYZabcdefghijklmnopqrstuvwxyz@#";
/// The letter of a free block.
const FREE: u8 = b'.';
/// The letter of blocks that are not all of one file, and not all free.
const MIXED: u8 = b'+';
/// The most letters of a map: disks with the small catalogue are all drawn block by block.
pub const MOST_LETTERS: usize = Version::SMALL.most_blocks;
/// The colours of files by turns, as terminals number them.
const COLOURS: [u8; 6] = [32, 33, 34, 35, 36, 31];

/// Which letter each file has: that of its id by 64, or the next that is not taken. So a file mostly keeps its letter
/// when others come and go, and ids up to 9 are their own letters.
pub fn letters(listing: &Listing) -> Vec<usize> {
    let mut taken = [false; LETTERS.len()];
    let mut letters = Vec::new();
    for file in &listing.files {
        let from = usize::from(file.id);
        let letter = (from..).map(|i| i % LETTERS.len()).find(|i| !taken[*i]).expect("there are as many as files");
        taken[letter] = true;
        letters.push(letter);
    }
    letters
}

/// How many blocks a letter stands for: the least power of two that needs no more letters than a map may have.
pub fn unit(listing: &Listing) -> usize {
    (listing.blocks as usize).div_ceil(MOST_LETTERS).next_power_of_two()
}

/// The letters of the whole disk, one for so many blocks.
fn cells(listing: &Listing, unit: usize) -> Vec<u8> {
    let mut blocks = vec![FREE; listing.blocks as usize];
    for (file, letter) in listing.files.iter().zip(letters(listing)) {
        file.pieces.iter().for_each(|piece| blocks[piece.range()].fill(LETTERS[letter]));
    }
    let cell = |blocks: &[u8]| if blocks.iter().all(|letter| *letter == blocks[0]) { blocks[0] } else { MIXED };
    blocks.chunks(unit).map(cell).collect()
}

/// A letter, in its file's colour if colours are wanted.
fn painted(letter: u8, colours: bool) -> String {
    match LETTERS.iter().position(|known| *known == letter) {
        Some(i) if colours => format!("\u{1b}[{}m{}\u{1b}[0m", COLOURS[i % COLOURS.len()], char::from(letter)),
        _ => char::from(letter).to_string(),
    }
}

/// The disk drawn, so many letters to a row, and a legend.
pub fn drawn(listing: &Listing, to_row: usize, colours: bool) -> String {
    let (mut text, unit) = (String::new(), unit(listing));
    let wide = width(u64::from(listing.blocks), 5);
    for (row, cells) in cells(listing, unit).chunks(to_row).enumerate() {
        let cells: String = cells.iter().map(|letter| painted(*letter, colours)).collect();
        text += &format!("{:>wide$}  {cells}\n", row * to_row * unit);
    }
    text += "\n";
    if unit > 1 {
        let mixed = char::from(MIXED);
        text += &format!("    each letter is {unit} blocks; {mixed} where they are not all of one event or all free\n");
    }
    let wide = counted(u64::from(listing.blocks), "block").len().max(11);
    for (file, letter) in listing.files.iter().zip(letters(listing)) {
        let (letter, name) = (painted(LETTERS[letter], colours), format!("id {}", file.id));
        text += &legend(&letter, &name, file.blocks, wide, &places(file));
    }
    text + &legend(&painted(FREE, colours), "free", listing.free, wide, &free_places(&listing.free_pieces))
}

/// A line of the legend, with the number of blocks in a column that is so wide.
fn legend(letter: &str, name: &str, blocks: u32, wide: usize, places: &str) -> String {
    let line = format!("    {letter}  {name:<8}  {:>wide$}  {places}", counted(u64::from(blocks), "block"));
    format!("{}\n", line.trim_end())
}

#[cfg(test)]
mod tests {
    use super::*;
    use event_disk::{File, Piece};

    fn case_7() -> Listing {
        let piece = |first, length| Piece { first, length };
        let files = vec![
            File { id: 2, blocks: 2, breaks: 0, pieces: vec![piece(4, 2)] },
            File { id: 9, blocks: 1, breaks: 0, pieces: vec![piece(7, 1)] },
        ];
        let free_pieces = vec![piece(0, 4), piece(6, 1), piece(8, 8)];
        Listing { version: Version::SMALL, blocks: 16, free: 13, files, free_pieces }
    }

    /// A disk with files that have no pieces, for their letters.
    fn of_files(files: Vec<File>) -> Listing {
        Listing { version: Version::SMALL, blocks: 64, free: 0, files, free_pieces: vec![] }
    }

    fn empty(blocks: u32) -> Listing {
        Listing { version: Version::LARGE, blocks, free: blocks, files: vec![], free_pieces: vec![] }
    }

    #[test]
    fn a_disk_is_drawn_with_a_legend() {
        let text = "    0  ....22.9
    8  ........

    2  id 2         2 blocks  (4,2)
    9  id 9          1 block  (7,1)
    .  free        13 blocks  (0,4) (6,1) (8,8)
";
        assert_eq!(drawn(&case_7(), 8, false), text);
    }

    #[test]
    fn colours_only_add_colours() {
        let coloured = drawn(&case_7(), 5, true);
        assert!(coloured.contains("\u{1b}[34m2\u{1b}[0m"));
        let mut plain = coloured.replace("\u{1b}[0m", "");
        for colour in COLOURS {
            plain = plain.replace(&format!("\u{1b}[{colour}m"), "");
        }
        assert_eq!(plain, drawn(&case_7(), 5, false));
    }

    #[test]
    fn each_file_has_a_letter_of_its_own() {
        let file = |id| File { id, blocks: 1, breaks: 0, pieces: vec![] };
        for ids in [(1..=64).collect::<Vec<u16>>(), (1..=64).map(|i| i * 64).collect(), (65472..=65535).collect()] {
            let files = ids.iter().map(|id| file(*id)).collect();
            let mut letters = letters(&of_files(files));
            letters.sort_unstable();
            assert_eq!(letters, (0..event_disk::MOST_FILES).collect::<Vec<_>>());
        }
        assert!(!LETTERS.contains(&FREE) && !LETTERS.contains(&MIXED));
    }

    #[test]
    fn an_id_has_the_letter_of_its_number_or_the_next() {
        let file = |id| File { id, blocks: 1, breaks: 0, pieces: vec![] };
        let files = vec![file(5), file(63), file(69), file(127)];
        assert_eq!(letters(&of_files(files)), [5, 63, 6, 0]);
    }

    #[test]
    fn a_map_has_no_more_letters_than_it_may() {
        let units = [(1, 1), (4096, 1), (4097, 2), (8192, 2), (8193, 4), (65_537, 32), (1 << 20, 256)];
        for (blocks, unit_of) in units {
            assert_eq!(unit(&empty(blocks)), unit_of, "{blocks} blocks");
            let letters = cells(&empty(blocks), unit_of).len();
            assert!(letters == (blocks as usize).div_ceil(unit_of) && letters <= MOST_LETTERS);
        }
    }

    #[test]
    fn a_letter_for_many_blocks_says_whether_they_are_all_alike() {
        let piece = |first, length| Piece { first, length };
        let files = vec![
            File { id: 1, blocks: 3, breaks: 1, pieces: vec![piece(2, 1), piece(8, 2)] },
            File { id: 2, blocks: 2, breaks: 0, pieces: vec![piece(4, 2)] },
            File { id: 3, blocks: 1, breaks: 0, pieces: vec![piece(8192, 1)] },
        ];
        let listing = Listing { files, ..empty(8193) };
        let text = drawn(&listing, 1024, false);
        let lines: Vec<&str> = text.lines().collect();
        assert_eq!(lines[0], format!("    0  +++{}", ".".repeat(1021)));
        assert_eq!(lines[1], format!(" 4096  {}", ".".repeat(1024)));
        assert_eq!(lines[2..4], [" 8192  3", ""]);
        assert_eq!(lines[4], "    each letter is 4 blocks; + where they are not all of one event or all free");
        assert_eq!(lines[5], "    1  id 1         3 blocks  (8,2) (2,1)");
    }

    #[test]
    fn the_map_of_the_greatest_disk_stands_in_columns() {
        let text = drawn(&empty(1 << 20), 64, false);
        let lines: Vec<&str> = text.lines().collect();
        assert_eq!(lines.len(), 64 + 3);
        assert_eq!(lines[63], format!("1032192  {}", ".".repeat(64)));
        assert_eq!(lines[66], "    .  free      1048576 blocks");
    }
}
