//! A catalogue, removals and a shift log as tables to read.

use crate::json::Json;
use crate::places::{free_places, places};
use crate::removal::Removal;
use crate::shift_log::Line;
use event_disk::{File, Listing, Version};

/// A number with the word for what is counted, as in "1 block" and "2 blocks".
pub fn counted(number: u64, word: &str) -> String {
    format!("{number} {word}{}", if number == 1 { "" } else { "s" })
}

/// The blocks of a disk in words, and that its catalogue is the large one if it is.
pub fn blocks_of(listing: &Listing) -> String {
    let large = listing.version.catalogue > Version::SMALL.catalogue;
    format!("{}{}", counted(u64::from(listing.blocks), "block"), if large { ", large catalogue" } else { "" })
}

/// How wide a column of numbers is: wide enough for the greatest, and at least so wide.
pub fn width(greatest: u64, least: usize) -> usize {
    greatest.to_string().len().max(least)
}

/// What a removal, or that of a replacement, copies, and what the contract lets it copy.
pub fn copies(removal: &Removal) -> String {
    format!("{} copied (contract limit {})", counted(removal.copied, "block"), removal.limit)
}

/// The files and the free blocks of a catalogue, a line for each file.
pub fn listing(listing: &Listing) -> String {
    let wide = width(u64::from(listing.blocks), 6);
    let mut text = format!("   id  {:>wide$}  pieces  breaks  places (first block,lengths)\n", "blocks");
    for file in &listing.files {
        let numbers = format!("{:>wide$}  {:>6}  {:>6}", file.blocks, file.pieces.len(), file.breaks);
        text += &format!("{:>5}  {numbers}  {}\n", file.id, places(file));
    }
    let places = free_places(&listing.free_pieces);
    let free = format!(" free  {:>wide$}  {:>6}          {places}", listing.free, listing.free_pieces.len());
    let files = counted(listing.files.len() as u64, "file");
    text + &format!("{}\n{}, {files}\n", free.trim_end(), blocks_of(listing))
}

/// The same for scripts.
pub fn listing_json(listing: &Listing) -> Json {
    let file = |file: &File| {
        Json::Object(vec![
            ("id", Json::number(file.id)),
            ("blocks", Json::number(file.blocks)),
            ("breaks", Json::number(file.breaks)),
            ("pieces", Json::pieces(&file.in_page_order())),
            ("reads", Json::reads(&file.reads())),
        ])
    };
    Json::Object(vec![
        ("blocks", Json::number(listing.blocks)),
        ("free", Json::number(listing.free)),
        ("files", Json::List(listing.files.iter().map(file).collect())),
        ("free_pieces", Json::pieces(&listing.free_pieces)),
        ("version", Json::number(listing.version.number)),
    ])
}

/// Removals in columns: a line with their names, of which one is given, and a line for each removal.
fn rows(removals: &[Removal], copied: &str) -> Vec<String> {
    let greatest = removals.iter().flat_map(|removal| [removal.blocks, removal.copied, removal.limit]).max();
    let wide = width(greatest.unwrap_or(0), 6);
    let names = format!("{:>5}  {:>wide$}  {copied:>wide$}  {:>wide$}\n", "id", "blocks", "limit");
    let row = |Removal { id, blocks, copied, limit }: &Removal| {
        format!("{id:>5}  {blocks:>wide$}  {copied:>wide$}  {limit:>wide$}\n")
    };
    [names].into_iter().chain(removals.iter().map(row)).collect()
}

/// Removals that are not done, a line for each.
pub fn removals(removals: &[Removal]) -> String {
    rows(removals, "copies").concat()
}

/// The removals of a shift log, those of replacements too, a line for each.
pub fn shift_log(lines: &[Line]) -> String {
    let removals: Vec<Removal> = lines.iter().map(|line| line.removal).collect();
    let dates = ["date"].into_iter().chain(lines.iter().map(|line| line.date.as_str()));
    dates.zip(rows(&removals, "copied")).map(|(date, row)| format!("{date:<20}  {row}")).collect()
}

#[cfg(test)]
mod tests {
    use super::*;
    use event_disk::Piece;

    fn case_11() -> Listing {
        let piece = |first, length| Piece { first, length };
        let files = vec![
            File { id: 2, blocks: 7, breaks: 2, pieces: vec![piece(0, 4), piece(13, 1), piece(14, 2)] },
            File { id: 3, blocks: 5, breaks: 0, pieces: vec![piece(8, 4), piece(12, 1)] },
        ];
        Listing { version: Version::SMALL, blocks: 16, free: 4, files, free_pieces: vec![piece(4, 4)] }
    }

    #[test]
    fn a_catalogue_is_listed_with_pieces_in_page_order() {
        let text = "   id  blocks  pieces  breaks  places (first block,lengths)
    2       7       3       2  (0,4) (14,2) (13,1)
    3       5       2       0  (8,4+1)
 free       4       1          (4,4)
16 blocks, 2 files
";
        assert_eq!(listing(&case_11()), text);
    }

    #[test]
    fn a_full_disk_has_no_free_pieces() {
        let full = Listing { free: 0, free_pieces: vec![], ..case_11() };
        assert!(listing(&full).contains("\n free       0       0\n"));
    }

    #[test]
    fn the_columns_of_a_large_disk_have_room_for_its_numbers() {
        let piece = |first, length| Piece { first, length };
        let pieces = vec![piece(0, 1), piece(524_288, 524_288)];
        let files = vec![File { id: 65535, blocks: 524_289, breaks: 1, pieces }];
        let free_pieces = (0..19).map(|height| piece(1 << height, 1 << height)).collect();
        let large = Listing { version: Version::LARGE, blocks: 1 << 20, free: 524_287, files, free_pieces };
        let text = listing(&large);
        let lines: Vec<&str> = text.lines().collect();
        assert_eq!(lines[0], "   id   blocks  pieces  breaks  places (first block,lengths)");
        assert_eq!(lines[1], "65535   524289       2       1  (524288,524288) (0,1)");
        assert!(lines[2].starts_with(" free   524287      19          (1,1) (2,2) (4,4) "), "{}", lines[2]);
        assert_eq!(lines[3], "1048576 blocks, large catalogue, 1 file");
    }

    #[test]
    fn the_shift_log_stands_in_columns() {
        let date = "2026-01-31T23:59:00Z".to_string();
        let removal = Removal { id: 65535, blocks: 1000, copied: 12, limit: 40 };
        let text = shift_log(&[Line { date, removal }]);
        let lines: Vec<&str> = text.lines().collect();
        assert_eq!(lines[1], "2026-01-31T23:59:00Z  65535    1000      12      40");
        assert_eq!(lines[0], "date                     id  blocks  copied   limit");
    }

    #[test]
    fn the_shift_log_of_a_large_disk_stands_in_columns() {
        let removal = |blocks| Removal { id: 1, blocks, copied: 0, limit: 0 };
        let line = |blocks| Line { date: "2026-01-31T23:59:00Z".to_string(), removal: removal(blocks) };
        let text = shift_log(&[line(1 << 20), line(3)]);
        let lines: Vec<&str> = text.lines().collect();
        assert_eq!(lines[0], "date                     id   blocks   copied    limit");
        assert_eq!(lines[1], "2026-01-31T23:59:00Z      1  1048576        0        0");
        assert_eq!(lines[2], "2026-01-31T23:59:00Z      1        3        0        0");
        let text = removals(&[removal(1 << 20)]);
        assert_eq!(text, "   id   blocks   copies    limit\n    1  1048576        0        0\n");
    }
}
