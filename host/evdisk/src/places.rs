//! Where events and free pieces lie, as (first block,length).

use crate::table::counted;
use event_disk::{File, Piece, Read};

/// Free pieces: nobody reads them, so each is a place of its own.
pub fn free_places(pieces: &[Piece]) -> String {
    let places: Vec<String> = pieces.iter().map(|piece| format!("({},{})", piece.first, piece.length)).collect();
    places.join(" ")
}

/// An event in page order, a place for each read: with a plus between the lengths of pieces that adjoin.
pub fn places(event: &File) -> String {
    let lengths = |read: &Read| read.lengths.iter().map(u32::to_string).collect::<Vec<_>>().join("+");
    let places: Vec<String> = event.reads().iter().map(|read| format!("({},{})", read.first, lengths(read))).collect();
    places.join(" ")
}

/// How an event lies: its blocks, how many pieces and breaks they make, and its places.
pub fn lying(event: &File) -> String {
    let blocks = counted(u64::from(event.blocks), "block");
    let pieces = counted(event.pieces.len() as u64, "piece");
    format!("{blocks} in {pieces}, {}: {}", counted(u64::from(event.breaks), "break"), places(event))
}

#[cfg(test)]
mod tests {
    use super::*;

    fn event(blocks: u32, breaks: u32, pieces: &[(u32, u32)]) -> File {
        let pieces = pieces.iter().map(|&(first, length)| Piece { first, length }).collect();
        File { id: 2, blocks, breaks, pieces }
    }

    /// Id 2 of case 11 before the removal and after it.
    #[test]
    fn pieces_that_adjoin_are_one_place() {
        let before = event(7, 0, &[(0, 4), (4, 2), (6, 1)]);
        assert_eq!(lying(&before), "7 blocks in 3 pieces, 0 breaks: (0,4+2+1)");
        let after = event(7, 2, &[(0, 4), (13, 1), (14, 2)]);
        assert_eq!(lying(&after), "7 blocks in 3 pieces, 2 breaks: (0,4) (14,2) (13,1)");
    }

    #[test]
    fn pieces_that_adjoin_by_first_block_alone_are_places_of_their_own() {
        assert_eq!(lying(&event(3, 1, &[(3, 1), (4, 2)])), "3 blocks in 2 pieces, 1 break: (4,2) (3,1)");
        assert_eq!(lying(&event(13, 1, &[(0, 4), (4, 1), (8, 8)])), "13 blocks in 3 pieces, 1 break: (8,8) (0,4+1)");
        assert_eq!(lying(&event(1, 0, &[(3, 1)])), "1 block in 1 piece, 0 breaks: (3,1)");
    }

    #[test]
    fn free_pieces_are_not_joined() {
        let pieces = [(0, 4), (4, 2), (8, 8)].map(|(first, length)| Piece { first, length });
        assert_eq!(free_places(&pieces), "(0,4) (4,2) (8,8)");
        assert_eq!(free_places(&[]), "");
    }
}
