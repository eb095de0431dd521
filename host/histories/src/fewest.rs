//! The pieces of a catalogue beside the least number of pieces, which a search finds.

use std::sync::OnceLock;

use model::{Division, Version};

use crate::both::Difference;
use crate::watch::require;

/// The least number of pieces of so many blocks, which some disk has.
pub fn least(blocks: u64) -> u64 {
    static TABLE: OnceLock<Vec<u32>> = OnceLock::new();
    let table = TABLE.get_or_init(|| model::least_pieces(Version::LARGE.most_blocks));
    table[blocks as usize].into()
}

/// The blocks of each file, and the free ones, have to lie in the least number of pieces. The pieces are counted in the
/// bytes of the catalogue, whether it is sound or not.
pub fn compare_fewest(cat: &[u8]) -> Result<(), Difference> {
    let divisions = model::divisions(cat).ok_or("the pieces of a catalogue do not sum to its blocks")?;
    divisions.iter().try_for_each(|Division { blocks, lengths }| {
        let (pieces, least) = (lengths.len() as u64, least((*blocks).into()));
        require(pieces == least, || format!("pieces of {blocks} blocks: {pieces}, and the least number is {least}"))
    })
}

#[cfg(test)]
mod tests {
    use model::{sound, Catalogue, Entry, Pair, BLOCK};

    use super::*;
    use crate::call::Call;
    use crate::history::History;
    use crate::numbers::Numbers;
    use crate::tally::Tally;
    use crate::tests::bytes;
    use crate::watch::{compare_state, compare_touched};

    #[test]
    fn the_least_number_up_to_the_greatest_disk() {
        let blocks = [0, 1, 2, 3, 7, 8, 255, 4095, 4096, 65_537, 1_048_575, 1_048_576];
        assert_eq!(blocks.map(least), [0, 1, 1, 2, 3, 1, 8, 12, 1, 2, 20, 1]);
    }

    fn pairs(pairs: &[(u32, u32)]) -> Vec<Pair> {
        pairs.iter().map(|&(first, length)| Pair { first, length }).collect()
    }

    /// A disk of 16 blocks with id 3 at (0,4) (4,1) and id 4 at (6,2), so that (5,1) and (8,8) are free.
    fn two_files(version: Version) -> History {
        let mut history = History::new(version, 16, &mut Numbers::from_seed(1));
        let adds = [(3, 5), (4, 2)].map(|(id, n)| Call::Add { id, length: n * BLOCK, letter: b'D' });
        for call in [Call::Format].into_iter().chain(adds) {
            let right = history.right();
            assert!(history.step(&call, right, 1, &mut Tally::default()).expect("no difference").is_ok());
        }
        history
    }

    /// What is told of a catalogue in the place of the right one. Both comparisons tell the same.
    fn told(history: &mut History, files: [&[(u32, u32)]; 2], free: &[(u32, u32)]) -> Result<(), Difference> {
        let entry = |id, blocks, file| Entry { id, blocks, pairs: pairs(file) };
        let entries = vec![entry(3, 5, files[0]), entry(4, 2, files[1])];
        let version = history.both.version;
        let catalogue = Catalogue { version, blocks: 16, entries, free: pairs(free) };
        history.both.set_catalogue(&bytes(&catalogue));
        let told = compare_state(&history.book, &history.both);
        assert_eq!(compare_touched(&history.book, &history.both), told);
        assert_eq!(sound(&bytes(&catalogue)).is_some(), told.is_ok());
        told
    }

    /// More pieces than the least number, and fewer, of either file and of the free blocks.
    #[test]
    fn another_number_of_pieces_is_seen() {
        for version in Version::ALL {
            let history = &mut two_files(version);
            let (three, four, free) = (&[(0, 4), (4, 1)], &[(6, 2)], &[(5, 1), (8, 8)]);
            assert_eq!(told(history, [three, four], free), Ok(()));
            let other = |blocks: u32, pieces: u32, least: u32| {
                Err(format!("pieces of {blocks} blocks: {pieces}, and the least number is {least}"))
            };
            assert_eq!(told(history, [&[(0, 2), (2, 2), (4, 1)], four], free), other(5, 3, 2));
            assert_eq!(told(history, [&[(0, 5)], four], free), other(5, 1, 2));
            assert_eq!(told(history, [three, &[(6, 1), (7, 1)]], free), other(2, 2, 1));
            assert_eq!(told(history, [three, four], &[(5, 1), (8, 4), (12, 4)]), other(9, 3, 2));
            assert_eq!(told(history, [three, four], &[(5, 9)]), other(9, 1, 2));
            let no_sum = Err("the pieces of a catalogue do not sum to its blocks".to_string());
            assert_eq!(told(history, [&[(0, 4), (4, 2)], four], free), no_sum);
            assert_eq!(told(history, [three, four], &[(5, 1)]), no_sum);
        }
    }
}
