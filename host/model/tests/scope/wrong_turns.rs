//! The wrong turns that the scheme invites, each on a disk where it would show, and the limit on copies.

use std::ops::Range;

use crate::common::{bytes, in_each_version, page, File, Pairs, Station};
use model::{carries, removal_copies, sound, BlockMap, Catalogue, Move, Version, BLOCK};

/// The heights with so many heights above them that are tried with all bytes of a disk. Higher ones, which would need
/// long disks, are tried on the map of blocks alone.
fn heights_on_a_disk(version: Version, above: u8) -> Range<u8> {
    0..version.most_height().min(14) + 1 - above
}

/// The buddies that the removal of id 1 moves on the map of blocks, and the catalogue after it.
fn removed(version: Version, blocks: u32, files: &[File], free: Pairs) -> (Vec<Move>, Catalogue) {
    let mut map = BlockMap::of(&sound(&bytes(version, blocks, files, free)).expect("it is sound"));
    (map.remove(1), map.catalogue())
}

/// Pieces are read longest first, also where the pairs stand in another order.
#[test]
fn pieces_are_not_read_in_the_order_of_the_pairs() {
    in_each_version(|version| {
        let station = Station::laid_out(version, 8, &[(4, 7, &[(0, 1), (2, 2), (4, 4)])], &[(1, 1)]);
        let order = [4, 5, 6, 7, 2, 3, 0];
        for (number, block) in order.into_iter().enumerate() {
            let mut out = vec![0; BLOCK];
            assert_eq!(model::read(&station.cat, &station.disk, 4, number as u64, &mut out), Ok(1));
            assert_eq!((&out[..], &out[..]), (station.block(block), &page(4, number as u32)[..]));
        }
    });
}

/// A free piece inside the buddy goes with it.
#[test]
fn a_small_free_piece_moves_with_the_buddy() {
    in_each_version(|version| {
        let files: &[_] = &[(1, 2, &[(4, 2)][..]), (2, 1, &[(2, 1)])];
        let mut station = Station::laid_out(version, 6, files, &[(0, 2), (3, 1)]);
        assert_eq!(station.remove(1), Ok(1));
        station.lists(6, &[(2, 1, &[(4, 1)])], &[(0, 4), (5, 1)]);
    });
}

/// Two free buddies become one section without a copy, at every height.
#[test]
fn free_buddies_are_merged_without_a_copy() {
    in_each_version(|version| {
        for height in heights_on_a_disk(version, 1) {
            let length = 1 << height;
            let files: &[_] = &[(1, length, &[(length, length)][..])];
            let mut station = Station::laid_out(version, 2 * length, files, &[(0, length)]);
            let disk = station.disk.clone();
            assert_eq!(station.remove(1), Ok(0), "height {height}");
            station.lists(2 * length, &[], &[(0, 2 * length)]);
            assert_eq!(station.disk, disk);
        }
    });
}

/// The last section of a height gets no buddy past the end: its free piece takes the buddy of a lower one.
#[test]
fn the_last_section_of_each_height_has_no_buddy_past_the_end() {
    in_each_version(|version| {
        for height in heights_on_a_disk(version, 2) {
            let length = 1 << height;
            let files: &[_] = &[(1, length, &[(2 * length, length)][..]), (2, length, &[(0, length)])];
            let mut station = Station::laid_out(version, 3 * length, files, &[(length, length)]);
            assert_eq!(station.remove(1), Ok(u64::from(length)), "height {height}");
            let moved: &[_] = &[(2, length, &[(2 * length, length)][..])];
            station.lists(3 * length, moved, &[(0, 2 * length)]);
            assert!(station.reads_back(2, length));
            assert_eq!(carries(u64::from(length), u64::from(length)), u64::from(length));
        }
    });
}

/// The same two at the heights of each version up to the greatest.
#[test]
fn buddies_and_last_sections_of_every_height() {
    in_each_version(|version| {
        for height in 0..version.most_height() {
            let length: u32 = 1 << height;
            let files: &[_] = &[(1, length, &[(length, length)][..])];
            let (moves, after) = removed(version, 2 * length, files, &[(0, length)]);
            assert_eq!(moves, [], "height {height}");
            assert_eq!(sound(&bytes(version, 2 * length, &[], &[(0, 2 * length)])), Some(after));
        }
        for height in 0..version.most_height() - 1 {
            let length: u32 = 1 << height;
            let files: &[_] = &[(1, length, &[(2 * length, length)][..]), (2, length, &[(0, length)])];
            let (moves, after) = removed(version, 3 * length, files, &[(length, length)]);
            let [moved] = &moves[..] else { panic!("{} buddies move at height {height}", moves.len()) };
            let (end, up) = (length as usize, 2 * length as usize);
            assert_eq!((&moved.from, &moved.to), (&(0..end), &(up..up + end)));
            assert!(moved.copies.iter().copied().eq((0..end).map(|block| (block, up + block))), "height {height}");
            let moved: &[_] = &[(2, length, &[(2 * length, length)][..])];
            assert_eq!(sound(&bytes(version, 3 * length, moved, &[(0, 2 * length)])), Some(after));
        }
    });
}

/// Merging goes on above heights where nothing was merged.
#[test]
fn merging_does_not_stop_at_a_height_without_two() {
    in_each_version(|version| {
        let files: &[_] = &[(1, 5, &[(6, 1), (8, 4)][..]), (2, 1, &[(7, 1)])];
        let mut station = Station::laid_out(version, 12, files, &[(0, 4), (4, 2)]);
        assert_eq!(station.remove(1), Ok(1));
        station.lists(12, &[(2, 1, &[(11, 1)])], &[(0, 8), (8, 2), (10, 1)]);
        assert!(station.reads_back(2, 1));
    });
}

/// Each copy is made at its step: a page that moves at two heights is copied twice, and this meets the limit.
#[test]
fn a_page_may_be_copied_more_than_once() {
    in_each_version(|version| {
        let files: &[_] = &[(1, 1, &[(2, 1)][..]), (2, 1, &[(1, 1)]), (3, 1, &[(3, 1)]), (4, 2, &[(4, 2)])];
        let mut station = Station::laid_out(version, 8, files, &[(0, 1), (6, 2)]);
        assert_eq!(removal_copies(&station.cat, &station.disk, 1), Ok(vec![(1, 2), (2, 6), (3, 7)]));
        assert_eq!(station.remove(1), Ok(carries(3, 1)));
        let files: &[_] = &[(2, 1, &[(6, 1)][..]), (3, 1, &[(7, 1)]), (4, 2, &[(4, 2)])];
        station.lists(8, files, &[(0, 4)]);
        assert_eq!([station.block(2), station.block(6)], [page(2, 0), page(2, 0)]);
    });
}
