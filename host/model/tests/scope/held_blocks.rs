//! Of a buddy that moves only the blocks of files are copied: wrong turns at that, each on a disk where it would show.

use crate::common::{bytes, in_each_version, page, Station};
use model::{carries, removal_copies, sound, BlockMap, Version, BLOCK};

/// The removal of id 1 moves the buddy (8,8) to (16,8). Inside the buddy (9,1) and (12,2) are free, and they have other
/// bytes than the blocks that they move to.
fn two_free_pieces_in_the_buddy(version: Version) -> Station {
    let files: &[_] = &[(1, 8, &[(0, 8)][..]), (2, 3, &[(8, 1), (10, 2)]), (3, 2, &[(14, 2)]), (4, 8, &[(24, 8)])];
    let mut station = Station::laid_out(version, 32, files, &[(9, 1), (12, 2), (16, 8)]);
    for block in [9, 12, 13] {
        station.disk[block * BLOCK..][..BLOCK].fill(0x33);
    }
    station
}

#[test]
fn the_blocks_behind_a_free_piece_are_copied_too() {
    in_each_version(|version| {
        let mut station = two_free_pieces_in_the_buddy(version);
        let copies = vec![(8, 16), (10, 18), (11, 19), (14, 22), (15, 23)];
        assert_eq!(removal_copies(&station.cat, &station.disk, 1), Ok(copies));
        station.remove(1).expect("id 1 is there");
        assert!(station.reads_back(2, 3) && station.reads_back(3, 2) && station.reads_back(4, 8));
        assert_eq!([station.block(18), station.block(19), station.block(16)], [0, 1, 2].map(|number| page(2, number)));
    });
}

#[test]
fn free_blocks_are_not_copied_though_their_pieces_move() {
    in_each_version(|version| {
        let mut station = two_free_pieces_in_the_buddy(version);
        let before = station.disk.clone();
        station.remove(1).expect("id 1 is there");
        let files: &[_] = &[(2, 3, &[(16, 1), (18, 2)][..]), (3, 2, &[(22, 2)]), (4, 8, &[(24, 8)])];
        station.lists(32, files, &[(0, 16), (17, 1), (20, 2)]);
        let changed: Vec<usize> = (0..32)
            .filter(|block| station.disk[block * BLOCK..][..BLOCK] != before[block * BLOCK..][..BLOCK])
            .collect();
        assert_eq!(changed, [16, 18, 19, 22, 23]);
        assert!([17, 20, 21].into_iter().all(|number| station.block(number) == [0xCD; BLOCK]));
    });
}

#[test]
fn the_count_is_of_the_blocks_copied() {
    in_each_version(|version| {
        assert_eq!(carries(11, 8), 8, "the limit is that of the whole buddy as before");
        assert_eq!(two_free_pieces_in_the_buddy(version).remove(1), Ok(5));
    });
}

/// A buddy may be free but for its first block, or but for its last: at every height that one is copied.
#[test]
fn one_held_block_is_copied_wherever_it_stands() {
    in_each_version(|version| {
        for height in 0..version.most_height() - 1 {
            let length: u32 = 1 << height;
            let after_it: Vec<_> = (0..height).map(|below| (length + (1 << below), 1 << below)).collect();
            let before_it: Vec<_> = (0..height).rev().map(|below| (2 * length - (2 << below), 1 << below)).collect();
            for (block, inside) in [(length, after_it), (2 * length - 1, before_it)] {
                let others = [(1, length, &[(0, length)][..]), (3, length, &[(3 * length, length)])];
                let free = [&inside[..], &[(2 * length, length)]].concat();
                let files = bytes(version, 4 * length, &[others[0], (2, 1, &[(block, 1)]), others[1]], &free);
                let mut map = BlockMap::of(&sound(&files).expect("it is sound"));
                let copies: Vec<_> = map.remove(1).into_iter().flat_map(|moved| moved.copies).collect();
                assert_eq!(copies, [(block as usize, (block + length) as usize)], "height {height}");
                let moved = inside.iter().map(|&(first, piece)| (first + length, piece));
                let free: Vec<_> = [(0, 2 * length)].into_iter().chain(moved).collect();
                let after = bytes(version, 4 * length, &[(2, 1, &[(block + length, 1)]), others[1]], &free);
                assert_eq!(Some(map.catalogue()), sound(&after));
            }
        }
    });
}
