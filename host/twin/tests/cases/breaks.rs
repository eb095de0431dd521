//! Breaks, on the twin, in every version: none where a piece starts right after the one before it in page order.

use crate::case_6;
use crate::station::{bytes_of, Pair, Station};
use twin::{breaks, Version, BLOCK};

/// (0,2) (2,1) are read as blocks 0, 1, 2, and (4,2) (3,1) as blocks 4, 5, 3.
#[test]
fn case_4_and_a_file_that_adjoins_by_first_blocks_alone() {
    for version in Version::ALL {
        let two = Station::fresh(version, 16).with(5, 3).with(6, 3);
        let two = two.has(&[(5, &[(0, 2), (2, 1)]), (6, &[(3, 1), (4, 2)])], &[(6, 2), (8, 8)]);
        assert_eq!([0, 4, 5, 6].map(|id| breaks(&two.cat, id)), [Err(5), Err(6), Ok(0), Ok(1)]);
    }
}

/// Id 7 at (8,8) (6,2).
#[test]
fn case_8() {
    for version in Version::ALL {
        let eight = case_6(version).with(7, 10);
        assert_eq!([2, 5, 7, 9].map(|id| breaks(&eight.cat, id)), [Ok(0), Ok(0), Ok(1), Ok(0)]);
    }
}

/// Id 2 at (0,4) (4,2) (6,1) and then at (0,4) (14,2) (13,1); id 3 at (8,4) (12,1).
#[test]
fn case_11() {
    for version in Version::ALL {
        let files: [(u16, &[Pair]); 3] = [(1, &[(13, 1)]), (2, &[(0, 4), (4, 2), (6, 1)]), (3, &[(8, 4), (12, 1)])];
        let cat = bytes_of(version, 16, &files, &[(7, 1), (14, 2)]);
        let before = Station { version, cat, disk: vec![0; 16 * BLOCK] };
        assert_eq!([1, 2, 3].map(|id| breaks(&before.cat, id)), [Ok(0), Ok(0), Ok(0)]);
        let after = before.without(1, 3);
        assert_eq!([1, 2, 3].map(|id| breaks(&after.cat, id)), [Err(6), Ok(2), Ok(0)]);
    }
}

/// A file on a disk of which others have the rest: where it lies, by rising first block, and its breaks.
#[test]
fn pieces_that_adjoin_here_and_there() {
    let rows: [(&[Pair], &[Pair], u64); 8] = [
        (&[(0, 1), (2, 2), (4, 4)], &[(1, 1)], 2),
        (&[(3, 1), (4, 4), (8, 8)], &[(0, 2), (2, 1)], 2),
        (&[(0, 8), (8, 2), (11, 1), (12, 4)], &[(10, 1)], 3),
        (&[(0, 4), (4, 2), (7, 1)], &[(6, 1)], 1),
        (&[(2, 2), (4, 1), (8, 4)], &[(0, 2), (5, 1), (6, 2), (12, 4)], 1),
        (&[(3, 1), (8, 4), (12, 2), (16, 8)], &[(0, 2), (2, 1), (4, 4), (14, 2)], 2),
        (&[(0, 2), (2, 1), (8, 8), (16, 4)], &[(3, 1), (4, 4)], 1),
        (&[(16, 8), (24, 4), (28, 2), (30, 1)], &[(0, 16), (31, 1)], 0),
    ];
    for version in Version::ALL {
        for (pairs, others, expected) in rows {
            let blocks: u32 = pairs.iter().chain(others).map(|pair| pair.1).sum();
            let others = (5..).zip(others).map(|(id, pair)| (id, std::slice::from_ref(pair)));
            let files: Vec<(u16, &[Pair])> = [(4, pairs)].into_iter().chain(others).collect();
            let cat = bytes_of(version, blocks as usize, &files, &[]);
            assert_eq!(breaks(&cat, 4), Ok(expected), "{pairs:?}");
        }
    }
}
