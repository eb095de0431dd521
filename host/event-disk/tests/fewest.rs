//! The pieces of files and of the free blocks beside the least number of powers of two that sum to as many blocks,
//! which a search finds: for each number of blocks from 1 to 4,096, and along histories of calls. How many pieces there
//! are is counted in the catalogue by the sums of their lengths. And no catalogue of another division is sound.

mod history;

use event_disk::{Listing, Piece, Refusal, Version, BLOCK};
use model::{all_divisions, divisions, least_pieces, Division};
use std::collections::BTreeSet;

/// The greatest number of blocks of which all are tried.
const MOST: usize = 4096;

/// What the wrapper lists as the pieces of some blocks.
fn listed(blocks: u32, pieces: &[Piece]) -> Division {
    Division { blocks, lengths: pieces.iter().map(|piece| piece.length).collect() }
}

/// Whether each block of the disk is in exactly one piece.
fn tiled(listing: &Listing) -> bool {
    let mut pieces: Vec<Piece> = listing.files.iter().flat_map(|file| &file.pieces).copied().collect();
    pieces.extend(&listing.free_pieces);
    pieces.sort_unstable();
    pieces.into_iter().flat_map(Piece::range).eq(0..listing.blocks as usize)
}

/// Checks a catalogue: the pieces of each file, and the free ones, are those of the listing, of lengths that are powers
/// of two, and as few as such pieces can be. No file has more reads than that.
fn check(cat: &[u8], least: &[u32]) -> Listing {
    let listing = event_disk::list(cat).expect("a sound catalogue");
    let files = listing.files.iter().map(|file| listed(file.blocks, &file.pieces));
    let all: Vec<Division> = files.chain([listed(listing.free, &listing.free_pieces)]).collect();
    assert_eq!(divisions(cat).as_ref(), Some(&all));
    for Division { blocks, lengths } in all {
        assert!(lengths.iter().all(|length| length.is_power_of_two()), "{blocks} blocks: {lengths:?}");
        assert_eq!(lengths.len(), least[blocks as usize] as usize, "{blocks} blocks: {lengths:?}");
    }
    for file in &listing.files {
        assert_eq!(file.reads().len() as u32, file.breaks + 1);
        assert!(file.breaks < least[file.blocks as usize], "{file:?}");
    }
    listing
}

#[test]
fn a_file_of_each_number_of_blocks_and_the_others_free() {
    let (least, content) = (least_pieces(MOST), vec![7; MOST * BLOCK]);
    for version in Version::ALL {
        let (mut cat, mut disk) = (vec![0; version.catalogue], vec![0; MOST * BLOCK]);
        for n in 1..=MOST {
            assert_eq!(event_disk::format(&mut cat, &disk), Ok(MOST as u64));
            assert_eq!(event_disk::add(&mut cat, &mut disk, 5, &content[..n * BLOCK]), Ok(n as u64));
            let listing = check(&cat, &least);
            let files: Vec<_> = listing.files.iter().map(|file| (file.id, file.blocks as usize)).collect();
            assert_eq!((files, listing.free as usize), (vec![(5, n)], MOST - n));
            assert!(tiled(&listing));
        }
    }
}

#[test]
fn a_fresh_disk_of_each_number_of_blocks() {
    let (least, disk) = (least_pieces(MOST), vec![0; MOST * BLOCK]);
    for version in Version::ALL {
        let mut cat = vec![0; version.catalogue];
        for n in 1..=MOST {
            assert_eq!(event_disk::format(&mut cat, &disk[..n * BLOCK]), Ok(n as u64));
            let listing = check(&cat, &least);
            assert_eq!((listing.files.len(), listing.free as usize), (0, n));
            assert!(tiled(&listing));
        }
    }
}

/// Files of up to 8 pieces are seen, and as many free pieces; and files of three pieces and more that are read in one
/// read, in some, and in as many reads as there are pieces.
#[test]
fn along_histories_of_adds_and_removals() {
    let least = least_pieces(65_537);
    for version in Version::ALL {
        let (mut of_files, mut free, mut of_reads) = (BTreeSet::new(), BTreeSet::new(), [0; 3]);
        let disks = [1, 2, 3, 5, 16, 100, 256, 261, 4095, 4096, 4097, 65_537];
        for blocks in disks.into_iter().filter(|&blocks| blocks <= version.most_blocks) {
            history::run(version, blocks, |cat| {
                let listing = check(cat, &least);
                assert!(tiled(&listing));
                free.insert(listing.free_pieces.len());
                of_files.extend(listing.files.iter().map(|file| file.pieces.len()));
                for file in listing.files.iter().filter(|file| file.pieces.len() > 2) {
                    let reads = file.reads().len();
                    of_reads[usize::from(reads > 1) + usize::from(reads == file.pieces.len())] += 1;
                }
            });
        }
        assert!((1..=8).all(|pieces| of_files.contains(&pieces) && free.contains(&pieces)), "{of_files:?} {free:?}");
        assert!(of_reads.iter().all(|times| *times > 10), "{of_reads:?}");
    }
}

/// The catalogue of a disk whose pieces have these lengths, one after the other: the pieces of one file, or free.
fn catalogue(version: Version, lengths: &[u32], is_held: bool) -> Vec<u8> {
    let field = |number: u32| number.to_be_bytes()[4 - version.field..].to_vec();
    let blocks = lengths.iter().sum();
    let mut bytes = [version.number.to_be_bytes().to_vec(), field(blocks), vec![0, u8::from(is_held)]].concat();
    if is_held {
        bytes.extend([vec![0, 5], field(blocks)].concat());
    }
    let mut first = 0;
    for &length in lengths {
        bytes.extend([field(first), field(length)].concat());
        first += length;
    }
    bytes.resize(version.catalogue, 0);
    bytes
}

/// Of all divisions of n blocks the manager takes the one with the fewest pieces alone.
#[test]
fn every_other_division_is_refused() {
    for version in Version::ALL {
        for (n, least) in (0..=40).zip(least_pieces(40)).skip(1) {
            let all = all_divisions(n, 32);
            for (lengths, is_held) in all.iter().flat_map(|lengths| [(lengths, false), (lengths, true)]) {
                let cat = catalogue(version, lengths, is_held);
                let division = Division { blocks: n, lengths: lengths.clone() };
                assert!(divisions(&cat).is_some_and(|divisions| divisions[0] == division));
                let free = if is_held { 0 } else { n.into() };
                let answer = if lengths.len() == least as usize { Ok(free) } else { Err(Refusal::NotSound) };
                assert_eq!(event_disk::free(&cat), answer, "{lengths:?}, held: {is_held}");
            }
        }
    }
}
