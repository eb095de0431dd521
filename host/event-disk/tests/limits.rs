//! The limits of both catalogues, on both sides, and what `list` reads from each.

use event_disk::{Listing, Piece, Read, Refusal, Version, BLOCK};

/// Formats a disk of so many bytes in a catalogue of so many, which a refusal must leave as it is.
fn formatted(catalogue: usize, disk: usize) -> Result<Vec<u8>, Refusal> {
    let (mut cat, disk) = (vec![7; catalogue], vec![0; disk]);
    let answer = event_disk::format(&mut cat, &disk);
    assert!(answer.is_ok() || cat == vec![7; catalogue], "a refused format changed the catalogue");
    answer.map(|blocks| {
        assert_eq!(blocks as usize, disk.len() / BLOCK);
        cat
    })
}

#[test]
fn format_takes_catalogues_of_either_length_alone() {
    for catalogue in [0, 1, 512, 4095, 4097, 8192, 12_288, 16_383, 16_385, 32_768] {
        assert_eq!(formatted(catalogue, BLOCK), Err(Refusal::CatalogueLength), "{catalogue} bytes");
    }
    for Version { catalogue, .. } in Version::ALL {
        assert!(formatted(catalogue, BLOCK).is_ok());
    }
}

#[test]
fn a_disk_has_as_many_blocks_as_its_version_lets_it() {
    for Version { catalogue, most_blocks, .. } in Version::ALL {
        for blocks in [1, 2, most_blocks - 1, most_blocks] {
            assert!(formatted(catalogue, blocks * BLOCK).is_ok(), "{blocks} blocks");
        }
        for disk in [0, 1, BLOCK - 1, BLOCK + 1, most_blocks * BLOCK - 1, (most_blocks + 1) * BLOCK] {
            assert_eq!(formatted(catalogue, disk), Err(Refusal::NoDisk), "{disk} bytes");
        }
    }
}

#[test]
fn a_version_that_does_not_suit_its_catalogue_is_not_sound() {
    for Version { catalogue, number, .. } in Version::ALL {
        let mut cat = formatted(catalogue, BLOCK).expect("a disk of one block");
        for other in (0..=3).filter(|other| *other != number) {
            cat[..2].copy_from_slice(&other.to_be_bytes());
            assert_eq!(event_disk::free(&cat), Err(Refusal::NotSound), "version {other} in {catalogue} bytes");
            assert_eq!(event_disk::list(&cat), Err(Refusal::NotSound));
        }
        cat.push(0);
        assert_eq!(event_disk::free(&cat), Err(Refusal::CatalogueLength));
    }
}

fn empty(version: Version, blocks: u32, pieces: &[(u32, u32)]) -> Listing {
    let free_pieces = pieces.iter().map(|&(first, length)| Piece { first, length }).collect();
    Listing { version, blocks, free: blocks, files: vec![], free_pieces }
}

#[test]
fn empty_disks_are_listed_at_the_limits() {
    let listed = |version: Version, blocks: usize| {
        event_disk::list(&formatted(version.catalogue, blocks * BLOCK).expect("a disk")).expect("a sound catalogue")
    };
    assert_eq!(listed(Version::SMALL, 4096), empty(Version::SMALL, 4096, &[(0, 4096)]));
    assert_eq!(listed(Version::LARGE, 4097), empty(Version::LARGE, 4097, &[(0, 4096), (4096, 1)]));
    assert_eq!(listed(Version::LARGE, 65_537), empty(Version::LARGE, 65_537, &[(0, 65_536), (65_536, 1)]));
    assert_eq!(listed(Version::LARGE, 1 << 20), empty(Version::LARGE, 1 << 20, &[(0, 1 << 20)]));
    let pieces: Vec<_> = (0..20).rev().map(|height| ((1 << 20) - (2 << height), 1 << height)).collect();
    assert_eq!(listed(Version::LARGE, (1 << 20) - 1), empty(Version::LARGE, (1 << 20) - 1, &pieces));
}

#[test]
fn files_are_listed_with_their_pieces_in_either_version() {
    for version in Version::ALL {
        let (mut cat, mut disk) = (vec![0; version.catalogue], vec![0; 300 * BLOCK]);
        event_disk::format(&mut cat, &disk).expect("a disk");
        event_disk::add(&mut cat, &mut disk, 65_535, &[1; 259 * BLOCK]).expect("there is space");
        event_disk::add(&mut cat, &mut disk, 256, &[2; BLOCK]).expect("there is space");
        let listing = event_disk::list(&cat).expect("a sound catalogue");
        assert_eq!((listing.version, listing.blocks, listing.free), (version, 300, 40));
        let files: Vec<_> = listing.files.iter().map(|file| (file.id, file.blocks)).collect();
        assert_eq!(files, [(256, 1), (65_535, 259)]);
        let held = |file: usize| listing.files[file].in_page_order();
        let lengths: Vec<_> = held(1).iter().map(|piece| piece.length).collect();
        assert_eq!(lengths, [256, 2, 1]);
        assert_eq!(held(1)[0], Piece { first: 0, length: 256 });
        assert_eq!([0, 1].map(|file: usize| listing.files[file].breaks), [0, 1]);
        let read = |first, lengths: &[u32]| Read { first, lengths: lengths.to_vec() };
        assert_eq!(listing.files[0].reads(), [read(299, &[1])]);
        assert_eq!(listing.files[1].reads(), [read(0, &[256]), read(296, &[2, 1])]);
        let pieces = listing.files.iter().flat_map(|file| &file.pieces).chain(&listing.free_pieces);
        assert_eq!(pieces.map(|piece| piece.length).sum::<u32>(), 300);
    }
}
