//! The plain book.

use crate::common::{content, reviewed};
use model::{Book, BLOCK};

#[test]
fn the_book_refuses_by_its_lines_alone() {
    let mut book = Book::new(70);
    assert_eq!(book.add(0, &[]), Err(5));
    assert_eq!(book.add(1, &content(1, 3)), Ok(3));
    assert_eq!([book.add(1, &[]), book.add(2, &[]), book.add(2, &[0; 511])], [Err(7), Err(8), Err(8)]);
    assert_eq!(book.add(2, &content(2, 68)), Err(11));
    assert!((2..=64).all(|id| book.add(id, &content(id, 1)) == Ok(1)));
    assert_eq!(book.add(65, &content(65, 5)), Err(10));
    assert_eq!((book.free(), book.check(), book.lines().len()), (4, 70, 64));
}

/// 12 and 13 before 11, and a page more than fits.
#[test]
fn the_book_replaces_a_line() {
    let mut book = Book::new(5);
    let two = book.add(7, &reviewed(7, b'D', 2)).and(book.add(8, &reviewed(8, b'R', 1)));
    assert_eq!((two, book.free()), (Ok(1), 2));
    assert_eq!([book.replace(0, &[]), book.replace(9, &[]), book.replace(7, &[b'M'; 511])], [Err(5), Err(6), Err(8)]);
    let before = book.clone();
    let long = [b'B', b'R', b'D', b'Q'].map(|letter| book.replace(7, &reviewed(7, letter, 5)));
    assert_eq!((long, &book), ([Err(12), Err(13), Err(13), Err(11)], &before));
    assert_eq!(book.replace(7, &reviewed(7, b'Q', 4)), Ok(()));
    assert_eq!((book.free(), book.pages(7), book.pages(8), book.lines().len()), (0, 4, 1, 2));
    assert_eq!(book.read(7, 0, 4 * BLOCK), Ok(&reviewed(7, b'Q', 4)[..]));
}

#[test]
fn the_book_reads_and_strikes() {
    let mut book = Book::new(5);
    assert_eq!(book.add(7, &content(7, 3)), Ok(3));
    assert_eq!([book.read(0, 0, 0), book.read(8, 0, 0), book.read(7, 9, 0)], [Err(5), Err(6), Err(8)]);
    assert_eq!([book.read(7, 2, 2 * BLOCK), book.read(7, u64::MAX, BLOCK)], [Err(9), Err(9)]);
    assert_eq!(book.read(7, 1, 2 * BLOCK), Ok(&content(7, 3)[BLOCK..]));
    assert_eq!([book.breaks(0), book.breaks(8), book.breaks(7)], [Err(5), Err(6), Ok(())]);
    assert_eq!([book.remove(0), book.remove(8), book.remove(7), book.remove(7)], [Err(5), Err(6), Ok(()), Err(6)]);
    assert_eq!(book, Book::new(5));
}

#[test]
fn the_book_knows_which_lines_suffice() {
    let mut book = Book::new(8);
    assert!([(7, 3), (2, 2), (5, 1)].iter().all(|&(id, pages)| book.add(id, &content(id, pages)) == Ok(pages.into())));
    assert_eq!([book.which(0, 0), book.which(0, 64), book.which(1, 63), book.which(9, 65)], [8, 8, 14, 14].map(Err));
    assert_eq!([book.which(1, 64), book.which(2, 64)], [Ok(None), Ok(None)]);
    let ids = |n| book.which(n, 64).map(|ids| ids.map(Vec::from_iter));
    assert_eq!([ids(3), ids(4), ids(5)], [vec![2, 5, 7], vec![2, 7], vec![7]].map(|ids| Ok(Some(ids))));
    assert_eq!([ids(6), ids(u64::MAX)], [Ok(Some(vec![])), Ok(Some(vec![]))]);
}
