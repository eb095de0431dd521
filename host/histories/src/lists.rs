//! What lists of removals were, counted.

use model::{FITS_ALREADY, MOST_FILES};

/// Counts of calls of which that were answered.
#[derive(Clone, Copy, Default)]
pub struct Lists {
    /// It fitted already, and no file suffices.
    pub fits: u64,
    pub none: u64,
    /// Lists with an id, and those of the most files.
    some: u64,
    pub most: u64,
    /// The ids of all lists, and the lists in which one stands before a lower one.
    ids: u64,
    pub falling: u64,
}

impl Lists {
    /// Counts an answer with its list.
    pub fn note(&mut self, answer: u64, list: &[u16]) {
        let ids = if answer == FITS_ALREADY { 0 } else { answer };
        let falling = list[..ids as usize].windows(2).any(|two| two[0] > two[1]);
        *self = self.with(Lists {
            fits: u64::from(answer == FITS_ALREADY),
            none: u64::from(answer == 0),
            some: u64::from(ids > 0),
            most: u64::from(ids == MOST_FILES as u64),
            ids,
            falling: u64::from(falling),
        });
    }

    /// These and others.
    pub fn with(self, other: Lists) -> Lists {
        Lists {
            fits: self.fits + other.fits,
            none: self.none + other.none,
            some: self.some + other.some,
            most: self.most + other.most,
            ids: self.ids + other.ids,
            falling: self.falling + other.falling,
        }
    }

    /// Prints all counts.
    pub fn print(&self) {
        let Lists { fits, none, some, most, ids, falling } = self;
        println!(
            "  of which, {fits} times it fitted already, {none} times no file sufficed; {ids} ids in {some} lists,"
        );
        println!("  {falling} of them with an id before a lower one, {most} with {MOST_FILES} ids");
    }
}

#[cfg(test)]
mod tests {
    use super::*;

    #[test]
    fn lists_of_each_kind_are_counted() {
        let mut lists = Lists::default();
        let mut all: Vec<u16> = (1..=64).collect();
        for (answer, ids) in [(FITS_ALREADY, &[][..]), (0, &[]), (2, &[4, 9]), (3, &[4, 9, 5]), (64, &all)] {
            let mut list = [0; MOST_FILES];
            list[..ids.len()].copy_from_slice(ids);
            lists.note(answer, &list);
        }
        all.swap(62, 63);
        lists.note(64, &all);
        let twice = lists.with(lists);
        assert_eq!([twice.fits, twice.none, twice.some, twice.most], [2, 2, 8, 4]);
        assert_eq!([twice.ids, twice.falling], [2 * (2 + 3 + 64 + 64), 4]);
    }
}
