//! The removals that copy most, of a file that goes and of one that is replaced.

use model::{Version, BLOCK};

use crate::both::{Both, Difference};
use crate::call::Call;
use crate::damage::{bytes_in, one_call};
use crate::history::History;
use crate::layouts::staircase;
use crate::letters;
use crate::numbers::Numbers;
use crate::tally::Tally;

/// Makes the calls that copy 2^top - 1 blocks, and so as many as they may. The disks have up to the greatest C, and
/// those that are long are compared by the blocks that the call touched, and then whole once. Gives the number of
/// calls.
pub fn run(version: Version, numbers: &mut Numbers, tally: &mut Tally) -> Result<u64, Difference> {
    let greatest = u32::from(version.most_height()) - 1;
    let (mut made, mut content) = (0, Vec::new());
    for top in (1..greatest.min(12)).chain([greatest]) {
        let catalogue = staircase(version, top);
        let blocks = catalogue.blocks as usize;
        let mut history = History::new(version, blocks, numbers);
        let right = history.right();
        for call in [Call::Remove { id: 1 }, Call::Replace { id: 1, length: 2 * BLOCK, letter: b'Q' }] {
            history.both.set_catalogue(&bytes_in(version, &catalogue));
            set_letter(&mut history.both, catalogue.entries[0].pairs[0].first as usize, b'D');
            call.stamp(&mut content, tally.calls);
            let before = tally.at_bound();
            one_call(&mut history.both, right, &call, &content, Some(&catalogue), tally)?;
            history.both.compare_disks()?;
            if tally.at_bound() != before + 1 {
                return Err(format!("{call}: on {blocks} blocks the limit is not reached"));
            }
            made += 1;
        }
    }
    Ok(made)
}

/// Gives a block the quality letter of a first page.
fn set_letter(both: &mut Both, block: usize, letter: u8) {
    let mut start = both.disk(block + 1).to_vec();
    start[block * BLOCK + letters::PLACE] = letter;
    both.set_disk(&start);
}
