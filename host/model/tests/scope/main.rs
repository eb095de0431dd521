//! The second implementation and the book against the scope document.

mod book;
mod breaks;
mod cases;
mod common;
mod division;
mod free_buddies;
mod held_blocks;
mod refusals;
mod replace;
mod soundness;
mod versions;
mod which;
mod wrong_turns;
