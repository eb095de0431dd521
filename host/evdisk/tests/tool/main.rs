//! The tool as its users meet it: words, statuses, JSON, files, and what is left when it is cut off.

#![forbid(unsafe_code)]

mod breaks;
mod commands;
mod crashes;
mod cut;
mod dry_run;
mod help;
mod json;
mod large;
mod locks;
mod refusals;
mod replacing;
mod room;
mod scratch;
mod swapped;
mod which;
