//! Lists of calls on the static libraries and on the second implementation side by side, every figure of demand 3
//! computed from outside, and failing lists made short and saved.
//!
//! * [`lists`], [`calls`]: the calls of a list.
//! * [`cables`]: cables, and what is checked of them.
//! * [`bench`]: one call on both sides, and everything that is checked.
//! * [`readings`]: the readings of what a block hands out, with what is checked of them.
//! * [`swapped`]: swapped pairs along a list, with what is checked of them.
//! * [`pieces`]: the library's record after each sample of a block.
//! * [`figures`]: the numbers of a block from the library's records and outputs.
//! * [`report`]: what was covered.
//! * [`kinds`], [`laboratory`]: built-in faults, and the sides that have them.
//! * [`format`]: a list as text.
//! * [`shrink`]: a shorter list that still fails.
//! * [`run`]: many lists, and what is printed.
//! * [`stop`], [`progress`]: a signal that asks a run to stop, and how far a run is.
//! * [`arguments`]: what is asked for.

pub mod arguments;
pub mod bench;
pub mod cables;
pub mod calls;
pub mod figures;
pub mod format;
pub mod kinds;
pub mod laboratory;
pub mod lists;
pub mod pieces;
pub mod progress;
pub mod readings;
pub mod report;
pub mod run;
pub mod shrink;
pub mod stop;
pub mod swapped;
