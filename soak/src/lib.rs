//! Lists of calls on the static library and on the second implementation side
//! by side, every figure of demand 3 computed from outside, and failing lists
//! made short and saved.
//!
//! * [`lists`]: the calls of a list.
//! * [`cables`]: cables, with what is checked of them, their text, and shrinking.
//! * [`bench`]: one call on both sides, and everything that is checked.
//! * [`readings`]: the readings of what a block hands out, with what is checked of them.
//! * [`swapped`]: swapped pairs along a list, with what is checked of them.
//! * [`pieces`]: the library's record after each sample of a block.
//! * [`figures`]: the numbers of a block from the library's records and outputs.
//! * [`faults`]: built-in faults.
//! * [`format`]: a list as text.
//! * [`shrink`]: a shorter list that still fails.
//! * [`soak`]: many lists, and what is printed.
//! * [`stop`]: a signal that asks a run to stop.
//! * [`arguments`]: what is asked for.

pub mod arguments;
pub mod bench;
pub mod cables;
pub mod faults;
pub mod figures;
pub mod format;
pub mod lists;
pub mod pieces;
pub mod progress;
pub mod readings;
pub mod report;
pub mod shrink;
pub mod soak;
pub mod stop;
pub mod swapped;
