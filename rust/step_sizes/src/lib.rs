//! Step sizes on a cable that a person describes. The laboratory's library makes a trace for each step size and reads what
//! the station's hands out.
//!
//! * [`share`]: a share of the greatest admitted M.
//! * [`text`], [`level`]: the text as a cable and step sizes, with every line that is wrong.
//! * [`run`]: the trace of a step size through the station, block by block.
//! * [`table`], [`summary`]: what came of it, in rows and in sentences.
//! * [`counts`], [`page`]: the picture.

pub mod counts;
pub mod level;
pub mod page;
pub mod run;
pub mod share;
pub mod summary;
pub mod table;
pub mod text;
