//! Step sizes on a cable that a person describes. The laboratory's library
//! makes a trace for each step size and reads what the station's hands out.
//!
//! * [`share`]: a share of the greatest admitted M.
//! * [`words`]: the text as words with their lines.
//! * [`text`]: the text as a cable and step sizes, with every line that is wrong.
//! * [`cable`]: the trace of each step size.
//! * [`refusal`]: why the library turned a cable down.
//! * [`run`]: a trace through the station, block by block.
//! * [`table`], [`readings`], [`summary`]: what came of it, in rows and in
//!   sentences.
//! * [`counts`], [`page`], [`script`]: the picture.

pub mod cable;
pub mod counts;
pub mod page;
pub mod readings;
pub mod refusal;
pub mod run;
pub mod script;
pub mod share;
pub mod summary;
pub mod table;
pub mod text;
pub mod words;
