//! The bytes of a trace from a text that a person writes, and back.
//!
//! * [`trace`]: a trace, its bytes, and a text that makes it again.
//! * [`text`]: a text to a trace, with every line that is wrong or that the trace program turns down.
//! * [`files`]: reading and writing.

pub mod files;
pub mod text;
pub mod trace;

/// Something that is wrong in a line of a text.
#[derive(Clone, Debug, PartialEq, Eq)]
pub struct Problem {
    pub line: usize,
    pub text: String,
    /// The number and the block with which the trace program turns the trace down. Without it no trace can be made.
    pub stop: Option<(u8, usize)>,
}

impl Problem {
    pub fn new(line: usize, text: impl Into<String>) -> Problem {
        Problem { line, text: text.into(), stop: None }
    }
}
