//! The bytes of a trace from a text that a person writes, and back.
//!
//! * [`trace`]: a trace and its bytes.
//! * [`text`]: a text to a trace, with every line that is wrong.
//! * [`show`]: a trace to a text.
//! * [`refusals`]: what the trace program turns down.
//! * [`files`]: reading and writing.
//! * [`arguments`]: what is asked for.

pub mod arguments;
pub mod files;
pub mod refusals;
pub mod show;
pub mod text;
pub mod trace;

/// Something that is wrong in a line of a text.
#[derive(Clone, Debug, PartialEq, Eq)]
pub struct Problem {
    pub line: usize,
    pub text: String,
}

impl Problem {
    pub fn new(line: usize, text: impl Into<String>) -> Problem {
        let text = text.into();
        Problem { line, text }
    }
}
