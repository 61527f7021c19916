//! What the tools with pictures share.
//!
//! * [`program`], [`text`]: arguments, and texts of lines `key = value`, with every line that is wrong.
//! * [`block`], [`power`]: a block through the station's library, read by the laboratory's.
//! * [`words`], [`axis`], [`curve`], [`page`], [`script`]: a page and all that is drawn on it.
//! * [`files`]: the files of a run, the pictures among them.
//! * [`random`]: numbers that are the same for a seed on every machine.

pub mod axis;
pub mod block;
pub mod curve;
pub mod files;
pub mod page;
pub mod power;
pub mod program;
pub mod random;
pub mod script;
pub mod text;
pub mod words;
