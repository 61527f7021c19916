//! One station through twenty years of readings. The cable, the weather, the
//! gain control and the converter are assumed; the equaliser is the station's
//! static library, and error powers are the laboratory's. Beside it runs the
//! same station by the old rule, for comparison.
//!
//! Numbers are whole, or f64 with nothing but + − × ÷ and comparisons, which
//! every machine rounds alike. The pages' dB and axes alone take more.

pub mod agreement;
pub mod assumptions;
pub mod axis;
pub mod burst;
pub mod cable;
pub mod changes;
pub mod comparison;
pub mod converter;
pub mod curve;
pub mod files;
pub mod history;
pub mod old_rule;
pub mod outcome;
pub mod page;
pub mod payload;
pub mod power;
pub mod progress;
pub mod random;
pub mod reader;
pub mod script;
pub mod season;
pub mod station;
pub mod swap;
pub mod swap_page;
pub mod swap_words;
pub mod table;
pub mod view;
pub mod words;
