//! One station through twenty years of readings. The cable, the weather, the gain control and the converter are assumed;
//! the equaliser is the station's static library, and error powers are the laboratory's.
//!
//! Numbers are whole, or f64 with nothing but + − × ÷ and comparisons, which every machine rounds alike. The pages' dB and
//! axes alone take more.

pub mod agreement;
pub mod assumptions;
pub mod burst;
pub mod cable;
pub mod converter;
pub mod history;
pub mod outcome;
pub mod page;
pub mod payload;
pub mod progress;
pub mod season;
pub mod station;
pub mod swap;
pub mod swap_page;
pub mod swap_words;
pub mod table;
pub mod view;
