//! The gain control and the converter ahead of the equaliser. Neither is part
//! of what is proved.

/// A power of two, exactly.
pub fn power_of_two(exponent: i32) -> f64 {
    let size = (1u64 << exponent.unsigned_abs()) as f64;
    if exponent < 0 {
        1.0 / size
    } else {
        size
    }
}

/// The greatest level that a gain can take: 2^(r−g).
pub fn full_scale(r: u8, gain: u8) -> f64 {
    power_of_two(i32::from(r) - i32::from(gain))
}

/// The rule: the greatest gain from L to 15 at which headroom times the level
/// stays below full scale, and L where none does.
pub fn gain_for(level: f64, headroom: f64, r: u8, least: u8) -> u8 {
    let fits = |gain: &u8| headroom * level < full_scale(r, *gain);
    (least..=15).rev().find(fits).unwrap_or(least)
}

/// The sample of a level: 16 bits, to the nearest step, and to the end of the
/// range beyond it. Also whether it went beyond.
pub fn convert(x: f64, r: u8, gain: u8) -> (i16, bool) {
    let m = (x / full_scale(r, gain) * 32768.0).round();
    (m as i16, !(-32768.0..=32767.0).contains(&m))
}

/// The largest magnitude among levels.
pub fn peak(levels: &[f64]) -> f64 {
    levels.iter().fold(0.0, |most, x| x.abs().max(most))
}
