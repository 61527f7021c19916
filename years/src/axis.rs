//! The range of an axis and the places of its labels, for whatever is drawn.

#[derive(Clone, Debug, PartialEq)]
pub struct Axis {
    pub low: f64,
    pub high: f64,
    /// Where labels stand, each with its text.
    pub labels: Vec<(f64, String)>,
    pub logarithmic: bool,
}

/// The least of 1, 2 and 5 times a power of ten with which so many steps reach
/// across, and none below `finest`.
fn step_across(across: f64, most: u32, finest: f64) -> f64 {
    let steps = (-12..=12).flat_map(|power| [1.0, 2.0, 5.0].map(|digit| (digit, power)));
    let mut sizes = steps.map(|(digit, power)| scaled(digit, power));
    let fits = |step: &f64| *step >= finest * 0.999 && *step * f64::from(most) >= across * 0.999;
    sizes.find(fits).unwrap_or(1e13)
}

/// A digit times a power of ten, as near as its decimals say.
fn scaled(digit: f64, power: i32) -> f64 {
    if power < 0 {
        digit / 10f64.powi(-power)
    } else {
        digit * 10f64.powi(power)
    }
}

fn decimals(step: f64) -> usize {
    (0..12)
        .find(|n| step * 10f64.powi(*n) > 0.999)
        .unwrap_or(12) as usize
}

/// Multiples of the step from low to high.
fn labels(low: f64, high: f64, step: f64) -> Vec<(f64, String)> {
    let (first, last) = ((low / step - 0.001).ceil(), (high / step + 0.001).floor());
    let digits = decimals(step);
    (0..=(last - first) as u32)
        .map(|n| {
            let value = (first + f64::from(n)) * step + 0.0;
            (value, format!("{value:.digits$}"))
        })
        .collect()
}

impl Axis {
    pub fn holds(&self, value: f64) -> bool {
        (self.low..=self.high).contains(&value)
    }

    /// From one round number to another, around all that is between, with a
    /// little room at an end that is not 0.
    pub fn around(least: f64, greatest: f64, most: u32, finest: f64) -> Axis {
        let room = (greatest - least) * 0.02 + finest * 0.1;
        let room_at = |end: f64| if end == 0.0 { 0.0 } else { room };
        let (least, greatest) = (least - room_at(least), greatest + room_at(greatest));
        let mut step = step_across(greatest - least, most, finest);
        let ends = |step: f64| {
            let low = (least / step + 0.001).floor();
            let high = (greatest / step - 0.001).ceil();
            (low, high.max(low + 1.0))
        };
        while ends(step).1 - ends(step).0 > f64::from(most) {
            step = step_across(step * f64::from(most) * 1.01, most, finest);
        }
        let (low, high) = (ends(step).0 * step, ends(step).1 * step);
        Axis {
            low,
            high,
            labels: labels(low, high, step),
            logarithmic: false,
        }
    }

    /// Counts from 0, which has a little room below it.
    pub fn counts(greatest: f64, most: u32) -> Axis {
        let high = greatest.max(1.0);
        let step = step_across(high, most, 1.0);
        Axis {
            low: -0.07 * high,
            high: 1.07 * high,
            labels: labels(0.0, high, step),
            logarithmic: false,
        }
    }

    /// Exactly from one number to another.
    pub fn between(low: f64, high: f64, most: u32, finest: f64) -> Axis {
        let step = step_across(high - low, most, finest);
        Axis {
            low,
            high,
            labels: labels(low, high, step),
            logarithmic: false,
        }
    }

    /// Shares in per cent, down to one of so many.
    pub fn shares(whole: u64) -> Axis {
        let low = 70.0 / whole as f64;
        let powers: Vec<i32> = (-9..=2).filter(|n| scaled(1.0, *n) >= low).collect();
        let apart = powers.len().div_ceil(5);
        let labelled = powers.iter().rev().step_by(apart);
        Axis {
            low: low.min(70.0),
            high: 130.0,
            labels: labelled
                .map(|n| {
                    (
                        scaled(1.0, *n),
                        format!("{:.*}", (-n).max(0) as usize, scaled(1.0, *n)),
                    )
                })
                .collect(),
            logarithmic: true,
        }
    }
}
