//! The heights of counts: powers of ten from 1 on, and below them 0, where each
//! step size has a line of its own.

use years::axis::Axis;

pub struct Counts {
    pub up: Axis,
    zeros: Vec<f64>,
}

/// Parts of the panel's height: a line at 0, what is below all of them, and
/// what is between them and 1.
const LINE: f64 = 0.045;
const BELOW: f64 = 0.03;
const BETWEEN: f64 = 0.09;

/// The powers of ten up to a count.
fn powers(high: f64) -> impl Iterator<Item = (f64, String)> {
    let powers = (0..=7).map(|power| 10f64.powi(power));
    let powers = powers.filter(move |at| *at <= high);
    powers.map(|at| (at, format!("{at:.0}")))
}

impl Counts {
    pub fn new(greatest: usize, steps: usize) -> Counts {
        let high = (greatest as f64 * 1.5).max(15.0);
        let foot = BELOW + LINE * steps as f64 + BETWEEN;
        let decades = high.log10() / (1.0 - foot);
        let at = |part: f64| high * 10f64.powf((part - 1.0) * decades);
        let line = |lines: f64| at(BELOW + LINE * lines);
        let zero = (line(steps as f64 / 2.0), "0".to_string());
        let zeros = (0..steps).rev().map(|below| line(below as f64 + 0.5));
        Counts {
            up: Axis {
                low: at(0.0),
                high,
                labels: std::iter::once(zero).chain(powers(high)).collect(),
                logarithmic: true,
            },
            zeros: zeros.collect(),
        }
    }

    /// The height of a count of a step size.
    pub fn height(&self, place: usize, count: usize) -> f64 {
        match count {
            0 => self.zeros[place],
            _ => count as f64,
        }
    }
}
