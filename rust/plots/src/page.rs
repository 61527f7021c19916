//! What stands on a page: its words and its panels.

use crate::axis::Axis;
use crate::curve::{Curve, BLACK, DOTTED};

#[derive(Debug)]
pub struct Page {
    pub title: String,
    /// Below the title, the first one larger.
    pub lines: Vec<String>,
    pub shades: Vec<Shade>,
    pub panels: Vec<Panel>,
}

/// Times that are shaded in every panel.
#[derive(Debug)]
pub struct Shade {
    pub name: &'static str,
    pub colour: &'static str,
    pub times: Vec<(f64, f64)>,
}

/// How a shade is filled; one below another is still seen.
pub const FILL: &str = "fillstyle transparent solid 0.5 noborder";

#[derive(Debug, Default)]
pub struct Panel {
    /// In the picture's points, where its legend doesn't need more.
    pub least_height: f64,
    /// At the left.
    pub label: &'static str,
    /// At the right, above the legend: the panel's name, then more of it.
    pub name: String,
    pub notes: Vec<String>,
    pub across: Axis,
    pub up: Axis,
    /// What is across; none where the next panel has the same axis.
    pub below: Option<String>,
    /// The same in other words, above the panel.
    pub above: Option<(Axis, String)>,
    pub curves: Vec<Curve>,
    /// More of the legend: a style and its title each.
    pub keys: Vec<(String, String)>,
}

/// From the top of a panel to its notes, and the lines of notes and legend.
pub const NOTES: f64 = 28.0;
pub const NOTE: f64 = 20.0;
const KEY: f64 = 24.5;

impl Panel {
    pub fn new(least_height: f64, label: &'static str, name: &str, up: Axis, curves: Vec<Curve>) -> Panel {
        Panel { least_height, label, name: name.to_string(), up, curves, ..Panel::default() }
    }

    pub fn with_notes<T: ToString>(mut self, notes: impl IntoIterator<Item = T>) -> Panel {
        self.notes = notes.into_iter().map(|note| note.to_string()).collect();
        self
    }

    /// In the picture's points.
    pub fn height(&self) -> f64 {
        let drawn = self.curves.iter().filter(|curve| curve.title.is_some() && !curve.rows.is_empty());
        let legend = NOTES + NOTE * self.notes.len() as f64 + KEY * (drawn.count() + self.keys.len()) as f64;
        self.least_height.max(legend)
    }
}

impl Page {
    /// Panels that have one axis across, named below the last of them.
    pub fn share_axis(panels: &mut [Panel], across: &Axis, below: &str) {
        panels.iter_mut().for_each(|panel| panel.across = across.clone());
        if let Some(last) = panels.last_mut() {
            last.below = Some(below.to_string());
        }
    }

    /// Names the shades in the first panel's legend, and dots in that of the first panel that has any.
    pub fn with_keys(mut self, dots: &str) -> Page {
        let shade = |s: &Shade| (format!("with boxes {FILL} lc rgb '{}'", s.colour), s.name.to_string());
        if let Some(first) = self.panels.first_mut() {
            first.keys.extend(self.shades.iter().map(shade));
        }
        let dotted = |panel: &&mut Panel| panel.curves.iter().any(Curve::is_dots);
        if let Some(panel) = self.panels.iter_mut().find(dotted) {
            panel.keys.push((format!("{DOTTED} lc rgb '{BLACK}'"), dots.to_string()));
        }
        self
    }
}
