//! A page as a gnuplot script that holds all it draws. gnuplot writes the
//! picture to standard output.

use crate::axis::Axis;
use crate::curve::{Curve, BLACK, DOTTED};
use crate::page::{Page, Panel, Shade};
use std::fmt::Write;

const WIDTH: f64 = 1260.0;
const LEFT: f64 = 140.0;
const RIGHT: f64 = 850.0;
const LEGEND: f64 = 876.0;
/// Between two panels, and below the last.
const GAP: f64 = 34.0;
const BOTTOM: f64 = 84.0;
const LINE: f64 = 23.0;
const SMALL: &str = "font ',13' textcolor '#555555'";

/// A text in quotes, as gnuplot reads it.
fn quoted(text: &str) -> String {
    format!("'{}'", text.replace('\'', "''"))
}

/// Places down from the top of the picture, as shares from its bottom.
struct Sheet {
    height: f64,
}

impl Sheet {
    fn x(&self, points: f64) -> String {
        format!("{:.5}", points / WIDTH)
    }

    fn y(&self, down: f64) -> String {
        format!("{:.5}", 1.0 - down / self.height)
    }

    fn label(&self, text: &str, x: f64, down: f64, look: &str) -> String {
        let (x, y) = (self.x(x), self.y(down));
        format!("set label {} at screen {x}, {y} {look}\n", quoted(text))
    }
}

fn ticks(axis: &Axis, labelled: bool) -> String {
    let tick = |(at, text): &(f64, String)| {
        let text = if labelled { text } else { "" };
        format!("{} {at:e}", quoted(text))
    };
    axis.labels.iter().map(tick).collect::<Vec<_>>().join(", ")
}

fn y_ticks(axis: &Axis) -> String {
    if axis.labels.is_empty() {
        return "unset ytics\n".to_string();
    }
    let ticks = ticks(axis, true);
    format!("set ytics nomirror textcolor rgb '#000000' ({ticks})\n")
}

/// The script of a page, gnuplot's common settings first.
pub fn script(page: &Page) -> String {
    let heights: f64 = page.panels.iter().map(|panel| panel.height + GAP).sum();
    let mut top = 90.0 + 22.0 * page.lines.len() as f64;
    let height = (top + heights - GAP + BOTTOM).round();
    let sheet = Sheet { height };
    let mut text = blocks(page);
    text.push_str(include_str!("../page.gnuplot"));
    let _ = writeln!(
        text,
        "set terminal pngcairo size {WIDTH},{height} font 'DejaVu Sans,15' background '#ffffff' rounded noenhanced\n\
         set lmargin at screen {}\nset rmargin at screen {}\nset xrange [{:e}:{:e}]\nset multiplot",
        sheet.x(LEFT),
        sheet.x(RIGHT),
        page.time.low,
        page.time.high
    );
    text.push_str(&head(page, &sheet));
    let shades = page.shades.iter().map(|s| shade(s, &page.time));
    text.extend(shades);
    for (place, panel) in page.panels.iter().enumerate() {
        text.push_str(&drawn(page, place, panel, &sheet, top));
        top += panel.height + GAP;
    }
    text.push_str("unset multiplot\n");
    text
}

/// The name of a curve's rows.
fn block(panel: usize, curve: usize) -> String {
    format!("$rows{panel}_{curve}")
}

fn curves(panel: &Panel) -> impl Iterator<Item = (usize, &Curve)> {
    let there = panel.curves.iter().enumerate();
    there.filter(|(_, curve)| !curve.rows.is_empty())
}

fn blocks(page: &Page) -> String {
    let of_panel = |(place, panel): (usize, &Panel)| -> String {
        let rows = curves(panel).map(|(n, curve)| (block(place, n), &curve.rows));
        rows.map(|(name, rows)| format!("{name} << end\n{rows}end\n"))
            .collect()
    };
    page.panels.iter().enumerate().map(of_panel).collect()
}

fn head(page: &Page, sheet: &Sheet) -> String {
    let mut text = sheet.label(&page.title, LEFT, 38.0, "font ',25'");
    for (place, line) in page.lines.iter().enumerate() {
        let (down, look) = match place {
            0 => (76.0, "font ',16'"),
            _ => (80.0 + 22.0 * place as f64, SMALL),
        };
        text.push_str(&sheet.label(line, LEFT, down, look));
    }
    text
}

/// How a shade is filled; one below another is still seen.
const FILL: &str = "fillstyle transparent solid 0.5 noborder";

/// A rectangle for each time of a shade, wide enough to be seen.
fn shade(shade: &Shade, time: &Axis) -> String {
    let colour = shade.colour;
    let least = (time.high - time.low) / 600.0;
    let one = |(from, to): &(f64, f64)| {
        let more = (least - (to - from)).max(0.0) / 2.0;
        let (from, to) = (from - more, to + more);
        format!(
            "set object rectangle from first {from:e}, graph 0 to first {to:e}, graph 1 behind \
             fillcolor '{colour}' {FILL}\n"
        )
    };
    shade.times.iter().map(one).collect()
}

/// The panel's words, axes and curves.
fn drawn(page: &Page, place: usize, panel: &Panel, sheet: &Sheet, top: f64) -> String {
    let end = top + panel.height;
    let last = place + 1 == page.panels.len();
    let axis = &panel.axis;
    let mut text = format!(
        "set tmargin at screen {}\nset bmargin at screen {}\n",
        sheet.y(top),
        sheet.y(end)
    );
    let scale = if axis.logarithmic { "set" } else { "unset" };
    let _ = writeln!(
        text,
        "{scale} logscale y\nset yrange [{:e}:{:e}]",
        axis.low, axis.high
    );
    text.push_str(&y_ticks(axis));
    let _ = writeln!(text, "set xtics ({})", ticks(&page.time, last));
    if last {
        let middle = (LEFT + RIGHT) / 2.0;
        text.push_str(&sheet.label(&page.time_label, middle, end + 56.0, "center"));
    }
    text.push_str(&words(panel, sheet, top));
    let key_top = top + LINE + 20.0 * panel.notes.len() as f64 - 2.0;
    let _ = writeln!(
        text,
        "set key at screen {}, {}",
        sheet.x(LEGEND - 8.0),
        sheet.y(key_top)
    );
    let _ = writeln!(text, "plot {}\nunset label", plots(page, place, panel));
    text
}

fn words(panel: &Panel, sheet: &Sheet, top: f64) -> String {
    let middle = top + panel.height / 2.0;
    let mut text = sheet.label(panel.label, 16.0, middle, "center rotate by 90");
    text.push_str(&sheet.label(&panel.name, LEGEND, top + 6.0, ""));
    for (place, note) in panel.notes.iter().enumerate() {
        let down = top + 6.0 + 21.0 + 20.0 * place as f64;
        text.push_str(&sheet.label(note, LEGEND, down, SMALL));
    }
    text
}

/// The panel's curves; in the first panel what shades are, and in the first
/// that has dots what they are.
fn plots(page: &Page, place: usize, panel: &Panel) -> String {
    let curve = |(n, curve): (usize, &Curve)| {
        let title = curve.title.as_ref();
        let title = title.map_or("notitle".to_string(), |t| format!("title {}", quoted(t)));
        format!("{} {} {title}", block(place, n), curve.style)
    };
    let shade = |s: &Shade| {
        let (colour, name) = (s.colour, quoted(s.name));
        format!("keyentry with boxes {FILL} lc rgb '{colour}' title {name}")
    };
    let shades = page.shades.iter().filter(|_| place == 0).map(shade);
    let dots = page.dots.iter().filter(|(first, _)| *first == place);
    let dots = dots.map(|(_, name)| {
        let name = quoted(name);
        format!("keyentry {DOTTED} lc rgb '{BLACK}' title {name}")
    });
    let drawn = curves(panel).map(curve);
    let all: Vec<String> = drawn.chain(shades).chain(dots).collect();
    if all.is_empty() {
        return "NaN notitle".to_string();
    }
    all.join(", \\\n    ")
}
