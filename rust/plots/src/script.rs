//! A page as a gnuplot script that holds all it draws. gnuplot writes the picture to standard output.

use crate::axis::Axis;
use crate::curve::Curve;
use crate::page::{Page, Panel, Shade, FILL, NOTE, NOTES};

/// Across the picture: its width, and where panels and legends begin and end.
const WIDTH: f64 = 1320.0;
const LEFT: f64 = 140.0;
const RIGHT: f64 = 850.0;
const LEGEND: f64 = 876.0;
/// Between panels with the same axis, and below one with words of its own.
const GAP: f64 = 30.0;
const WORDS: f64 = 84.0;
/// Above a panel with an axis of its own there.
const ABOVE: f64 = 52.0;
const SMALL: &str = "font ',13' textcolor '#555555'";

fn quoted(text: &str) -> String {
    format!("'{}'", text.replace('\'', "''"))
}

/// A place across and down the picture, as gnuplot's shares.
fn at(across: f64, down: f64, height: f64) -> String {
    format!("screen {:.5}, {:.5}", across / WIDTH, 1.0 - down / height)
}

/// A label at a place.
fn label(text: &str, place: &str, look: &str) -> String {
    format!("set label {} at {place} {look}\n", quoted(text))
}

fn gap(panel: &Panel) -> f64 {
    if panel.below.is_none() {
        GAP
    } else {
        WORDS
    }
}

fn lead(panel: &Panel) -> f64 {
    panel.above.as_ref().map_or(0.0, |_| ABOVE)
}

/// The whole script: rows first, then the look that all pages share.
pub fn script(page: &Page) -> String {
    let first = 92.0 + 22.0 * page.lines.len() as f64;
    let heights = page.panels.iter().map(|panel| lead(panel) + panel.height() + gap(panel));
    let height = (first + heights.sum::<f64>()).round();
    let mut text = rows(page) + include_str!("../page.gnuplot");
    text += &format!(
        "set terminal pngcairo size {WIDTH},{height} font 'DejaVu Sans,15' background '#ffffff' rounded noenhanced\n\
         set lmargin at screen {:.5}\nset rmargin at screen {:.5}\nset multiplot\n",
        LEFT / WIDTH,
        RIGHT / WIDTH
    );
    text += &head(page, height);
    text.extend(page.shades.iter().map(|shade| rectangles(shade, &page.panels[0].across)));
    let mut top = first;
    for (place, panel) in page.panels.iter().enumerate() {
        top += lead(panel);
        text += &axes(panel, top, height);
        text += &words(panel, top, height);
        text += &format!("plot {}\nunset label\n", plots(place, panel));
        top += panel.height() + gap(panel);
    }
    text + "unset multiplot\n"
}

/// A panel's curves that have rows, each with the name of its rows.
fn named(place: usize, panel: &Panel) -> impl Iterator<Item = (String, &Curve)> {
    let curves = panel.curves.iter().enumerate();
    let named = curves.map(move |(number, curve)| (format!("$panel{place}curve{number}"), curve));
    named.filter(|(_, curve)| !curve.rows.is_empty())
}

fn rows(page: &Page) -> String {
    let panels = page.panels.iter().enumerate();
    let curves = panels.flat_map(|(place, panel)| named(place, panel));
    curves.map(|(name, curve)| format!("{name} << end\n{}end\n", curve.rows)).collect()
}

fn head(page: &Page, height: f64) -> String {
    let title = label(&page.title, &at(LEFT, 38.0, height), "font ',25'");
    let lines = page.lines.iter().enumerate().map(|(place, line)| {
        let (down, look) = match place {
            0 => (76.0, "font ',16'"),
            _ => (80.0 + 22.0 * place as f64, SMALL),
        };
        label(line, &at(LEFT, down, height), look)
    });
    title + &lines.collect::<String>()
}

/// A rectangle for each time of a shade, wide enough to be seen.
fn rectangles(shade: &Shade, across: &Axis) -> String {
    let least = (across.high - across.low) / 600.0;
    let one = |(from, to): &(f64, f64)| {
        let more = (least - (to - from)).max(0.0) / 2.0;
        let (from, to, colour) = (from - more, to + more, shade.colour);
        format!(
            "set object rectangle from first {from:e}, graph 0 to first {to:e}, graph 1 behind \
             fillcolor '{colour}' {FILL}\n"
        )
    };
    shade.times.iter().map(one).collect()
}

fn ticks(axis: &Axis, with_words: bool) -> String {
    let tick = |(at, word): &(f64, String)| format!("{} {at:e}", quoted(if with_words { word } else { "" }));
    let ticks: Vec<String> = axis.labels.iter().map(tick).collect();
    format!("nomirror textcolor rgb '#000000' ({})", ticks.join(", "))
}

/// The axis above a panel, or none.
fn axis_above(panel: &Panel) -> String {
    match &panel.above {
        Some((axis, _)) => {
            let range = format!("set x2range [{:e}:{:e}]", axis.low, axis.high);
            format!("set border 7\n{range}\nset x2tics {}\n", ticks(axis, true))
        }
        None => "set border 3\nunset x2tics\n".to_string(),
    }
}

/// The panel's place and its ranges.
fn axes(panel: &Panel, top: f64, height: f64) -> String {
    let share = |down: f64| 1.0 - down / height;
    let (across, up) = (&panel.across, &panel.up);
    let ytics = match up.labels.is_empty() {
        true => "unset ytics".to_string(),
        false => format!("set ytics {}", ticks(up, true)),
    };
    format!(
        "set tmargin at screen {:.5}\nset bmargin at screen {:.5}\n{}{} logscale y\n\
         set xrange [{:e}:{:e}]\nset yrange [{:e}:{:e}]\nset xtics {}\n{ytics}\n",
        share(top),
        share(top + panel.height()),
        axis_above(panel),
        if up.logarithmic { "set" } else { "unset" },
        across.low,
        across.high,
        up.low,
        up.high,
        ticks(across, panel.below.is_some()),
    )
}

/// What stands beside, above and below a panel.
fn words(panel: &Panel, top: f64, height: f64) -> String {
    let bottom = top + panel.height();
    let middle = (LEFT + RIGHT) / 2.0;
    let mut text = label(panel.label, &at(18.0, (top + bottom) / 2.0, height), "center rotate by 90");
    if let Some((_, words)) = &panel.above {
        text += &label(words, &at(middle, top - 44.0, height), "center");
    }
    if let Some(words) = &panel.below {
        text += &label(words, &at(middle, bottom + 50.0, height), "center");
    }
    text += &label(&panel.name, &at(LEGEND, top + 6.0, height), "");
    let mut down = top + NOTES;
    for note in &panel.notes {
        text += &label(note, &at(LEGEND, down, height), SMALL);
        down += NOTE;
    }
    text + &format!("set key at {}\n", at(LEGEND - 10.0, down - 4.0, height))
}

/// The panel's curves, then what else its legend has.
fn plots(place: usize, panel: &Panel) -> String {
    let titled = |title: &Option<String>| match title {
        Some(title) => format!("title {}", quoted(title)),
        None => "notitle".to_string(),
    };
    let curves = named(place, panel).map(|(rows, curve)| format!("{rows} {} {}", curve.style, titled(&curve.title)));
    let keys = panel.keys.iter().map(|(style, title)| format!("keyentry {style} title {}", quoted(title)));
    let mut all: Vec<String> = curves.collect();
    if all.is_empty() {
        all.push("NaN notitle".to_string());
    }
    all.extend(keys);
    all.join(", \\\n    ")
}
