//! The page as a gnuplot script that holds all it draws. gnuplot writes the
//! picture to standard output.

use crate::page::{Page, Panel, NOTE, NOTES};
use years::axis::Axis;
use years::curve::{Curve, GREY};

/// Across the picture: its width, and where panels and legends begin and end.
const WIDTH: f64 = 1340.0;
const LEFT: f64 = 140.0;
const RIGHT: f64 = 830.0;
const LEGEND: f64 = 856.0;
/// Between panels with the same axis, and below one with words of its own.
const GAP: f64 = 30.0;
const WORDS: f64 = 84.0;
/// Above a panel with an axis of its own there.
const ABOVE: f64 = 52.0;
const SMALL: &str = "font ',13' textcolor '#555555'";

fn quoted(text: &str) -> String {
    format!("'{}'", text.replace('\'', "''"))
}

/// A place across and down the picture, as gnuplot's shares.
fn at(across: f64, down: f64, height: f64) -> String {
    format!("screen {:.5}, {:.5}", across / WIDTH, 1.0 - down / height)
}

/// A label at a place.
fn label(text: &str, place: &str, look: &str) -> String {
    format!("set label {} at {place} {look}\n", quoted(text))
}

fn gap(panel: &Panel) -> f64 {
    if panel.below.is_none() {
        GAP
    } else {
        WORDS
    }
}

fn lead(panel: &Panel) -> f64 {
    panel.above.as_ref().map_or(0.0, |_| ABOVE)
}

/// The whole script: rows first, then the look that all pages share.
pub fn script(page: &Page) -> String {
    let first = 92.0 + 22.0 * page.lines.len() as f64;
    let heights = page
        .panels
        .iter()
        .map(|panel| lead(panel) + panel.height() + gap(panel));
    let height = first + heights.sum::<f64>();
    let mut text = rows(page);
    text.push_str(include_str!("../../years/page.gnuplot"));
    text.push_str(&format!(
        "set terminal pngcairo size {WIDTH},{height} font 'DejaVu Sans,15' background '#ffffff' rounded noenhanced\n\
         set lmargin at screen {:.5}\nset rmargin at screen {:.5}\nset key samplen 2.6\nset xzeroaxis lt 1 lw 1 lc rgb '#888888'\nset multiplot\n",
        LEFT / WIDTH,
        RIGHT / WIDTH
    ));
    text.push_str(&head(page, height));
    let mut top = first;
    for (place, panel) in page.panels.iter().enumerate() {
        top += lead(panel);
        text.push_str(&axes(panel, top, height));
        text.push_str(&words(panel, top, height));
        text.push_str(&format!("plot {}\n", plots(place, panel)));
        text.push_str("unset label\nunset arrow\n");
        top += panel.height() + gap(panel);
    }
    text + "unset multiplot\n"
}

fn block(panel: usize, curve: usize) -> String {
    format!("$panel{panel}curve{curve}")
}

fn rows(page: &Page) -> String {
    let mut text = String::new();
    for (place, panel) in page.panels.iter().enumerate() {
        for (number, curve) in panel.curves.iter().enumerate() {
            if !curve.rows.is_empty() {
                let name = block(place, number);
                text.push_str(&format!("{name} << end\n{}end\n", curve.rows));
            }
        }
    }
    text
}

fn head(page: &Page, height: f64) -> String {
    let title = label(&page.title, &at(LEFT, 38.0, height), "font ',25'");
    let lines = page.lines.iter().enumerate().map(|(place, line)| {
        let look = if place == 0 { "font ',16'" } else { SMALL };
        let down = 76.0 + 22.0 * place as f64;
        label(line, &at(LEFT, down, height), look)
    });
    title + &lines.collect::<String>()
}

fn ticks(axis: &Axis, with_words: bool) -> String {
    let tick = |(at, word): &(f64, String)| {
        let word = if with_words {
            word.replace('-', "−")
        } else {
            String::new()
        };
        format!("{} {at:e}", quoted(&word))
    };
    let ticks: Vec<String> = axis.labels.iter().map(tick).collect();
    format!("({})", ticks.join(", "))
}

/// The axis above a panel, or none.
fn axis_above(panel: &Panel) -> String {
    match &panel.above {
        Some((axis, _)) => format!(
            "set border 7\nset x2range [{:e}:{:e}]\nset x2tics nomirror textcolor rgb '#000000' {}\n",
            axis.low,
            axis.high,
            ticks(axis, true)
        ),
        None => "set border 3\nunset x2tics\n".to_string(),
    }
}

/// The panel's place, its ranges and the mark of the end of training.
fn axes(panel: &Panel, top: f64, height: f64) -> String {
    let share = |down: f64| 1.0 - down / height;
    let (across, up) = (&panel.across, &panel.up);
    let mark = panel.mark.map_or(String::new(), |mark| {
        format!("set arrow from first {mark}, graph 0 to first {mark}, graph 1 nohead back dt 2 lw 2 lc rgb '{GREY}'\n")
    });
    format!(
        "set tmargin at screen {:.5}\nset bmargin at screen {:.5}\nunset logscale y\n{}\
         set xrange [{:e}:{:e}]\nset yrange [{:e}:{:e}]\n{}set xtics nomirror {}\nset ytics nomirror textcolor rgb '#000000' {}\n{mark}",
        share(top),
        share(top + panel.height()),
        axis_above(panel),
        across.low,
        across.high,
        up.low,
        up.high,
        if up.logarithmic { "set logscale y\n" } else { "" },
        ticks(across, panel.below.is_some()),
        ticks(up, true),
    )
}

/// What stands beside and below a panel.
fn words(panel: &Panel, top: f64, height: f64) -> String {
    let bottom = top + panel.height();
    let middle = at(18.0, (top + bottom) / 2.0, height);
    let mut text = label(panel.label, &middle, "center rotate by 90");
    if let Some((_, words)) = &panel.above {
        let place = at((LEFT + RIGHT) / 2.0, top - 44.0, height);
        text.push_str(&label(words, &place, "center"));
    }
    if let Some(words) = panel.below {
        let place = at((LEFT + RIGHT) / 2.0, bottom + 50.0, height);
        text.push_str(&label(words, &place, "center"));
    }
    text.push_str(&label(panel.name, &at(LEGEND, top + 6.0, height), ""));
    let mut down = top + NOTES;
    for note in &panel.notes {
        text.push_str(&label(note, &at(LEGEND, down, height), SMALL));
        down += NOTE;
    }
    text + &format!("set key at {}\n", at(LEGEND - 10.0, down - 4.0, height))
}

/// Each curve, or its line of the legend alone where it has no point.
fn plots(place: usize, panel: &Panel) -> String {
    let plot = |(number, curve): (usize, &Curve)| {
        let title = curve.title.as_ref();
        let title = title.map_or("notitle".to_string(), |title| {
            format!("title {}", quoted(title))
        });
        let rows = match curve.rows.is_empty() {
            true => "keyentry".to_string(),
            false => block(place, number),
        };
        format!("{rows} {} {title}", curve.style)
    };
    let mut plots: Vec<String> = panel.curves.iter().enumerate().map(plot).collect();
    if let Some(mark) = panel.mark.filter(|_| place == 0) {
        let title = quoted(&format!("training ends, sample {mark}"));
        plots.push(format!(
            "keyentry with lines dt 2 lw 2 lc rgb '{GREY}' title {title}"
        ));
    }
    if panel.curves.iter().all(|curve| curve.rows.is_empty()) {
        plots.push("NaN notitle".to_string());
    }
    plots.join(", \\\n    ")
}
