//! A trace to a text that gives it back.

use crate::trace::{Sample, Trace, HEADER, SAMPLE};

/// The text, with a remark where each block begins.
pub fn text(trace: &Trace) -> String {
    let n = usize::from(trace.settings.n);
    let blocks = trace.samples.chunks(n.max(1)).enumerate();
    let blocks: String = blocks.map(|(at, samples)| block(at, samples)).collect();
    let columns = if blocks.is_empty() {
        ""
    } else {
        "\n# m g entry\n"
    };
    format!("{}{columns}{blocks}", settings(trace))
}

fn settings(trace: &Trace) -> String {
    let s = &trace.settings;
    let bytes = HEADER + SAMPLE * trace.samples.len();
    let heading = format!("# blocks: {}, N: {}, bytes: {bytes}", trace.blocks, s.n);
    let lines = format!(
        "p = {}\nq = {}\nN = {}\nr = {}\nL = {}\nM = {}\n",
        s.p, s.q, s.n, s.r, s.l, s.m
    );
    // elsewhere the samples tell the count
    let blocks = match (s.n, trace.blocks) {
        (0, 1..) => format!("blocks = {}\n", trace.blocks),
        _ => String::new(),
    };
    format!("{heading}\n{lines}{blocks}")
}

fn block(at: usize, samples: &[Sample]) -> String {
    let first = at * samples.len();
    let last = first + samples.len() - 1;
    let places = match samples {
        [_] => format!("sample {first}"),
        _ => format!("samples {first} to {last}"),
    };
    let lines = samples.iter();
    let lines = lines.map(|sample| format!("{} {} {}\n", sample.m, sample.g, sample.entry));
    let lines: String = lines.collect();
    format!("\n# block {at}, {places}\n{lines}")
}
