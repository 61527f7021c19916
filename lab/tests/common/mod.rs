use lab::cable::traces;
use lab::run::{run, Run};
use lab::text::{read, Given};
use traces::trace::Trace;

pub const EXAMPLE: &str = include_str!("../../example.txt");

/// A short text: a cable whose figures are those of the worked example in
/// docs/EQUALISER.md.
#[allow(dead_code)]
pub const WORKED: &str = "\
p = 1
q = 1
N = 1
r = 0
L = 0
response = 16384
symbols = 1 1
training = 1
M = 67108864
";

/// A cable whose late echo takes most of its main path away as long as the
/// signs of the symbols change every eight, and adds to it afterwards: ψ rises
/// to 4 and falls to 3.
#[allow(dead_code)]
pub fn falling() -> String {
    let eight = [1, 3, -1, -3, 3, 1, -3, -1];
    let sign = |place: usize| {
        if place < 960 && place / 8 % 2 == 0 {
            -1
        } else {
            1
        }
    };
    let symbols = (0..1280).map(|place| (sign(place) * eight[place % 8]).to_string());
    let symbols = symbols.collect::<Vec<_>>().join(" ");
    let response = "0.4 0 0 0 0 0 0 0 0.25";
    format!(
        "p = 1\nq = 1\nN = 32\nr = 1\nL = 0\nresponse_fractions = {response}\n\
         symbols = {symbols}\ntraining = 1280\nshares = 1\n"
    )
}

/// A cable whose echo takes most of its main path away as long as the signs of
/// the symbols change every two, and adds to it where that pattern breaks off,
/// 9600 symbols later: weights that fit the faint samples meet loud ones, and
/// with the greatest step an error is beyond 256.
#[allow(dead_code)]
pub fn loud() -> String {
    let sign = |place: usize| (place / 2 % 2 == 0) == (place < 9600);
    let symbols = (0..9664).map(|place| if sign(place) { "15" } else { "-15" });
    let symbols = symbols.collect::<Vec<_>>().join(" ");
    format!(
        "p = 3\nq = 1\nN = 32\nr = 3\nL = 0\nresponse_fractions = -0.25 0 0 0 0.275\n\
         symbols = {symbols}\ntraining = 9664\nshares = 1/4 1\n"
    )
}

/// A cable that brings nothing: the feedback weight alone comes to the symbol
/// that is always sent, and errors below 1/256 are left.
#[allow(dead_code)]
pub fn silent() -> String {
    let symbols = vec!["1"; 640].join(" ");
    format!(
        "p = 1\nq = 1\nN = 32\nr = 0\nL = 0\nresponse = 0\n\
         symbols = {symbols}\ntraining = 320\nshares = 1\n"
    )
}

/// A text with one of its lines replaced.
#[allow(dead_code)]
pub fn with_line(text: &str, number: usize, line: &str) -> String {
    let mut lines: Vec<&str> = text.lines().collect();
    lines[number - 1] = line;
    lines.join("\n") + "\n"
}

#[allow(dead_code)]
pub fn given(text: &str) -> Given {
    read(text).expect("the text is in order")
}

/// The runs of a text, as the program makes them.
#[allow(dead_code)]
pub fn runs(given: &Given) -> Vec<Run> {
    let sent = given.symbols.plain();
    let made = traces(given).expect("the cable is accepted").into_iter();
    made.map(|(step, bytes)| {
        let trace = Trace::of_bytes(&bytes).expect("a trace");
        run(step, &trace, &sent, given.training.value).expect("every block is read")
    })
    .collect()
}
