//! Six symbols over a cable with one echo; the first three are training entries.
use tigbulode_laboratory::{cable, number_text, trace_length, Cable, HEADER_BYTES};

#[rustfmt::skip]
fn main() {
    let described = Cable {
        p: 2, q: 1, n: 2, r: 1, l: 0, step: 1 << 20,
        response: &[16384, -4096], // 1/2, and -1/8 one symbol later
        symbols: &[1, -3, 3, 1, -1, 3],
        training: 3,
    };
    let mut trace = [0; trace_length(6)];
    let number = cable(&described, &mut trace);
    println!("{}: m, gain and entry of each sample", number_text(number));
    let (samples, entries) = trace[HEADER_BYTES..].split_at(3 * 6);
    for (sample, &entry) in samples.chunks(3).zip(entries) {
        println!("{} {} {}", i16::from_le_bytes([sample[0], sample[1]]), sample[2], entry as i8);
    }
}
