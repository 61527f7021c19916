//! One block of two samples; the symbol of the first is known.
use tigbulode::{number_text, run, set_up, Block, Outputs, Settings};

#[rustfmt::skip]
fn main() {
    let settings = Settings { p: 1, q: 1, n: 2, r: 0, l: 0, m: 67_108_864 };
    let answer = set_up(settings);
    assert_eq!(answer.number, 0, "{}", number_text(answer.number));
    let mut s = answer.state;
    let (mut y, mut xi, mut decision, mut z, mut theta) = ([0; 2], [0; 2], [0; 2], [0; 2], [0; 2]);
    let block = Block { samples: &[0x4000, 0x4000], gains: &[0, 0], entries: &[1, 0] };
    let out = Outputs { y: &mut y, xi: &mut xi, decision: &mut decision, z: &mut z, theta: &mut theta };
    let number = run(&mut s, block, out);
    println!("{}: y {} * 2^({} - 30), decision {}", number_text(number), y[1], xi[1], decision[1]);
}
