//! One block of two samples; the symbol of the first is known.
use tigbulode::{greatest_step, number_text, run, set_up, Block, Outputs};

#[rustfmt::skip]
fn main() {
    let step = greatest_step(1, 1, 0, 0).expect("the sizes are within their limits");
    let mut s = set_up(1, 1, 2, 0, 0, step).state;
    let (mut y, mut xi, mut decision, mut z, mut theta) = ([0; 2], [0; 2], [0; 2], [0; 2], [0; 2]);
    let block = Block { samples: &[0x4000, 0x4000], gains: &[0, 0], entries: &[1, 0] };
    let out = Outputs { y: &mut y, xi: &mut xi, decision: &mut decision, z: &mut z, theta: &mut theta };
    let number = run(&mut s, block, out);
    println!("{}: y {} * 2^({} - 30), decision {}", number_text(number), y[1], xi[1], decision[1]);
}
