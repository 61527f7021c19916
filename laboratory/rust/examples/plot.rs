//! A block of two samples on a station, and its readings: a line for each sample, as a plotting tool takes them.
use tigbulode::{greatest_step, run, set_up, Block, Outputs};
use tigbulode_laboratory::{number_text, readings, Reading};

#[rustfmt::skip]
fn main() {
    let step = greatest_step(1, 1, 0, 0).expect("the sizes are within their limits");
    let mut s = set_up(1, 1, 2, 0, 0, step).state;
    let (mut y, mut xi, mut decision, mut z, mut theta) = ([0; 2], [0; 2], [0; 2], [0; 2], [0; 2]);
    let block = Block { samples: &[0x4000, 0x4000], gains: &[0, 0], entries: &[1, 0] };
    let out = Outputs { y: &mut y, xi: &mut xi, decision: &mut decision, z: &mut z, theta: &mut theta };
    assert_eq!(run(&mut s, block, out), 0);
    let mut read = [Reading::default(); 2];
    match readings(&y, &xi, &z, &theta, &mut read) {
        Ok(power) => {
            let sort = if power.is_floor() { "floor" } else { "mean" };
            println!("accepted: error power {}, a {sort}", power.value());
            read.iter().for_each(|reading| println!("{} {}", reading.y, reading.error));
        }
        Err(number) => println!("{}", number_text(number)),
    }
}
