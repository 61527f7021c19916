//! A block through the libraries: its readings and error power held to the second implementation, joined, in words.

#[path = "shared/second.rs"]
mod second;

use plots::block::{largest, run, weight_fields, weights, Lists};
use plots::power::ErrorPower;
use plots::random::{Purpose, Random};
use plots::words;
use tigbulode::{Block, Settings};
use tigbulode_laboratory::Power;

fn mean(value: f64) -> ErrorPower {
    ErrorPower::of_block(Power::Mean(value))
}

fn floor(value: f64) -> ErrorPower {
    ErrorPower::of_block(Power::Floor(value))
}

/// A whole number of any size up to so many bits, of either sign.
fn number(random: &mut Random, bits: u32) -> i32 {
    let size = random.draw() as i32 & ((1 << random.below(bits + 1)) - 1);
    if random.happens(0.5) {
        -size
    } else {
        size
    }
}

#[test]
fn lists_are_read_as_the_second_implementation_reads_them() {
    let mut random = Random::new(1, Purpose::Filler);
    let (mut means, mut floors, mut zeros) = (0, 0, 0);
    for _ in 0..3000 {
        let n = 1 + random.below(128) as usize;
        let most = 1 + random.below(24);
        let mut lists = Lists::zeros(n);
        lists.y.fill_with(|| number(&mut random, 29));
        lists.z.fill_with(|| number(&mut random, 30));
        lists.xi.fill_with(|| 1 + random.below(most) as u8);
        lists.theta.fill_with(|| 1 + random.below(most) as u8);
        let heard = second::read(&lists);
        let power = heard.error_power;
        assert_eq!(lists.read(), Ok(heard));
        means += u32::from(!power.is_floor() && !power.is_zero());
        floors += u32::from(power.is_floor());
        zeros += u32::from(power.is_zero());
    }
    assert!(means > 500 && floors > 500 && zeros > 20, "{means} {floors} {zeros}");
}

#[test]
fn what_cannot_be_read_is_an_internal_error() {
    for theta in [0, 25] {
        let lists = Lists { xi: vec![1], theta: vec![theta], ..Lists::zeros(1) };
        let told = lists.read().expect_err("turned down");
        assert!(told.starts_with("internal error: ") && told.contains(" with 11: "), "{told}");
    }
}

#[test]
fn a_block_that_is_turned_down_has_its_number() {
    let mut record = tigbulode::set_up(Settings { p: 1, q: 1, n: 2, r: 0, l: 0, m: 1 << 20 }).state;
    let mut block =
        |n: usize| run(&mut record, Block { samples: &vec![9; n], gains: &vec![0; n], entries: &vec![1; n] });
    assert_eq!(block(3).map(|done| done.err()), Ok(Some(3)));
    assert_eq!(block(2).map(|done| done.ok().map(|heard| heard.decisions.len())), Ok(Some(2)));
}

#[test]
fn blocks_are_joined_as_their_mean_and_a_floor_is_one_of_all() {
    assert_eq!(ErrorPower::joined([]), None);
    assert_eq!(ErrorPower::joined([floor(600.0)]), Some(floor(600.0)));
    let two = ErrorPower::joined([mean(1.0), mean(4.0)]);
    let wanted = |power, blocks| Some(ErrorPower { power, blocks });
    assert_eq!(two, wanted(Power::Mean(2.5), 2));
    let five = two.into_iter().chain([mean(0.0), floor(600.0), mean(0.0)]);
    assert_eq!(ErrorPower::joined(five), wanted(Power::Floor(121.0), 5));
}

#[test]
fn a_power_in_words_and_in_a_table() {
    assert_eq!(mean(1.0).in_words(), "0.0 dB");
    assert_eq!(mean(0.999).in_words(), "0.0 dB");
    assert_eq!(mean(0.0144).in_words(), "−18.4 dB");
    assert_eq!(mean(1e-11).in_words(), "−110.0 dB");
    // 27.98 and 28.03 dB: what is only a floor is rounded down
    assert_eq!(
        (mean(628.0).in_words(), floor(628.0).in_words()),
        ("28.0 dB".into(), "at least 27.9 dB (a floor)".into())
    );
    assert_eq!(floor(635.0).in_words(), "at least 28.0 dB (a floor)");
    assert_eq!(mean(0.0).in_words(), "below −48.1 dB");
    assert!(10.0 * (1.0f64 / 65536.0).log10() < -48.1);
    assert_eq!(ErrorPower::fields(Some(mean(0.96875))), ["9.6875e-1", "mean"]);
    assert_eq!(ErrorPower::fields(Some(floor(600.0)))[1], "floor");
    assert_eq!(ErrorPower::fields(None), ["", ""]);
}

#[test]
fn weights_are_exact_in_a_table() {
    let mut record = tigbulode::set_up(Settings { p: 2, q: 1, n: 2, r: 0, l: 0, m: 1 << 20 }).state;
    for psi in 0..=15 {
        record.psi = psi;
        record.weights[..3].copy_from_slice(&[16383, -1, -16383]);
        let weights = weights(&record);
        let exact = |w: i32| f64::from(w) * 2f64.powi(i32::from(psi) - 15);
        assert_eq!(weights, [exact(16383), exact(-1), exact(-16383)]);
        assert_eq!(largest(&weights), exact(16383));
        assert!(weight_fields(&weights).into_iter().eq(weights.into_iter().map(words::exact)), "{psi}");
    }
    assert_eq!(weight_fields(&[3.0 / 32768.0]), ["0.000091552734375"]);
}
