//! The gain rule, the converter, the payload and the seasons.

use plots::block::power_of_two;
use plots::random::{Purpose, Random};
use years::converter::{convert, full_scale, gain_for};
use years::{payload, season};

#[test]
fn a_gain_is_the_greatest_that_fits_and_within_its_limits() {
    let mut random = Random::new(1, Purpose::Noise);
    for _ in 0..10_000 {
        let level = random.share() * power_of_two(random.below(30) as i32 - 20);
        let (r, least) = (random.below(4) as u8, random.below(16) as u8);
        let gain = gain_for(level, 1.25, r, least);
        assert!((least..=15).contains(&gain));
        assert!(gain == least || 1.25 * level < full_scale(r, gain));
        assert!(gain == 15 || 1.25 * level >= full_scale(r, gain + 1));
    }
    assert_eq!([0.0, 1e9, f64::INFINITY].map(|level| gain_for(level, 1.0, 1, 3)), [15, 3, 3]);
    assert_eq!([1.0, 0.999].map(|level| gain_for(level, 1.0, 1, 0)), [0, 1]);
}

#[test]
fn the_converter_rounds_and_stops_at_its_ends() {
    assert_eq!(convert(0.5, 1, 0), (8192, false));
    assert_eq!(convert(-2.0, 1, 0), (-32768, false));
    assert_eq!(convert(2.0, 1, 0), (32767, true));
    assert_eq!(convert(-9.0, 1, 0), (-32768, true));
    assert_eq!(convert(1.6 / 32768.0, 0, 0), (2, false));
    assert_eq!(convert(1.0 / 32768.0, 0, 15), (32767, true));
    assert_eq!(convert(0.5 / 32768.0, 0, 15), (16384, false));
}

#[test]
fn a_number_comes_back_and_one_wrong_symbol_is_found() {
    let mut random = Random::new(1, Purpose::Filler);
    for round in 0..800u32 {
        let r = (round % 4) as u8;
        let (number, scrambler) = (random.draw() as u16, random.draw() as u32);
        let mut symbols = payload::send(number, scrambler, r);
        let most = (2 << r) - 1;
        assert!(symbols.iter().all(|v| v % 2 != 0 && v.abs() <= most));
        assert_eq!(payload::receive(&symbols, scrambler, r), Some(number));
        let place = random.below(symbols.len() as u32) as usize;
        symbols[place] += if symbols[place] == most { -2 } else { 2 };
        assert_eq!(payload::receive(&symbols, scrambler, r), None);
    }
}

#[test]
fn the_seasons_follow_the_cosine() {
    for day in 0..800 {
        let day = f64::from(day);
        let angle = day / 365.25 * std::f64::consts::TAU;
        assert!((season::cold(day) - angle.cos()).abs() < 1e-5);
    }
}
