//! The cable: any ones held to the cable in 64-bit numbers, and every gain and
//! sample to what defines them.

mod wrong_cable;

use reference::cable::{cable, gain, mantissa};
use reference::description::Description;
use reference::random::Random;
use wrong_cable::{wrong_cable, CAUSES, FAULTS};

/// A cable, and how much its output is longer than its trace.
type Given = (Description, i64);

/// A cable that passes all checks but perhaps that of its gains.
fn any(random: &mut Random) -> Given {
    let mut settings = random.settings();
    settings.n = settings.n.min(20);
    settings.l = random.pick(&[0, 0, 0, settings.l]);
    settings.m = random.admitted_m(&settings);
    let symbols = usize::from(settings.n) * random.between(1, 4) as usize;
    let end = 1 << random.between(1, 15);
    let values = random.between(1, 32);
    let described = Description {
        settings,
        response: (0..values).map(|_| random.between(-end, end - 1) as i16).collect(),
        symbols: (0..symbols).map(|_| random.symbol(settings.r)).collect(),
        training: random.below(symbols as u64 + 1) as u32,
    };
    (described, 0)
}

/// Puts something wrong into a cable, or nothing.
fn spoil(random: &mut Random, (described, longer): &mut Given) {
    let count = described.symbols.len();
    let place = random.below(count.max(1) as u64) as usize;
    match random.below(16) {
        0 => described.settings.p = random.pick(&[0, 17, 255]),
        1 => described.settings.m = described.settings.greatest_m() + 1,
        2 => described.response.resize(random.pick(&[0, 33, 257]), 0),
        3 => described.symbols.truncate(random.pick(&[0, place])),
        4 => described.training = count as u32 + random.pick(&[1, 9]),
        5 if count > 0 => described.symbols[place] = random.next() as i8,
        6 => *longer = random.pick(&[-12 - 4 * count as i64, -1, 1, 65_536]),
        7 => described.settings.n = random.pick(&[1, 2, 3, 128]),
        _ => {}
    }
}

/// Cables of which some have one thing wrong or two.
fn cables() -> Vec<Given> {
    let mut random = Random::new(31);
    let mut cables: Vec<Given> = (0..6000).map(|_| any(&mut random)).collect();
    cables.iter_mut().for_each(|one| (0..2).for_each(|_| spoil(&mut random, one)));
    cables
}

/// The number of a cable and its output, which is lent with something in it.
type Told = (u8, Vec<u8>);

fn told((described, longer): &Given, fault: Option<&str>) -> Told {
    let output = (12 + 4 * described.symbols.len() as i64 + longer).max(0);
    let mut lent: Vec<u8> = (0..output).map(|at| at as u8 ^ 0x5A).collect();
    let number = match fault {
        None => cable(&described.cable(), &mut lent),
        Some(fault) => wrong_cable(&described.cable(), &mut lent, fault),
    };
    (number, lent)
}

#[test]
fn any_cable_is_as_in_64_bit_numbers() {
    let cables = cables();
    let right: Vec<Told> = cables.iter().map(|one| told(one, None)).collect();
    let count = |number: u8| right.iter().filter(|told| told.0 == number).count();
    let counts = [0, 1, 2, 10].map(count);
    assert!(counts.iter().sum::<usize>() == 6000 && counts.iter().all(|&count| count > 300), "{counts:?}");
    let differs = |fault: &str| cables.iter().zip(&right).any(|(one, right)| told(one, Some(fault)) != *right);
    assert!(!differs(""));
    // No list here is so long that its trace or its count of blocks would be too long.
    let shown = CAUSES.into_iter().filter(|cause| !cause.contains("65,53"));
    for fault in FAULTS.into_iter().chain(shown) {
        assert!(differs(fault), "{fault}");
    }
}

/// Whether g and m are those of s by what defines them: g passes, and no greater one does; m is s·2^(g−r) cut toward 0.
fn is_sample(s: i64, r: u8, g: Option<u8>, m: i64) -> bool {
    let passes = |g: u8| s.abs() << g < 1 << (15 + r);
    let Some(g) = g else { return !passes(0) };
    let raised = s.abs() << g;
    let cut = m.abs() << r <= raised && raised < (m.abs() + 1) << r && m.signum() * s.signum() >= 0;
    passes(g) && (g == 15 || !passes(g + 1)) && cut
}

#[test]
fn every_sum_has_its_gain_and_sample() {
    for r in 0..=3 {
        let end = 1i64 << (15 + r);
        for s in -end - 9..=end + 9 {
            let g = gain(s.into(), r);
            let m = g.map_or(0, |g| i64::from(mantissa(s.into(), g, r)));
            assert!(is_sample(s, r, g, m), "{s}, {r}");
            let wrong = [is_sample(s, r, None, m), is_sample(s, r, Some(16), m), is_sample(s, r, g, m + 1)];
            assert_eq!(wrong, [g.is_none(), false, g.is_none()], "{s}, {r}");
        }
    }
}
