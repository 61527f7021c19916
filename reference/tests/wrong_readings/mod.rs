//! The readings in the machine's f64 and in 64-bit numbers, written a second
//! time for the vectors, which must find each of its faults.

use reference::vectors::Lists;

/// The causes of 11, one by one.
pub const CAUSES: [&str; 13] = [
    "the lists are empty",
    "the lists have more than 128 entries",
    "Y has another length",
    "ξ has another length",
    "Z has another length",
    "θ has another length",
    "the readings have another length",
    "some Z has a magnitude of 2^30 or more",
    "some ξ is 0",
    "some ξ is above 24",
    "some θ is 0",
    "some θ is above 24",
    "some Y has a magnitude of 2^29 or more",
];

/// What can be wrong beside a cause that goes unseen.
pub const FAULTS: [&str; 68] = [
    "a of 65535 counts as cut",
    "a cut goes untold",
    "every power is a floor",
    "a cut of the first sample goes untold",
    "a cut of the last sample goes untold",
    "a is not brought to 65535",
    "a is brought to 65536",
    "a is brought to 32767",
    "a has 16 bits",
    "squares have 32 bits",
    "the sum has 32 bits",
    "the sum leaves the first sample out",
    "the sum leaves the last sample out",
    "the sum of a, not of a²",
    "divided by 65535·N",
    "divided by 65536·128",
    "divided by 65536",
    "divided by 256·N",
    "divided by 65536·(N + 1)",
    "each square is divided",
    "times the reciprocal of N",
    "the quotient is cut",
    "the quotient is rounded up",
    "the quotient has 24 digits",
    "the error is rounded down before its magnitude is taken",
    "a is rounded to the nearest",
    "a is rounded up",
    "a is not rounded",
    "a by θ − 21",
    "a by θ − 23",
    "a with ξ",
    "a of y",
    "y by ξ − 29",
    "y by ξ − 31",
    "the error by θ − 29",
    "the error by θ − 31",
    "y with θ",
    "the error with ξ",
    "y and the error change places",
    "readings from the last to the first",
    "readings have 24 digits",
    "the error has no sign",
    "y has no sign",
    "a y of 0 is −0",
    "an error of 0 is −0",
    "a power of 0 is −0",
    "a ξ of 24 is turned down",
    "a ξ of 1 is turned down",
    "a θ of 24 is turned down",
    "a θ of 1 is turned down",
    "a ξ or θ of 25 passes",
    "a |Y| of 2^29 − 1 is turned down",
    "a |Y| below 2^30 passes",
    "a |Z| of 2^30 passes",
    "a |Z| of 2^30 − 1 is turned down",
    "lengths have 8 bits",
    "a refusal writes zeros",
    "readings are written before a refusal",
    "128 samples are turned down",
    "129 samples pass",
    "1 sample is turned down",
    "magnitudes have 32 bits, so that −2^31 passes",
    "negative numbers go unseen",
    "only the first sample is examined",
    "only the last sample is examined",
    "a sample that is 0 is not examined",
    "10 for 11",
    "a refusal has a power",
];

/// What is answered: the number, whether the power is a floor, its bits.
pub type Answer = (u8, bool, u64);

/// 2^`exponent` as the machine has it.
fn power_of_two(exponent: i32) -> f64 {
    f64::from_bits(((1023 + exponent) as u64) << 52)
}

/// A list's entry; 1 where there is none.
fn at<T: Copy + From<bool>>(list: &[T], place: usize) -> T {
    list.get(place).copied().unwrap_or(T::from(true))
}

/// y and the error of a sample.
fn reading(lists: &Lists, place: usize, fault: &str) -> [f64; 2] {
    let (y, z) = (at(&lists.y, place), at(&lists.z, place));
    let (xi, theta) = (at(&lists.xi, place), at(&lists.theta, place));
    let off = |low: &str, high: &str| i32::from(fault == high) - i32::from(fault == low);
    let y_exponent = if fault == "y with θ" { theta } else { xi };
    let exponent = if fault == "the error with ξ" {
        xi
    } else {
        theta
    };
    let y_off = off("y by ξ − 31", "y by ξ − 29");
    let error_off = off("the error by θ − 31", "the error by θ − 29");
    let mut y = f64::from(y) * power_of_two(i32::from(y_exponent) - 30 + y_off);
    let mut error = f64::from(z) * power_of_two(i32::from(exponent) - 30 + error_off);
    match fault {
        "readings have 24 digits" => (y, error) = (f64::from(y as f32), f64::from(error as f32)),
        "the error has no sign" => error = error.abs(),
        "y has no sign" => y = y.abs(),
        "a y of 0 is −0" if y == 0.0 => y = -0.0,
        "an error of 0 is −0" if error == 0.0 => error = -0.0,
        "y and the error change places" => (y, error) = (error, y),
        _ => {}
    }
    [y, error]
}

/// 256·|error|, and a before it is brought to 65535.
fn magnitude(lists: &Lists, place: usize, fault: &str) -> (f64, u64) {
    let [y, error] = reading(lists, place, "");
    let scaled = 256.0 * error;
    let part = match fault {
        "a by θ − 21" => scaled.abs() * 2.0,
        "a by θ − 23" => scaled.abs() / 2.0,
        "a with ξ" => 256.0 * reading(lists, place, "the error with ξ")[1].abs(),
        "a of y" => 256.0 * y.abs(),
        "the error is rounded down before its magnitude is taken" => scaled.floor().abs(),
        "a is rounded to the nearest" => scaled.abs().round(),
        "a is rounded up" => scaled.abs().ceil(),
        _ => scaled.abs(),
    };
    (part, part as u64)
}

/// a² of a sample.
fn square(lists: &Lists, place: usize, fault: &str) -> f64 {
    let (part, a) = magnitude(lists, place, fault);
    let a = match fault {
        "a is not brought to 65535" => a,
        "a is brought to 65536" => a.min(65_536),
        "a is brought to 32767" => a.min(32_767),
        "a has 16 bits" => a % 65_536,
        _ => a.min(65_535),
    };
    match fault {
        "a is not rounded" => part.min(65_535.0) * part.min(65_535.0),
        "squares have 32 bits" => (a as u32).wrapping_mul(a as u32) as i32 as f64,
        "the sum of a, not of a²" => a as f64,
        _ => (a * a) as f64,
    }
}

/// What the sum is divided by.
fn divisor(n: usize, fault: &str) -> f64 {
    let n = n as f64;
    match fault {
        "divided by 65535·N" => 65_535.0 * n,
        "divided by 65536·128" => 65_536.0 * 128.0,
        "divided by 65536" => 65_536.0,
        "divided by 256·N" => 256.0 * n,
        "divided by 65536·(N + 1)" => 65_536.0 * (n + 1.0),
        _ => 65_536.0 * n,
    }
}

/// By how much a rounded quotient times the divisor is above the dividend.
fn beyond(dividend: f64, divisor: f64) -> f64 {
    (dividend / divisor).mul_add(divisor, -dividend)
}

fn power(lists: &Lists, n: usize, fault: &str) -> f64 {
    let first = usize::from(fault == "the sum leaves the first sample out");
    let end = n - usize::from(fault == "the sum leaves the last sample out");
    let squares = (first..end.max(first)).map(|place| square(lists, place, fault));
    let divisor = divisor(n, fault);
    let sum: f64 = match fault {
        "each square is divided" => return squares.map(|square| square / divisor).sum(),
        "the sum has 32 bits" => squares.sum::<f64>() % 4_294_967_296.0,
        _ => squares.sum(),
    };
    let quotient = sum / divisor;
    match fault {
        "a power of 0 is −0" if sum == 0.0 => -0.0,
        "times the reciprocal of N" => sum / 65_536.0 * (1.0 / n as f64),
        "the quotient is cut" if beyond(sum, divisor) > 0.0 => quotient.next_down(),
        "the quotient is rounded up" if beyond(sum, divisor) < 0.0 => quotient.next_up(),
        "the quotient has 24 digits" => f64::from(quotient as f32),
        _ => quotient,
    }
}

fn is_floor(lists: &Lists, n: usize, fault: &str) -> bool {
    let most = 65_535 - u64::from(fault == "a of 65535 counts as cut");
    let mut places = match fault {
        "a cut of the first sample goes untold" => 1..n,
        "a cut of the last sample goes untold" => 0..n - 1,
        _ => 0..n,
    };
    let cut = places.any(|place| magnitude(lists, place, "").1 > most);
    match fault {
        "a cut goes untold" => false,
        "every power is a floor" => true,
        _ => cut,
    }
}

/// The length that the lists have, as far as the fault lets it be seen.
fn lengths(lists: &Lists, fault: &str) -> [usize; 5] {
    let lengths = [
        lists.y.len(),
        lists.xi.len(),
        lists.z.len(),
        lists.theta.len(),
        lists.readings,
    ];
    match fault {
        "lengths have 8 bits" => lengths.map(|length| length % 256),
        _ => lengths,
    }
}

/// The length that most lists have.
fn common(lengths: &[usize; 5]) -> usize {
    let count = |length: &usize| lengths.iter().filter(|other| *other == length).count();
    *lengths.iter().max_by_key(|length| count(length)).unwrap()
}

/// The causes that a list of lengths gives.
fn length_causes(lists: &Lists, fault: &str) -> Vec<&'static str> {
    let lengths = lengths(lists, fault);
    let n = common(&lengths);
    let most = match fault {
        "129 samples pass" => 129,
        "128 samples are turned down" => 127,
        _ => 128,
    };
    let least = 1 + usize::from(fault == "1 sample is turned down");
    let mut causes = Vec::new();
    causes.extend((n < least).then_some(CAUSES[0]));
    causes.extend((n > most).then_some(CAUSES[1]));
    let others = lengths.iter().zip(&CAUSES[2..7]);
    causes.extend(others.filter(|(length, _)| **length != n).map(|(_, c)| *c));
    causes
}

/// |a| as far as the fault lets it be seen.
fn size(a: i32, fault: &str) -> i64 {
    match fault {
        "magnitudes have 32 bits, so that −2^31 passes" => i64::from(a.wrapping_abs()),
        "negative numbers go unseen" => i64::from(a.max(0)),
        _ => i64::from(a).abs(),
    }
}

/// The causes that one sample gives.
fn sample_causes(lists: &Lists, place: usize, fault: &str) -> Vec<&'static str> {
    let (y, z) = (at(&lists.y, place), at(&lists.z, place));
    let (xi, theta) = (at(&lists.xi, place), at(&lists.theta, place));
    let is = |name: &str| i64::from(fault == name);
    let most_y = match fault {
        "a |Y| below 2^30 passes" => (1 << 30) - 1,
        _ => (1 << 29) - 1 - is("a |Y| of 2^29 − 1 is turned down"),
    };
    let most_z =
        (1 << 30) - 1 + is("a |Z| of 2^30 passes") - is("a |Z| of 2^30 − 1 is turned down");
    let most = 24 + is("a ξ or θ of 25 passes");
    let most_xi = most - is("a ξ of 24 is turned down");
    let most_theta = most - is("a θ of 24 is turned down");
    let skipped = |mantissa: i32| mantissa == 0 && is("a sample that is 0 is not examined") == 1;
    let holds = [
        size(z, fault) > most_z,
        !skipped(y) && i64::from(xi) < 1 + is("a ξ of 1 is turned down"),
        !skipped(y) && i64::from(xi) > most_xi,
        !skipped(z) && i64::from(theta) < 1 + is("a θ of 1 is turned down"),
        !skipped(z) && i64::from(theta) > most_theta,
        size(y, fault) > most_y,
    ];
    let held = CAUSES[7..].iter().zip(holds).filter(|(_, holds)| *holds);
    held.map(|(cause, _)| *cause).collect()
}

/// The causes of 11 that hold.
pub fn causes(lists: &Lists, fault: &str) -> Vec<&'static str> {
    let longest = lengths(lists, "").into_iter().max().unwrap_or(0);
    let places = match fault {
        "only the first sample is examined" => 0..longest.min(1),
        "only the last sample is examined" => longest.saturating_sub(1)..longest,
        _ => 0..longest,
    };
    let mut causes = length_causes(lists, fault);
    for place in places {
        for cause in sample_causes(lists, place, fault) {
            if !causes.contains(&cause) {
                causes.push(cause);
            }
        }
    }
    causes
}

/// What a refusal with a fault leaves.
fn refused(lists: &Lists, readings: &mut [[u64; 2]], fault: &str) -> Answer {
    match fault {
        "a refusal writes zeros" => readings.fill([0; 2]),
        "readings are written before a refusal" => {
            let good = |place: &usize| sample_causes(lists, *place, "").is_empty();
            let places = 0..readings.len();
            for place in places.take_while(good) {
                readings[place] = reading(lists, place, "").map(f64::to_bits);
            }
        }
        "10 for 11" => return (10, false, 0),
        "a refusal has a power" => return (11, false, 1.0f64.to_bits()),
        _ => {}
    }
    (11, false, 0)
}

/// The readings with a fault, or with none where `fault` is empty, or without
/// a cause where it is one.
pub fn wrong_readings(lists: &Lists, readings: &mut [[u64; 2]], fault: &str) -> Answer {
    if causes(lists, fault).iter().any(|&cause| cause != fault) {
        return refused(lists, readings, fault);
    }
    let n = common(&lengths(lists, fault));
    for (place, out) in readings.iter_mut().enumerate() {
        *out = reading(lists, place, fault).map(f64::to_bits);
    }
    if fault == "readings from the last to the first" {
        readings.reverse();
    }
    if n == 0 {
        return (0, false, 0);
    }
    let is_floor = is_floor(lists, n, fault);
    (0, is_floor, power(lists, n, fault).to_bits())
}
