//! The cable in 64-bit numbers, written a second time for the vectors, which
//! must find each of its faults.

use reference::cable::Cable;

/// The causes of 10, one by one.
pub const CAUSES: [&str; 15] = [
    "the response is empty",
    "the response has more than 32 values",
    "there are no symbols",
    "the symbols are no whole blocks",
    "there are more than 65,535 blocks",
    "there are more training entries than symbols",
    "the trace would pass 65,536 bytes",
    "an entry is 0",
    "an entry is even",
    "an entry is odd and too large",
    "the output is empty",
    "the output is too short",
    "the output is too long",
    "some gain is below L",
    "some gain does not exist",
];

/// What can be wrong beside a cause that goes unseen.
pub const FAULTS: [&str; 21] = [
    "10 before 1",
    "10 before 2",
    "a refusal writes",
    "entries behind the training go unseen",
    "the response is reversed",
    "the first value meets the symbol before",
    "the present symbol alone",
    "the last value goes unused",
    "sums have 16 bits",
    "the first symbol stands before the first",
    "a gain may reach the bound",
    "the greatest gain is 14",
    "the gain is L",
    "s = 0 has gain 0",
    "the cut rounds down",
    "the cut rounds to the nearest",
    "r is not subtracted",
    "an entry more",
    "an entry less",
    "every entry is trained",
    "the count is of symbols",
];

/// s of each place: each symbol adds its own echoes.
pub fn sums(c: &Cable<'_>, fault: &str) -> Vec<i64> {
    let mut response: Vec<i64> = c.response.iter().map(|&h| i64::from(h)).collect();
    match fault {
        "the response is reversed" => response.reverse(),
        "the first value meets the symbol before" => response.insert(0, 0),
        "the present symbol alone" => response.truncate(1),
        "the last value goes unused" => drop(response.pop()),
        _ => {}
    }
    let mut sums = vec![0; c.symbols.len() + response.len()];
    for (place, &v) in c.symbols.iter().enumerate() {
        for (delay, h) in response.iter().enumerate() {
            sums[place + delay] += i64::from(v) * h;
        }
    }
    if fault == "the first symbol stands before the first" {
        for (sum, h) in sums.iter_mut().zip(response.iter().skip(1)) {
            *sum += i64::from(c.symbols[0]) * h;
        }
    }
    sums.truncate(c.symbols.len());
    if fault == "sums have 16 bits" {
        sums.iter_mut().for_each(|s| *s = i64::from(*s as i16));
    }
    sums
}

/// The gain of s by its bit length; below 0 there is none.
pub fn gain(s: i64, c: &Cable<'_>, fault: &str) -> i64 {
    let least = i64::from(fault == "a gain may reach the bound");
    let length = 64 - i64::from((s.abs() - least).max(0).leading_zeros());
    let greatest = 15 - i64::from(fault == "the greatest gain is 14");
    let g = (15 + i64::from(c.settings.r) - length).min(greatest);
    match fault {
        "the gain is L" => g.min(i64::from(c.settings.l)),
        "s = 0 has gain 0" if s == 0 => i64::from(c.settings.l),
        _ => g,
    }
}

fn mantissa(s: i64, g: i64, c: &Cable<'_>, fault: &str) -> i64 {
    let one = 1i64 << c.settings.r;
    let raised = s << g.max(0);
    match fault {
        "the cut rounds down" => raised.div_euclid(one),
        "the cut rounds to the nearest" => (raised + one / 2).div_euclid(one),
        "r is not subtracted" => raised,
        _ => raised / one,
    }
}

/// The causes of 10 that hold, in a cable that passes the checks of set-up.
pub fn causes(c: &Cable<'_>, output: usize, fault: &str) -> Vec<&'static str> {
    let n = usize::from(c.settings.n);
    let count = c.symbols.len();
    let length = 12 + 4 * count;
    let seen = match fault {
        "entries behind the training go unseen" => c.training.min(count),
        _ => count,
    };
    let end = (2 << c.settings.r) - 1;
    let entries: Vec<i32> = c.symbols[..seen].iter().map(|&v| i32::from(v)).collect();
    let any = |holds: fn(i32, i32) -> bool| entries.iter().any(|&v| holds(v, end));
    let gains: Vec<i64> = sums(c, fault).iter().map(|&s| gain(s, c, fault)).collect();
    let below = |g: &i64| *g >= 0 && *g < i64::from(c.settings.l);
    let holds = [
        c.response.is_empty(),
        c.response.len() > 32,
        count == 0,
        !count.is_multiple_of(n),
        count / n > 65_535,
        c.training > count,
        length > 65_536,
        any(|v, _| v == 0),
        any(|v, _| v != 0 && v % 2 == 0),
        any(|v, end| v % 2 != 0 && v.abs() > end),
        output == 0,
        output != 0 && output < length,
        output > length,
        gains.iter().any(below),
        gains.iter().any(|&g| g < 0),
    ];
    let held = CAUSES.into_iter().zip(holds).filter(|(_, holds)| *holds);
    held.map(|(cause, _)| cause).collect()
}

/// The number, where `fault` is a cause without that cause.
fn number(c: &Cable<'_>, output: usize, fault: &str) -> u8 {
    let mut checked = *c;
    let settings = &mut checked.settings;
    let first = settings.examine();
    match (first, fault) {
        (1, "10 before 1") => (settings.p, settings.q) = (1, 1),
        (2, "10 before 2") => settings.m = 0,
        _ => {}
    }
    if settings.examine() != 0 {
        return first;
    }
    let causes = causes(&checked, output, fault);
    match causes.iter().any(|&cause| cause != fault) {
        true => 10,
        false => first,
    }
}

fn trace(c: &Cable<'_>, fault: &str) -> Vec<u8> {
    let s = &c.settings;
    let count = match fault {
        "the count is of symbols" => c.symbols.len(),
        _ => c.symbols.len() / usize::from(s.n),
    };
    let mut trace = vec![s.p, s.q, s.n, s.r, s.l, 0, count as u8, (count >> 8) as u8];
    trace.extend(s.m.to_le_bytes());
    for sum in sums(c, fault) {
        let g = gain(sum, c, fault);
        trace.extend((mantissa(sum, g, c, fault) as i16).to_le_bytes());
        trace.push(g as u8);
    }
    let trained = match fault {
        "an entry more" => c.training + 1,
        "an entry less" => c.training.saturating_sub(1),
        "every entry is trained" => c.symbols.len(),
        _ => c.training,
    };
    let entry = |(at, &v): (usize, &i8)| if at < trained { v as u8 } else { 0 };
    trace.extend(c.symbols.iter().enumerate().map(entry));
    trace
}

/// The cable with a fault, or with none where `fault` is empty.
pub fn wrong_cable(c: &Cable<'_>, output: &mut [u8], fault: &str) -> u8 {
    let number = number(c, output.len(), fault);
    if number != 0 {
        if fault == "a refusal writes" {
            output.iter_mut().take(12).for_each(|byte| *byte = 0);
        }
        return number;
    }
    let trace = trace(c, fault);
    let length = trace.len().min(output.len());
    output[..length].copy_from_slice(&trace[..length]);
    0
}
