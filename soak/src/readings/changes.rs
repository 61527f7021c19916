//! Changes of lists that a block handed out, some of which are turned down.

use reference::vectors::spoiled_lists::resize;
use reference::vectors::Lists;

/// A change at a place, and whether the lists are still accepted after it.
pub struct Change {
    pub about: &'static str,
    pub accepted: bool,
    pub make: fn(&mut Lists, usize),
}

const fn good(about: &'static str, make: fn(&mut Lists, usize)) -> Change {
    let accepted = true;
    Change {
        about,
        accepted,
        make,
    }
}

const fn bad(about: &'static str, make: fn(&mut Lists, usize)) -> Change {
    let accepted = false;
    Change {
        about,
        accepted,
        make,
    }
}

/// One list a sample longer, or shorter where the place is odd.
fn other_length(lists: &mut Lists, list: usize, place: usize) {
    let length = match place % 2 {
        0 => lists.readings + 1,
        _ => lists.readings - 1,
    };
    resize(lists, list, length);
}

/// All lists of one length.
fn all(lists: &mut Lists, length: usize) {
    (0..5).for_each(|list| resize(lists, list, length));
}

/// The error of a place.
fn error(lists: &mut Lists, place: usize, z: i32, theta: u8) {
    (lists.z[place], lists.theta[place]) = (z, theta);
}

const Y_END: i32 = 1 << 29;
const Z_END: i32 = 1 << 30;

/// The changes.
pub const CHANGES: [Change; 27] = [
    good("a Y of 2^29 - 1", |l, at| l.y[at] = Y_END - 1),
    good("a Y of 1 - 2^29", |l, at| l.y[at] = 1 - Y_END),
    good("a Z of 2^30 - 1", |l, at| l.z[at] = Z_END - 1),
    good("a Z of 1 - 2^30", |l, at| l.z[at] = 1 - Z_END),
    good("an a of 65535", |l, at| error(l, at, -65_535, 22)),
    good("an a of 65536", |l, at| error(l, at, 65_536, 22)),
    good("zeros", |l, at| (l.y[at], l.z[at]) = (0, 0)),
    good("exponents of 1", |l, at| (l.xi[at], l.theta[at]) = (1, 1)),
    good("exponents of 24", |l, at| {
        (l.xi[at], l.theta[at]) = (24, 24);
    }),
    good("128 samples", |l, _| all(l, 128)),
    good("fewer samples", |l, at| all(l, at + 1)),
    bad("a Y of 2^29", |l, at| l.y[at] = Y_END),
    bad("a Y of -2^29", |l, at| l.y[at] = -Y_END),
    bad("a Y of -2^31", |l, at| l.y[at] = i32::MIN),
    bad("a Z of 2^30", |l, at| l.z[at] = Z_END),
    bad("a Z of -2^30", |l, at| l.z[at] = -Z_END),
    bad("a Z of -2^31", |l, at| l.z[at] = i32::MIN),
    bad("a xi of 0", |l, at| l.xi[at] = 0),
    bad("a xi of 25", |l, at| l.xi[at] = 25),
    bad("a theta of 0", |l, at| l.theta[at] = 0),
    bad("a theta of 25", |l, at| l.theta[at] = 25),
    bad("no samples", |l, _| all(l, 0)),
    bad("129 samples", |l, _| all(l, 129)),
    bad("another length of Y", |l, at| other_length(l, 0, at)),
    bad("another length of xi", |l, at| other_length(l, 1, at)),
    bad("another length of Z or theta", |l, at| {
        other_length(l, 2 + at / 2 % 2, at);
    }),
    bad("another length of the readings", |l, at| {
        other_length(l, 4, at);
    }),
];
