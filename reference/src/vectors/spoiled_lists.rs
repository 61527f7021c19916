//! Ways to spoil lists that are to be readings, each for one cause.

use super::readings::Lists;

/// Spoils lists of at least two samples for one cause alone.
pub struct Spoiler {
    pub about: &'static str,
    pub spoil: fn(&mut Lists),
}

/// Gives one of the five lists (Y, ξ, Z, θ, the readings) another length; new
/// places hold what nothing is wrong with.
pub fn resize(lists: &mut Lists, place: usize, length: usize) {
    match place {
        0 => lists.y.resize(length, 1),
        1 => lists.xi.resize(length, 1),
        2 => lists.z.resize(length, 1),
        3 => lists.theta.resize(length, 1),
        _ => lists.readings = length,
    }
}

/// The ways. None undoes another that stands before it.
pub const ALL: [Spoiler; 11] = [
    Spoiler {
        about: "a Y too large",
        spoil: |lists| lists.y[0] = 1 << 29,
    },
    Spoiler {
        about: "a Y too low",
        spoil: |lists| lists.y[1] = i32::MIN,
    },
    Spoiler {
        about: "a Z too large",
        spoil: |lists| lists.z[0] = 1 << 30,
    },
    Spoiler {
        about: "a Z too low",
        spoil: |lists| lists.z[1] = i32::MIN,
    },
    Spoiler {
        about: "a ξ of 0",
        spoil: |lists| lists.xi[0] = 0,
    },
    Spoiler {
        about: "a ξ of 25",
        spoil: |lists| lists.xi[1] = 25,
    },
    Spoiler {
        about: "a θ of 0",
        spoil: |lists| lists.theta[0] = 0,
    },
    Spoiler {
        about: "a θ of 255",
        spoil: |lists| lists.theta[1] = 255,
    },
    Spoiler {
        about: "129 samples",
        spoil: |lists| (0..5).for_each(|place| resize(lists, place, 129)),
    },
    Spoiler {
        about: "a Y missing",
        spoil: |lists| lists.y.truncate(lists.y.len() - 1),
    },
    Spoiler {
        about: "a reading missing",
        spoil: |lists| lists.readings -= 1,
    },
];
