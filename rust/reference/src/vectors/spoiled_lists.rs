//! Ways to spoil lists that are to be readings, each for one cause.

use super::readings::Lists;

/// Gives one of the five lists (Y, ξ, Z, θ, the readings) another length; new places hold what nothing is wrong with.
pub fn resize(lists: &mut Lists, place: usize, length: usize) {
    match place {
        0 => lists.y.resize(length, 1),
        1 => lists.xi.resize(length, 1),
        2 => lists.z.resize(length, 1),
        3 => lists.theta.resize(length, 1),
        _ => lists.readings = length,
    }
}

/// Each spoils lists of at least two samples for one cause alone, and none undoes another that stands before it.
pub const SPOILERS: [fn(&mut Lists); 11] = [
    |lists| lists.y[0] = 1 << 29,
    |lists| lists.y[1] = i32::MIN,
    |lists| lists.z[0] = 1 << 30,
    |lists| lists.z[1] = i32::MIN,
    |lists| lists.xi[0] = 0,
    |lists| lists.xi[1] = 25,
    |lists| lists.theta[0] = 0,
    |lists| lists.theta[1] = 255,
    |lists| (0..5).for_each(|place| resize(lists, place, 129)),
    |lists| lists.y.truncate(lists.y.len() - 1),
    |lists| lists.readings -= 1,
];
