//! A shorter and simpler cable that still fails.
//!
//! Blocks of symbols and values of the response are dropped, settings brought to
//! their least, values to 0 and symbols to 1, as long as the cable still fails in
//! the same check.

use super::CableInputs;
use crate::shrink::MOST_TRIES;
use reference::Settings;

/// A cable with which `fails` is true, as it is with `lent`.
pub fn shrink(mut lent: CableInputs, fails: &mut dyn FnMut(&CableInputs) -> bool) -> CableInputs {
    let mut tries = 0;
    loop {
        let next = simpler(&lent).find(|other| {
            tries += 1;
            tries <= MOST_TRIES && fails(other)
        });
        match next {
            Some(other) => lent = other,
            None => return lent,
        }
    }
}

/// Cables that are simpler than this one, the simplest first.
fn simpler(lent: &CableInputs) -> impl Iterator<Item = CableInputs> + '_ {
    fewer_blocks(lent)
        .chain(fewer_values(lent))
        .chain(simpler_settings(lent))
        .chain(less_training(lent))
        .chain(plainer_values(lent))
        .chain(plainer_symbols(lent))
}

/// The first or the last of the blocks, half of them or all but one.
fn fewer_blocks(lent: &CableInputs) -> impl Iterator<Item = CableInputs> + '_ {
    let n = usize::from(lent.settings.n.max(1));
    let (count, blocks) = (lent.symbols.len(), lent.symbols.len() / n);
    let kept = [1, blocks / 8, blocks / 2, blocks.saturating_sub(1)];
    let kept = kept
        .into_iter()
        .filter(move |&kept| kept > 0 && kept < blocks);
    kept.flat_map(move |kept| {
        let (first, last) = (..kept * n, count - kept * n..);
        [lent.symbols[first].to_vec(), lent.symbols[last].to_vec()]
    })
    .map(|symbols| lent.with_symbols(symbols))
}

/// The first or the last of the values.
fn fewer_values(lent: &CableInputs) -> impl Iterator<Item = CableInputs> + '_ {
    let values = lent.response.len();
    let kept = [1, values / 2, values.saturating_sub(1)];
    let kept = kept
        .into_iter()
        .filter(move |&kept| kept > 0 && kept < values);
    let lists = kept.flat_map(move |kept| {
        let (first, last) = (..kept, values - kept..);
        [lent.response[first].to_vec(), lent.response[last].to_vec()]
    });
    lists.map(|response| CableInputs {
        response,
        ..lent.clone()
    })
}

fn simpler_settings(lent: &CableInputs) -> impl Iterator<Item = CableInputs> + '_ {
    let s = lent.settings;
    let least = [
        Settings { p: 1, n: 1, ..s },
        Settings { p: 1, ..s },
        Settings { q: 1, ..s },
        Settings { r: 0, ..s },
        Settings { l: 0, ..s },
        Settings { m: 0, ..s },
    ];
    let least = least.into_iter().filter(move |other| *other != s);
    least.map(|settings| CableInputs {
        settings,
        ..lent.clone()
    })
}

fn less_training(lent: &CableInputs) -> impl Iterator<Item = CableInputs> + '_ {
    let less = (lent.training > 0).then(|| CableInputs {
        training: 0,
        ..lent.clone()
    });
    less.into_iter()
}

/// One value each at 0.
fn plainer_values(lent: &CableInputs) -> impl Iterator<Item = CableInputs> + '_ {
    let places = (0..lent.response.len()).filter(|&at| lent.response[at] != 0);
    places.map(|at| {
        let mut plainer = lent.clone();
        plainer.response[at] = 0;
        plainer
    })
}

/// One symbol each at 1, of the first hundred.
fn plainer_symbols(lent: &CableInputs) -> impl Iterator<Item = CableInputs> + '_ {
    let places = (0..lent.symbols.len().min(100)).filter(|&at| lent.symbols[at] != 1);
    places.map(|at| {
        let mut plainer = lent.clone();
        plainer.symbols[at] = 1;
        plainer
    })
}
