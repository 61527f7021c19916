//! A share of the greatest admitted M, exact: 1/8, 0.125 or 1.

#[derive(Clone, Copy, Debug, PartialEq, Eq)]
pub struct Share {
    part: u64,
    whole: u64,
}

/// Decimal digits alone, few enough for 64 bits.
fn digits(word: &str) -> Option<u64> {
    let plain = word.bytes().all(|byte| byte.is_ascii_digit());
    let fits = (1..=18).contains(&word.len());
    (plain && fits).then(|| word.parse().ok())?
}

fn quotient(part: &str, whole: &str) -> Option<Share> {
    let (part, whole) = (digits(part)?, digits(whole)?);
    (whole > 0).then_some(Share { part, whole })
}

fn decimal(units: &str, decimals: &str) -> Option<Share> {
    digits(decimals)?;
    let part = digits(&format!("{units}{decimals}"))?;
    let whole = 10u64.pow(decimals.len() as u32);
    Some(Share { part, whole })
}

impl Share {
    /// From 0 to 1, as a quotient, a decimal or a whole number.
    pub fn of_word(word: &str) -> Option<Share> {
        let share = if let Some((part, whole)) = word.split_once('/') {
            quotient(part, whole)
        } else if let Some((units, decimals)) = word.split_once('.') {
            decimal(units, decimals)
        } else {
            quotient(word, "1")
        };
        share.filter(|share| share.part <= share.whole)
    }

    /// The share of a number, rounded down.
    pub fn of(&self, number: u32) -> u32 {
        let product = u128::from(number) * u128::from(self.part);
        (product / u128::from(self.whole)) as u32
    }
}
