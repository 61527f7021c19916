//! Whole numbers of any length, and dyadic numbers over them, for the checker
//! of demand 3.

use std::cmp::Ordering;

/// A whole number of any length: its digits to base 2^32, least first. Each is
/// 0 to 2^32 − 1, but the last one of a negative number is −1; no last one is 0.
#[derive(Clone, Debug, PartialEq, Eq)]
struct Big(Vec<i128>);

const BASE: i128 = 1 << 32;

impl Big {
    /// The sum of any numbers, each times the power of the base of its place.
    fn of(numbers: impl IntoIterator<Item = i128>) -> Big {
        let (mut digits, mut carry) = (Vec::new(), 0);
        for number in numbers {
            let total = number + carry;
            digits.push(total.rem_euclid(BASE));
            carry = total.div_euclid(BASE);
        }
        while carry != 0 && carry != -1 {
            digits.push(carry.rem_euclid(BASE));
            carry = carry.div_euclid(BASE);
        }
        // Digits that say nothing: 0 before a carry of 0, the greatest one before −1.
        while digits.last() == Some(&carry.rem_euclid(BASE)) {
            digits.pop();
        }
        digits.extend((carry == -1).then_some(-1));
        Big(digits)
    }

    /// A number of 128 bits.
    fn from(a: i128) -> Big {
        Big::of([a])
    }

    /// An operation on each two digits.
    fn with(&self, other: &Big, operation: fn(i128, i128) -> i128) -> Big {
        let digit = |a: &Big, place: usize| a.0.get(place).copied().unwrap_or(0);
        let places = 0..self.0.len().max(other.0.len());
        Big::of(places.map(|place| operation(digit(self, place), digit(other, place))))
    }

    fn plus(&self, other: &Big) -> Big {
        self.with(other, |a, b| a + b)
    }

    fn minus(&self, other: &Big) -> Big {
        self.with(other, |a, b| a - b)
    }

    fn times(&self, other: &Big) -> Big {
        let mut sums = vec![0; self.0.len() + other.0.len()];
        for (i, a) in self.0.iter().enumerate() {
            for (j, b) in other.0.iter().enumerate() {
                sums[i + j] += a * b;
            }
        }
        Big::of(sums)
    }

    /// The number times 2^`places`.
    fn raised(&self, places: u32) -> Big {
        let zeros = vec![0; (places / 32) as usize];
        Big::of(zeros.into_iter().chain(self.0.iter().map(|digit| digit << (places % 32))))
    }

    fn is_negative(&self) -> bool {
        self.0.last() == Some(&-1)
    }

    fn magnitude(&self) -> Big {
        match self.is_negative() {
            true => Big::from(0).minus(self),
            false => self.clone(),
        }
    }

    fn order(&self, other: &Big) -> Ordering {
        let difference = self.minus(other);
        match difference.is_negative() {
            true => Ordering::Less,
            false => difference.0.len().cmp(&0),
        }
    }
}

/// A whole number of any length, held in 128 bits where it fits.
#[derive(Clone, Debug)]
enum Whole {
    Short(i128),
    Long(Big),
}

use Whole::{Long, Short};

impl Whole {
    fn big(&self) -> Big {
        match self {
            Short(a) => Big::from(*a),
            Long(a) => a.clone(),
        }
    }

    /// An operation on two numbers: `short` where it gives a number.
    fn with(&self, other: &Whole, short: fn(i128, i128) -> Option<i128>, long: fn(&Big, &Big) -> Big) -> Whole {
        if let (Short(a), Short(b)) = (self, other) {
            if let Some(c) = short(*a, *b) {
                return Short(c);
            }
        }
        Long(long(&self.big(), &other.big()))
    }

    fn plus(&self, other: &Whole) -> Whole {
        self.with(other, i128::checked_add, Big::plus)
    }

    fn minus(&self, other: &Whole) -> Whole {
        self.with(other, i128::checked_sub, Big::minus)
    }

    fn times(&self, other: &Whole) -> Whole {
        self.with(other, i128::checked_mul, Big::times)
    }

    fn magnitude(&self) -> Whole {
        match self {
            Short(a) if *a != i128::MIN => Short(a.abs()),
            _ => Long(self.big().magnitude()),
        }
    }

    fn raised(&self, places: u32) -> Whole {
        match self {
            Short(0) => Short(0),
            Short(a) if places < a.unsigned_abs().leading_zeros() => Short(a << places),
            _ => Long(self.big().raised(places)),
        }
    }

    fn order(&self, other: &Whole) -> Ordering {
        match (self, other) {
            (Short(a), Short(b)) => a.cmp(b),
            _ => self.big().order(&other.big()),
        }
    }
}

/// The number `mantissa` · 2^`exponent`, exactly.
#[derive(Clone, Debug)]
pub struct Exact {
    mantissa: Whole,
    exponent: i32,
}

impl Default for Exact {
    fn default() -> Exact {
        Exact::new(0, 0)
    }
}

impl Exact {
    /// `mantissa` · 2^`exponent`.
    pub fn new(mantissa: i128, exponent: i32) -> Exact {
        Exact { mantissa: Short(mantissa), exponent }
    }

    /// Both mantissas over the lesser of the two exponents.
    fn aligned(&self, other: &Exact) -> (Whole, Whole, i32) {
        let exponent = self.exponent.min(other.exponent);
        let lift = |a: &Exact| a.mantissa.raised(a.exponent.abs_diff(exponent));
        (lift(self), lift(other), exponent)
    }

    pub fn plus(&self, other: &Exact) -> Exact {
        let (a, b, exponent) = self.aligned(other);
        Exact { mantissa: a.plus(&b), exponent }
    }

    pub fn minus(&self, other: &Exact) -> Exact {
        let (a, b, exponent) = self.aligned(other);
        Exact { mantissa: a.minus(&b), exponent }
    }

    pub fn times(&self, other: &Exact) -> Exact {
        Exact { mantissa: self.mantissa.times(&other.mantissa), exponent: self.exponent + other.exponent }
    }

    /// The number times 2^`places`; `places` may be negative.
    pub fn scaled(&self, places: i32) -> Exact {
        Exact { mantissa: self.mantissa.clone(), exponent: self.exponent + places }
    }

    pub fn magnitude(&self) -> Exact {
        Exact { mantissa: self.mantissa.magnitude(), exponent: self.exponent }
    }

    pub fn order(&self, other: &Exact) -> Ordering {
        let (a, b, _) = self.aligned(other);
        a.order(&b)
    }

    /// Whether this number is less than the other.
    pub fn less(&self, other: &Exact) -> bool {
        self.order(other) == Ordering::Less
    }

    /// Whether this number is at most the other.
    pub fn at_most(&self, other: &Exact) -> bool {
        self.order(other) != Ordering::Greater
    }

    /// The magnitude to a few digits, for reports only.
    pub fn roughly(&self) -> f64 {
        let digits = self.mantissa.big().magnitude().0;
        let mantissa = digits.iter().rev().fold(0.0, |value, &digit| value * BASE as f64 + digit as f64);
        mantissa * f64::from(self.exponent).exp2()
    }
}

#[cfg(test)]
mod tests {
    use super::*;
    use crate::random::Random;

    /// Any number of up to 128 bits, one in eight right at an end.
    fn any(random: &mut Random) -> i128 {
        let wide = (i128::from(random.next() as i64) << 64) | i128::from(random.next());
        match random.chance(1, 8) {
            true => random.pick(&[0, 1, -1, i128::MIN, i128::MAX]),
            false => wide >> random.between(0, 127),
        }
    }

    #[test]
    fn long_numbers_obey_the_rules() {
        let mut random = Random::new(12);
        for _ in 0..3_000 {
            let mut long = || {
                let [a, b, c] = [0; 3].map(|_| any(&mut random));
                let places = random.below(200) as u32;
                Big::from(a).times(&Big::from(b)).raised(places).plus(&Big::from(c))
            };
            let (a, b, c) = (long(), long(), long());
            assert_eq!(a.plus(&b).times(&c), a.times(&c).plus(&b.times(&c)), "products over sums");
            assert_eq!(a.plus(&b).minus(&b), a);
            assert_eq!(a.minus(&b), Big::from(0).minus(&b.minus(&a)));
            assert_eq!(a.minus(&a), Big::from(0));
            assert_eq!(a.order(&b), a.minus(&b).order(&Big::from(0)), "order and difference");
            assert_eq!(a.raised(77), a.times(&Big::from(1 << 77)));
        }
    }

    /// Where 128 bits hold a result, it is that of the machine's numbers.
    #[test]
    fn numbers_held_either_way_agree() {
        let mut random = Random::new(13);
        for _ in 0..20_000 {
            let (a, b) = (any(&mut random), any(&mut random));
            let places = random.below(140) as u32;
            let (x, y) = (Big::from(a), Big::from(b));
            let (short, other) = (Short(a), Short(b));
            assert_eq!(short.plus(&other).big(), x.plus(&y));
            assert_eq!(short.minus(&other).big(), x.minus(&y));
            assert_eq!(short.times(&other).big(), x.times(&y));
            assert_eq!(short.magnitude().big(), x.magnitude());
            assert_eq!(short.raised(places).big(), x.raised(places));
            assert_eq!(short.order(&other), x.order(&y));
            assert_eq!(Long(x.clone()).order(&other), x.order(&y));
        }
    }

    #[test]
    fn dyadic_numbers() {
        let a = Exact::new(-3, -1);
        let b = Exact::new(1, -200);
        assert!(a.less(&b) && Exact::default().less(&b));
        assert!(a.plus(&b).minus(&b).at_most(&a));
        assert!(!a.plus(&b).at_most(&a));
        assert_eq!(a.times(&a).roughly(), 2.25);
        assert_eq!(a.scaled(3).magnitude().roughly(), 12.0);
    }
}
