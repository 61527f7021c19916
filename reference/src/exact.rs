//! Whole numbers of any length, and dyadic numbers over them, for the checker
//! of demand 3.

use std::cmp::Ordering;

/// A whole number of any length: a sign and the magnitude's digits to base
/// 2^32, least first. The last digit is not 0; zero has no digits and is not
/// negative.
#[derive(Clone, Debug, PartialEq, Eq)]
pub struct Big {
    negative: bool,
    digits: Vec<u32>,
}

fn order_of_magnitudes(a: &[u32], b: &[u32]) -> Ordering {
    a.len()
        .cmp(&b.len())
        .then_with(|| a.iter().rev().cmp(b.iter().rev()))
}

fn sum_of_magnitudes(a: &[u32], b: &[u32]) -> Vec<u32> {
    let mut sum = Vec::new();
    let mut carry = 0u64;
    for i in 0..a.len().max(b.len()) {
        let x = u64::from(a.get(i).copied().unwrap_or(0));
        let y = u64::from(b.get(i).copied().unwrap_or(0));
        let total = x + y + carry;
        sum.push(total as u32);
        carry = total >> 32;
    }
    sum.push(carry as u32);
    sum
}

/// a − b for a at least b.
fn difference_of_magnitudes(a: &[u32], b: &[u32]) -> Vec<u32> {
    let mut difference = Vec::new();
    let mut borrow = 0i64;
    for (i, &x) in a.iter().enumerate() {
        let x = i64::from(x);
        let y = i64::from(b.get(i).copied().unwrap_or(0));
        let total = x - y - borrow;
        borrow = i64::from(total < 0);
        difference.push((total + (borrow << 32)) as u32);
    }
    assert_eq!(borrow, 0);
    difference
}

impl Big {
    fn from_parts(negative: bool, mut digits: Vec<u32>) -> Big {
        while digits.last() == Some(&0) {
            digits.pop();
        }
        Big {
            negative: negative && !digits.is_empty(),
            digits,
        }
    }

    /// A number of 128 bits.
    pub fn from(a: i128) -> Big {
        let mut rest = a.unsigned_abs();
        let mut digits = Vec::new();
        while rest > 0 {
            digits.push(rest as u32);
            rest >>= 32;
        }
        Big::from_parts(a < 0, digits)
    }

    /// The number with the other sign.
    pub fn negated(&self) -> Big {
        Big::from_parts(!self.negative, self.digits.clone())
    }

    /// The magnitude.
    pub fn magnitude(&self) -> Big {
        Big::from_parts(false, self.digits.clone())
    }

    /// The sum.
    pub fn plus(&self, other: &Big) -> Big {
        if self.negative == other.negative {
            let sum = sum_of_magnitudes(&self.digits, &other.digits);
            return Big::from_parts(self.negative, sum);
        }
        if order_of_magnitudes(&self.digits, &other.digits) == Ordering::Less {
            let difference = difference_of_magnitudes(&other.digits, &self.digits);
            Big::from_parts(other.negative, difference)
        } else {
            let difference = difference_of_magnitudes(&self.digits, &other.digits);
            Big::from_parts(self.negative, difference)
        }
    }

    /// The difference.
    pub fn minus(&self, other: &Big) -> Big {
        self.plus(&other.negated())
    }

    /// The product.
    pub fn times(&self, other: &Big) -> Big {
        let mut digits = vec![0u32; self.digits.len() + other.digits.len()];
        for (i, &x) in self.digits.iter().enumerate() {
            let mut carry = 0u64;
            for (j, &y) in other.digits.iter().enumerate() {
                let total = u64::from(x) * u64::from(y) + u64::from(digits[i + j]) + carry;
                digits[i + j] = total as u32;
                carry = total >> 32;
            }
            digits[i + other.digits.len()] = carry as u32;
        }
        Big::from_parts(self.negative != other.negative, digits)
    }

    /// The number times 2^`places`.
    pub fn raised(&self, places: u32) -> Big {
        let mut digits = vec![0u32; (places / 32) as usize];
        let mut carry = 0u64;
        for &digit in &self.digits {
            let total = (u64::from(digit) << (places % 32)) | carry;
            digits.push(total as u32);
            carry = total >> 32;
        }
        digits.push(carry as u32);
        Big::from_parts(self.negative, digits)
    }

    /// The order of two numbers.
    pub fn order(&self, other: &Big) -> Ordering {
        match (self.negative, other.negative) {
            (false, true) => Ordering::Greater,
            (true, false) => Ordering::Less,
            (false, false) => order_of_magnitudes(&self.digits, &other.digits),
            (true, true) => order_of_magnitudes(&other.digits, &self.digits),
        }
    }
}

/// A whole number of any length, held in 128 bits where it fits.
#[derive(Clone, Debug)]
enum Whole {
    Short(i128),
    Long(Big),
}

use Whole::{Long, Short};

impl Whole {
    fn big(&self) -> Big {
        match self {
            Short(a) => Big::from(*a),
            Long(a) => a.clone(),
        }
    }

    /// An operation on two numbers: `short` where it gives a number.
    fn with(
        &self,
        other: &Whole,
        short: fn(i128, i128) -> Option<i128>,
        long: fn(&Big, &Big) -> Big,
    ) -> Whole {
        if let (Short(a), Short(b)) = (self, other) {
            if let Some(c) = short(*a, *b) {
                return Short(c);
            }
        }
        Long(long(&self.big(), &other.big()))
    }

    fn plus(&self, other: &Whole) -> Whole {
        self.with(other, i128::checked_add, Big::plus)
    }

    fn minus(&self, other: &Whole) -> Whole {
        self.with(other, i128::checked_sub, Big::minus)
    }

    fn times(&self, other: &Whole) -> Whole {
        self.with(other, i128::checked_mul, Big::times)
    }

    fn magnitude(&self) -> Whole {
        match self {
            Short(a) if *a != i128::MIN => Short(a.abs()),
            _ => Long(self.big().magnitude()),
        }
    }

    fn raised(&self, places: u32) -> Whole {
        match self {
            Short(0) => Short(0),
            Short(a) if places < a.unsigned_abs().leading_zeros() => Short(a << places),
            _ => Long(self.big().raised(places)),
        }
    }

    fn order(&self, other: &Whole) -> Ordering {
        match (self, other) {
            (Short(a), Short(b)) => a.cmp(b),
            _ => self.big().order(&other.big()),
        }
    }
}

/// The number `mantissa` · 2^`exponent`, exactly.
#[derive(Clone, Debug)]
pub struct Exact {
    mantissa: Whole,
    exponent: i32,
}

impl Exact {
    /// `mantissa` · 2^`exponent`.
    pub fn new(mantissa: i128, exponent: i32) -> Exact {
        Exact {
            mantissa: Short(mantissa),
            exponent,
        }
    }

    /// Zero.
    pub fn zero() -> Exact {
        Exact::new(0, 0)
    }

    /// Both mantissas over the lesser of the two exponents.
    fn aligned(&self, other: &Exact) -> (Whole, Whole, i32) {
        let exponent = self.exponent.min(other.exponent);
        let lift = |a: &Exact| a.mantissa.raised(a.exponent.abs_diff(exponent));
        (lift(self), lift(other), exponent)
    }

    /// The sum.
    pub fn plus(&self, other: &Exact) -> Exact {
        let (a, b, exponent) = self.aligned(other);
        Exact {
            mantissa: a.plus(&b),
            exponent,
        }
    }

    /// The difference.
    pub fn minus(&self, other: &Exact) -> Exact {
        let (a, b, exponent) = self.aligned(other);
        Exact {
            mantissa: a.minus(&b),
            exponent,
        }
    }

    /// The product.
    pub fn times(&self, other: &Exact) -> Exact {
        Exact {
            mantissa: self.mantissa.times(&other.mantissa),
            exponent: self.exponent + other.exponent,
        }
    }

    /// The number times 2^`places`; `places` may be negative.
    pub fn scaled(&self, places: i32) -> Exact {
        Exact {
            mantissa: self.mantissa.clone(),
            exponent: self.exponent + places,
        }
    }

    /// The magnitude.
    pub fn magnitude(&self) -> Exact {
        Exact {
            mantissa: self.mantissa.magnitude(),
            exponent: self.exponent,
        }
    }

    /// The order of two numbers.
    pub fn order(&self, other: &Exact) -> Ordering {
        let (a, b, _) = self.aligned(other);
        a.order(&b)
    }

    /// Whether this number is less than the other.
    pub fn less(&self, other: &Exact) -> bool {
        self.order(other) == Ordering::Less
    }

    /// Whether this number is at most the other.
    pub fn at_most(&self, other: &Exact) -> bool {
        self.order(other) != Ordering::Greater
    }

    /// The number to a few digits, for reports only.
    pub fn roughly(&self) -> f64 {
        let mantissa = self.mantissa.big();
        let mut value = 0.0;
        for &digit in mantissa.digits.iter().rev() {
            value = value * 4294967296.0 + f64::from(digit);
        }
        let value = value * f64::from(self.exponent).exp2();
        if mantissa.negative {
            -value
        } else {
            value
        }
    }
}

#[cfg(test)]
mod tests {
    use super::*;
    use crate::random::Random;

    fn some(random: &mut Random) -> i128 {
        let bits = random.between(0, 62);
        let a = (random.next() as i128) >> (64 - bits).min(127);
        if random.chance(1, 2) {
            a
        } else {
            -a
        }
    }

    #[test]
    fn small_numbers_agree_with_128_bits() {
        let mut random = Random::new(11);
        for _ in 0..20_000 {
            let (a, b) = (some(&mut random), some(&mut random));
            let (x, y) = (Big::from(a), Big::from(b));
            assert_eq!(x.plus(&y), Big::from(a + b));
            assert_eq!(x.minus(&y), Big::from(a - b));
            assert_eq!(x.times(&y), Big::from(a * b));
            assert_eq!(x.order(&y), a.cmp(&b));
            assert_eq!(x.magnitude(), Big::from(a.abs()));
            let places = random.below(60) as u32;
            assert_eq!(x.raised(places), Big::from(a << places));
        }
    }

    #[test]
    fn long_numbers_obey_the_rules() {
        let mut random = Random::new(12);
        for _ in 0..3_000 {
            let mut long = || {
                let (a, b, c) = (some(&mut random), some(&mut random), some(&mut random));
                let places = random.below(200) as u32;
                Big::from(a)
                    .times(&Big::from(b))
                    .times(&Big::from(c))
                    .raised(places)
                    .plus(&Big::from(a))
            };
            let (a, b, c) = (long(), long(), long());
            assert_eq!(
                a.plus(&b).times(&c),
                a.times(&c).plus(&b.times(&c)),
                "products over sums"
            );
            assert_eq!(a.plus(&b).minus(&b), a);
            assert_eq!(a.minus(&b), b.minus(&a).negated());
            assert_eq!(a.minus(&a), Big::from(0));
            assert_eq!(
                a.order(&b),
                a.minus(&b).order(&Big::from(0)),
                "order and difference"
            );
            assert_eq!(a.raised(77), a.times(&Big::from(1 << 77)));
        }
    }

    #[test]
    fn numbers_held_either_way_agree() {
        let mut random = Random::new(13);
        for _ in 0..20_000 {
            let mut any = || {
                let bits = random.between(0, 127);
                let wide = (i128::from(random.next() as i64) << 64) | random.next() as i128;
                let end = random.pick(&[0, 1, -1, i128::MIN, i128::MAX]);
                [wide >> bits, end][usize::from(random.chance(1, 8))]
            };
            let (a, b) = (any(), any());
            let places = random.below(140) as u32;
            let (x, y) = (Big::from(a), Big::from(b));
            let (short, other) = (Short(a), Short(b));
            assert_eq!(short.plus(&other).big(), x.plus(&y));
            assert_eq!(short.minus(&other).big(), x.minus(&y));
            assert_eq!(short.times(&other).big(), x.times(&y));
            assert_eq!(short.magnitude().big(), x.magnitude());
            assert_eq!(short.raised(places).big(), x.raised(places));
            assert_eq!(short.order(&other), x.order(&y));
            assert_eq!(Long(x.clone()).order(&other), x.order(&y));
        }
    }

    #[test]
    fn dyadic_numbers() {
        let a = Exact::new(-3, -1);
        let b = Exact::new(1, -200);
        assert!(a.less(&b));
        assert!(Exact::zero().less(&b));
        assert!(a.plus(&b).minus(&b).at_most(&a));
        assert!(!a.plus(&b).at_most(&a));
        assert_eq!(a.roughly(), -1.5);
        assert_eq!(a.times(&a).roughly(), 2.25);
        assert_eq!(a.scaled(3).magnitude().roughly(), 12.0);
    }
}
