//! "Numbers" of the specification: the cut T, the bit length and the scale
//! count S, on exact dyadic numbers.

use std::cmp::Ordering;

/// The number `mantissa` · 2^`exponent`, exactly.
#[derive(Clone, Copy, Debug)]
pub struct Dyadic {
    mantissa: i128,
    exponent: i32,
}

/// `a` · 2^`shift` for `shift` at least 0. Stops if the result does not fit.
fn raise(a: i128, shift: i32) -> i128 {
    assert!(shift >= 0);
    if a == 0 {
        return 0;
    }
    assert!(shift < 127, "number too long");
    a.checked_mul(1i128 << shift).expect("number too long")
}

impl Dyadic {
    /// `mantissa` · 2^`exponent`.
    pub fn new(mantissa: i128, exponent: i32) -> Dyadic {
        Dyadic { mantissa, exponent }
    }

    /// A whole number.
    pub fn whole(a: i128) -> Dyadic {
        Dyadic::new(a, 0)
    }

    /// 2^`exponent`.
    pub fn power(exponent: i32) -> Dyadic {
        Dyadic::new(1, exponent)
    }

    /// This number times 2^`shift`; `shift` may be negative.
    pub fn scaled(self, shift: i32) -> Dyadic {
        Dyadic::new(self.mantissa, self.exponent + shift)
    }

    /// The sum.
    pub fn plus(self, other: Dyadic) -> Dyadic {
        let exponent = self.exponent.min(other.exponent);
        let a = raise(self.mantissa, self.exponent - exponent);
        let b = raise(other.mantissa, other.exponent - exponent);
        Dyadic::new(a.checked_add(b).expect("number too long"), exponent)
    }

    /// The product.
    pub fn times(self, other: Dyadic) -> Dyadic {
        let product = self
            .mantissa
            .checked_mul(other.mantissa)
            .expect("number too long");
        Dyadic::new(product, self.exponent + other.exponent)
    }

    /// The order of two numbers.
    pub fn order(self, other: Dyadic) -> Ordering {
        let exponent = self.exponent.min(other.exponent);
        let a = raise(self.mantissa, self.exponent - exponent);
        let b = raise(other.mantissa, other.exponent - exponent);
        a.cmp(&b)
    }

    /// Whether this number is less than the other.
    pub fn less(self, other: Dyadic) -> bool {
        self.order(other) == Ordering::Less
    }

    /// Whether this number is at most the other.
    pub fn at_most(self, other: Dyadic) -> bool {
        self.order(other) != Ordering::Greater
    }

    /// T: the cut to a whole number toward zero.
    pub fn cut(self) -> i128 {
        if self.exponent >= 0 {
            raise(self.mantissa, self.exponent)
        } else {
            // A shift of the magnitude, which is not negative, is a division
            // with the remainder dropped.
            let magnitude = self.mantissa.unsigned_abs();
            let kept = if self.exponent > -128 {
                (magnitude >> -self.exponent) as i128
            } else {
                0
            };
            if self.mantissa < 0 {
                -kept
            } else {
                kept
            }
        }
    }

    /// The greatest whole number that is not above this number.
    pub fn floor(self) -> i128 {
        let cut = self.cut();
        if self.less(Dyadic::whole(cut)) {
            cut - 1
        } else {
            cut
        }
    }

    /// Whether this number is whole.
    pub fn is_whole(self) -> bool {
        self.order(Dyadic::whole(self.cut())) == Ordering::Equal
    }

    /// This number as a whole number. Stops if it is not whole.
    pub fn exactly(self) -> i128 {
        assert!(self.is_whole(), "a number that must be whole is not");
        self.cut()
    }
}

/// The count of binary digits of the magnitude of `a` up to the highest one;
/// that of 0 is 0.
pub fn bit_length(a: i128) -> i32 {
    let mut rest = a.unsigned_abs();
    let mut digits = 0;
    while rest > 0 {
        rest /= 2;
        digits += 1;
    }
    digits
}

/// S(k): the least whole number with 2^S at least 2k.
pub fn scale_count(k: u8) -> i32 {
    let mut s = 0;
    while (1i128 << s) < 2 * i128::from(k) {
        s += 1;
    }
    s
}

/// Whether `v` is a symbol: an odd whole number of magnitude at most
/// 2^(r+1) − 1.
pub fn is_symbol(v: i128, r: u8) -> bool {
    v % 2 != 0 && v.abs() < 1i128 << (r + 1)
}

#[cfg(test)]
mod tests {
    use super::*;

    #[test]
    fn the_cut_goes_toward_zero() {
        assert_eq!(Dyadic::new(-3, -1).cut(), -1);
        assert_eq!(Dyadic::new(3, -1).cut(), 1);
        assert_eq!(Dyadic::new(-1, -1).cut(), 0);
        assert_eq!(Dyadic::new(-4, -1).cut(), -2);
        assert_eq!(Dyadic::new(-5, 3).cut(), -40);
        assert_eq!(Dyadic::new(-5, -127).cut(), 0);
        assert_eq!(Dyadic::new(-5, -4000).cut(), 0);
        assert_eq!(Dyadic::new(0, 4000).cut(), 0);
    }

    #[test]
    fn the_floor_goes_down() {
        assert_eq!(Dyadic::new(-3, -1).floor(), -2);
        assert_eq!(Dyadic::new(3, -1).floor(), 1);
        assert_eq!(Dyadic::new(-1, -100).floor(), -1);
        assert_eq!(Dyadic::new(-4, -1).floor(), -2);
        assert_eq!(Dyadic::new(0, -7).floor(), 0);
    }

    #[test]
    fn sums_products_and_order_are_exact() {
        let three_halves = Dyadic::new(3, -1);
        let quarter = Dyadic::power(-2);
        let sum = three_halves.plus(quarter);
        assert_eq!(sum.scaled(2).exactly(), 7);
        assert_eq!(sum.times(sum).scaled(4).exactly(), 49);
        assert!(quarter.less(three_halves));
        assert!(!quarter.less(quarter));
        assert!(quarter.at_most(Dyadic::new(2, -3)));
        assert!(Dyadic::new(-1, 0).less(quarter));
    }

    #[test]
    #[should_panic]
    fn a_fraction_is_not_whole() {
        Dyadic::new(3, -1).exactly();
    }

    #[test]
    #[should_panic]
    fn a_number_that_is_too_long_stops() {
        Dyadic::new(3, 126).cut();
    }

    #[test]
    fn bit_lengths() {
        assert_eq!(bit_length(0), 0);
        assert_eq!(bit_length(1), 1);
        assert_eq!(bit_length(-1), 1);
        assert_eq!(bit_length(255), 8);
        assert_eq!(bit_length(256), 9);
        assert_eq!(bit_length(-(1 << 30)), 31);
        for a in 1..5000i128 {
            let digits = bit_length(a);
            assert!(1 << (digits - 1) <= a && a < 1 << digits);
            assert_eq!(bit_length(-a), digits);
        }
    }

    #[test]
    fn scale_counts_are_the_least_that_reach_2k() {
        for k in 1..=u8::MAX {
            let s = scale_count(k);
            let doubled = 2 * i128::from(k);
            assert!(1 << s >= doubled, "{k}");
            assert!(1 << (s - 1) < doubled, "{k}");
        }
    }

    /// Whether S(k) is the bit length of `number` of k for every k from 1 to
    /// `last`.
    fn agrees(last: u8, number: fn(i128) -> i128) -> bool {
        (1..=last).all(|k| scale_count(k) == bit_length(number(i128::from(k))))
    }

    #[test]
    fn scale_counts_are_the_bit_lengths_of_2k_less_1() {
        assert!(agrees(u8::MAX, |k| 2 * k - 1));
    }

    #[test]
    fn sixteen_scale_counts_tell_wrong_formulas_apart() {
        assert!(agrees(16, |k| 2 * k - 1));
        assert!(!agrees(16, |k| 2 * k));
        assert!(!agrees(16, |k| k));
        assert!(!agrees(16, |k| 2 * k - 2));
    }

    #[test]
    fn scale_counts_by_ranges() {
        let ranges = [
            (1..=1, 1),
            (2..=2, 2),
            (3..=4, 3),
            (5..=8, 4),
            (9..=16, 5),
            (17..=32, 6),
            (33..=64, 7),
            (65..=128, 8),
            (129..=u8::MAX, 9),
        ];
        for (range, s) in ranges {
            for k in range {
                assert_eq!(scale_count(k), s, "{k}");
            }
        }
    }

    #[test]
    fn symbols_are_odd_and_bounded() {
        for r in 0..=3u8 {
            let end = (1i128 << (r + 1)) - 1;
            for v in -40..=40i128 {
                assert_eq!(is_symbol(v, r), v.rem_euclid(2) == 1 && v.abs() <= end);
            }
        }
    }
}
