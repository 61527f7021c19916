//! "Numbers" of the specification: the cut T, the bit length and the scale
//! count S, on exact dyadic numbers.

use std::cmp::Ordering;

/// The number `mantissa` · 2^`exponent`, exactly.
#[derive(Clone, Copy, Debug)]
pub struct Dyadic {
    mantissa: i128,
    exponent: i32,
}

/// `a` · 2^`shift` for `shift` at least 0. Stops if the result does not fit.
fn raise(a: i128, shift: i32) -> i128 {
    assert!(shift >= 0);
    if a == 0 {
        return 0;
    }
    assert!(shift < 127, "number too long");
    a.checked_mul(1i128 << shift).expect("number too long")
}

impl Dyadic {
    /// `mantissa` · 2^`exponent`.
    pub fn new(mantissa: i128, exponent: i32) -> Dyadic {
        Dyadic { mantissa, exponent }
    }

    /// A whole number.
    pub fn whole(a: i128) -> Dyadic {
        Dyadic::new(a, 0)
    }

    /// 2^`exponent`.
    pub fn power(exponent: i32) -> Dyadic {
        Dyadic::new(1, exponent)
    }

    /// This number times 2^`shift`; `shift` may be negative.
    pub fn scaled(self, shift: i32) -> Dyadic {
        Dyadic::new(self.mantissa, self.exponent + shift)
    }

    /// Both mantissas over the lesser of the two exponents.
    fn aligned(self, other: Dyadic) -> (i128, i128, i32) {
        let exponent = self.exponent.min(other.exponent);
        let lift = |a: Dyadic| raise(a.mantissa, a.exponent - exponent);
        (lift(self), lift(other), exponent)
    }

    pub fn plus(self, other: Dyadic) -> Dyadic {
        let (a, b, exponent) = self.aligned(other);
        Dyadic::new(a.checked_add(b).expect("number too long"), exponent)
    }

    pub fn times(self, other: Dyadic) -> Dyadic {
        let product = self.mantissa.checked_mul(other.mantissa).expect("number too long");
        Dyadic::new(product, self.exponent + other.exponent)
    }

    pub fn order(self, other: Dyadic) -> Ordering {
        let (a, b, _) = self.aligned(other);
        a.cmp(&b)
    }

    /// Whether this number is less than the other.
    pub fn less(self, other: Dyadic) -> bool {
        self.order(other) == Ordering::Less
    }

    /// Whether this number is at most the other.
    pub fn at_most(self, other: Dyadic) -> bool {
        self.order(other) != Ordering::Greater
    }

    /// T: the cut to a whole number toward zero.
    pub fn cut(self) -> i128 {
        if self.exponent >= 0 {
            raise(self.mantissa, self.exponent)
        } else {
            // A shift of the magnitude, which is not negative, is a division
            // with the remainder dropped.
            let magnitude = self.mantissa.unsigned_abs();
            let kept = if self.exponent > -128 { (magnitude >> -self.exponent) as i128 } else { 0 };
            kept * self.mantissa.signum()
        }
    }

    /// The greatest whole number that is not above this number.
    pub fn floor(self) -> i128 {
        let cut = self.cut();
        cut - i128::from(self.less(Dyadic::whole(cut)))
    }

    /// Whether this number is whole.
    pub fn is_whole(self) -> bool {
        self.order(Dyadic::whole(self.cut())) == Ordering::Equal
    }

    /// This number as a whole number. Stops if it is not whole.
    pub fn exactly(self) -> i128 {
        assert!(self.is_whole(), "a number that must be whole is not");
        self.cut()
    }
}

/// The count of binary digits of the magnitude of `a` up to the highest one;
/// that of 0 is 0.
pub fn bit_length(a: i128) -> i32 {
    let mut rest = a.unsigned_abs();
    let mut digits = 0;
    while rest > 0 {
        rest /= 2;
        digits += 1;
    }
    digits
}

/// S(k): the least whole number with 2^S at least 2k.
pub fn scale_count(k: u8) -> i32 {
    let mut s = 0;
    while (1i128 << s) < 2 * i128::from(k) {
        s += 1;
    }
    s
}

/// Whether `v` is a symbol: an odd whole number of magnitude at most
/// 2^(r+1) − 1.
pub fn is_symbol(v: i128, r: u8) -> bool {
    v % 2 != 0 && v.abs() < 1i128 << (r + 1)
}

#[cfg(test)]
mod tests {
    use super::*;

    #[test]
    fn the_cut_goes_toward_zero_and_the_floor_down() {
        for (mantissa, exponent, cut, floor) in [
            (-3, -1, -1, -2),
            (3, -1, 1, 1),
            (-1, -1, 0, -1),
            (-4, -1, -2, -2),
            (-5, 3, -40, -40),
            (-1, -100, 0, -1),
            (0, -7, 0, 0),
            (0, 4000, 0, 0),
        ] {
            let number = Dyadic::new(mantissa, exponent);
            assert_eq!((number.cut(), number.floor()), (cut, floor), "{number:?}");
            assert_eq!(number.is_whole(), mantissa % 2 == 0 || exponent > 0);
        }
        let ends = [(i128::MIN, -127), (-5, -127), (i128::MIN, -128), (-5, -4000)];
        assert_eq!(ends.map(|(mantissa, exponent)| Dyadic::new(mantissa, exponent).cut()), [-1, 0, 0, 0]);
    }

    #[test]
    fn sums_products_and_order_are_exact() {
        let (three_halves, quarter) = (Dyadic::new(3, -1), Dyadic::power(-2));
        let sum = three_halves.plus(quarter);
        assert_eq!(sum.scaled(2).exactly(), 7);
        assert_eq!(sum.times(sum).scaled(4).exactly(), 49);
        assert!(quarter.less(three_halves) && !quarter.less(quarter));
        assert!(quarter.at_most(Dyadic::new(2, -3)) && !three_halves.at_most(quarter));
        assert!(Dyadic::new(-1, 0).less(quarter));
    }

    #[test]
    #[should_panic]
    fn a_fraction_is_not_whole() {
        Dyadic::new(3, -1).exactly();
    }

    #[test]
    fn bit_lengths() {
        assert_eq!([0, 1, -1, 255, 256, -(1 << 30)].map(bit_length), [0, 1, 1, 8, 9, 31]);
        for a in 1..5000i128 {
            let digits = bit_length(a);
            assert!(1 << (digits - 1) <= a && a < 1 << digits);
            assert_eq!(bit_length(-a), digits);
        }
    }

    /// S(k) is the least that reaches 2k, and that is the bit length of 2k − 1.
    #[test]
    fn scale_counts() {
        for k in 1..=u8::MAX {
            let (s, doubled) = (scale_count(k), 2 * i128::from(k));
            assert!(1 << (s - 1) < doubled && doubled <= 1 << s, "{k}");
            assert_eq!(s, bit_length(doubled - 1));
        }
    }

    #[test]
    fn symbols_are_odd_and_bounded() {
        for r in 0..=3u8 {
            let end = (1i128 << (r + 1)) - 1;
            for v in -40..=40i128 {
                assert_eq!(is_symbol(v, r), v.rem_euclid(2) == 1 && v.abs() <= end);
            }
        }
    }
}
