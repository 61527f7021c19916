//! The 64 bits of an f64, put together from whole numbers: a sign, 11 bits of
//! exponent and 52 digits behind a leading one. No f64 is added, multiplied or
//! divided here.

use crate::numbers::{bit_length, Dyadic};

/// The binary digits of a normal number, the leading one among them.
const DIGITS: i32 = 53;
/// The exponent field of 1, whose digits end 52 places below it.
const BIAS: i32 = 1023;

/// The bits of `digits`·2^`exponent`, or of its negative; `digits` has 53
/// binary digits. Stops if the exponent is none of a normal number.
fn normal(negative: bool, digits: i128, exponent: i32) -> u64 {
    assert_eq!(bit_length(digits), DIGITS);
    let field = exponent + (DIGITS - 1) + BIAS;
    assert!((1..=2046).contains(&field), "no normal number");
    let sign = u64::from(negative) << 63;
    let fraction = digits - (1 << (DIGITS - 1));
    sign | (field as u64) << (DIGITS - 1) | fraction as u64
}

/// The bits of `mantissa`·2^`exponent`, exactly; those of +0 for 0. Stops if
/// the mantissa has more than 53 binary digits.
pub fn exact(mantissa: i128, exponent: i32) -> u64 {
    if mantissa == 0 {
        return 0;
    }
    let missing = DIGITS - bit_length(mantissa);
    assert!(missing >= 0, "too many digits");
    normal(mantissa < 0, mantissa.abs() << missing, exponent - missing)
}

/// `dividend` / (`divisor`·2^`exponent`) as a whole number with the remainder,
/// and the number it was divided by at last.
fn divided(dividend: i128, divisor: i128, exponent: i32) -> (i128, i128, i128) {
    let raised = |a: i128, places: i32| Dyadic::new(a, places.max(0)).exactly();
    let dividend = raised(dividend, -exponent);
    let divisor = raised(divisor, exponent);
    (dividend / divisor, dividend % divisor, divisor)
}

/// The bits of the number of 53 digits that is nearest to the quotient of two
/// whole numbers, neither negative; of two that are equally near the one whose
/// last digit is 0. Those of +0 for a dividend of 0.
pub fn nearest(dividend: i128, divisor: i128) -> u64 {
    assert!(dividend >= 0 && divisor > 0);
    if dividend == 0 {
        return 0;
    }
    // Over this power of two the quotient has 53 or 54 digits.
    let least = bit_length(dividend) - bit_length(divisor) - DIGITS;
    let longer = bit_length(divided(dividend, divisor, least).0) > DIGITS;
    let exponent = least + i32::from(longer);
    let (digits, remainder, divisor) = divided(dividend, divisor, exponent);
    let up = 2 * remainder > divisor || 2 * remainder == divisor && digits % 2 == 1;
    match digits + i128::from(up) {
        // All digits were ones.
        digits if bit_length(digits) > DIGITS => normal(false, digits / 2, exponent + 1),
        digits => normal(false, digits, exponent),
    }
}

/// The number that 64 bits stand for. Stops if it is neither normal nor a
/// zero.
pub fn number(bits: u64) -> Dyadic {
    let field = (bits >> (DIGITS - 1)) as i32 & 2047;
    let fraction = i128::from(bits) & ((1 << (DIGITS - 1)) - 1);
    if field == 0 && fraction == 0 {
        return Dyadic::whole(0);
    }
    assert!((1..=2046).contains(&field), "no normal number");
    let digits = fraction + (1 << (DIGITS - 1));
    let signed = if bits >> 63 == 1 { -digits } else { digits };
    Dyadic::new(signed, field - BIAS - (DIGITS - 1))
}

#[cfg(test)]
mod tests {
    use super::*;
    use crate::random::Random;

    #[test]
    fn bits_by_hand() {
        assert_eq!(exact(0, 7), 0);
        assert_eq!(exact(1, 0), 0x3FF0_0000_0000_0000);
        assert_eq!(exact(-1, 0), 0xBFF0_0000_0000_0000);
        assert_eq!(exact(-3, -1), 0xBFF8_0000_0000_0000);
        assert_eq!(exact(5, 0), 0x4014_0000_0000_0000);
        assert_eq!(exact(1, -1022), 0x0010_0000_0000_0000);
        assert_eq!(exact((1 << 53) - 1, 971), 0x7FEF_FFFF_FFFF_FFFF);
        assert_eq!(nearest(0, 9), 0);
        assert_eq!(nearest(1, 3), 0x3FD5_5555_5555_5555);
        assert_eq!(nearest(2, 3), 0x3FE5_5555_5555_5555);
        assert_eq!(nearest(1, 5), 0x3FC9_9999_9999_999A);
        assert_eq!(nearest(6, 2), 0x4008_0000_0000_0000);
    }

    #[test]
    fn of_two_equally_near_the_even_one() {
        let end = 1i128 << 53;
        for (dividend, rounded) in [
            (end + 1, end),
            (end + 2, end + 2),
            (end + 3, end + 4),
            (end + 5, end + 4),
            (2 * end - 1, 2 * end),
            (2 * end + 2, 2 * end),
            (2 * end + 6, 2 * end + 8),
        ] {
            assert!(number(nearest(dividend, 1))
                .order(Dyadic::whole(rounded))
                .is_eq());
            assert_eq!(nearest(3 * dividend, 3), nearest(dividend, 1));
        }
        // A little to either side of the middle.
        assert_eq!(nearest(3 * (end + 1) - 1, 3), nearest(end, 1));
        assert_eq!(nearest(3 * (end + 1) + 1, 3), nearest(end + 2, 1));
    }

    #[test]
    fn the_machine_divides_so_too() {
        let mut random = Random::new(64);
        for _ in 0..50_000 {
            let long = random.next() >> random.between(11, 63);
            let short = 1 + (random.next() >> random.between(11, 63));
            let quotient = long as f64 / short as f64;
            assert_eq!(nearest(long.into(), short.into()), quotient.to_bits());
        }
    }

    #[test]
    fn a_number_keeps_its_value() {
        let mut random = Random::new(65);
        for _ in 0..50_000 {
            let magnitude = i128::from(random.next() >> random.between(11, 63));
            let mantissa = magnitude * i128::from(random.sign());
            let exponent = random.between(-29, 29) as i32;
            let bits = exact(mantissa, exponent);
            assert!(number(bits).order(Dyadic::new(mantissa, exponent)).is_eq());
            let by_machine = mantissa as f64 * f64::from(exponent).exp2();
            assert_eq!(f64::from_bits(bits), by_machine);
        }
    }

    #[test]
    #[should_panic]
    fn a_mantissa_of_54_digits_stops() {
        exact((1 << 53) + 1, 0);
    }

    #[test]
    #[should_panic]
    fn infinity_is_no_number() {
        number(0x7FF0_0000_0000_0000);
    }
}
