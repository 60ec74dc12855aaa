// Sums of whole floats times whole numbers, exact: sums of floats round, and end at 1.8e308, so they could take two objectives
// for equal that differ, or the other way round.

// Enough: the largest float is below 2^53 times 2^971, and 971 / 32 is 30. A number below 2^53 times a value of a farm model's
// variable, at most 2^20, and times 2^31 at most, is below 2^104: 4,096 such products add up within a digit's i128.
const DIGITS: usize = 32;

// A whole number to the base 2^32, the highest digit first. Only that one may be negative or reach the base, so a number has one
// form, and numbers are in the order of their digits.
#[derive(Clone, Copy, PartialEq, Eq, PartialOrd, Ord)]
pub struct Exact([i128; DIGITS]);

// A whole float as a whole number below 2^53 and the power of two that it is multiplied with.
fn parts(c: f64) -> (i128, usize) {
    if c.abs() < 9007199254740992.0 {
        return (c as i128, 0);
    }
    let mantissa = (c.to_bits() & 0xf_ffff_ffff_ffff | 1 << 52) as i128;
    (if c < 0.0 { -mantissa } else { mantissa }, (c.to_bits() >> 52 & 0x7ff) as usize - 1075)
}

impl Exact {
    // The sum of the products.
    pub fn sum(products: impl Iterator<Item = (f64, i64)>) -> Self {
        let mut digits = [0; DIGITS];
        for (c, x) in products {
            let (mantissa, power) = parts(c);
            digits[DIGITS - 1 - power / 32] += (mantissa * i128::from(x)) << (power % 32);
        }
        for k in (1..DIGITS).rev() {
            digits[k - 1] += digits[k] >> 32;
            digits[k] &= 0xffff_ffff;
        }
        Exact(digits)
    }
}

// Holds sums to what is known of them without this: numbers that i128 has, and orders and equalities of those that it has not.
#[cfg(not(port))]
pub fn selftest() -> bool {
    use crate::generate::Rng;
    let mut rng = Rng::new(1);
    let sum = |products: &[(f64, i64)]| Exact::sum(products.iter().copied());
    let mut right = true;
    for _ in 0..10_000 {
        // up to 2^100, whole
        let mut float = || (rng.whole(-(1 << 53), 1 << 53) * 2f64.powi(rng.below(48) as i32), rng.whole(-9, 9) as i64);
        let (a, b, c) = (float(), float(), float());
        let known = a.0 as i128 * a.1 as i128 + b.0 as i128 * b.1 as i128;
        let other = c.0 as i128 * c.1 as i128;
        right &= sum(&[a, b]).cmp(&sum(&[c])) == known.cmp(&other);
        right &= sum(&[a, b, (-c.0, c.1)]).cmp(&sum(&[])) == (known - other).cmp(&0);
    }
    let top = 1 << 20;
    for c in [f64::MAX, 1e308, 1e29, 1e25, 9007199254740994.0, 9007199254740992.0, 9007199254740991.0, 3.0] {
        right &= sum(&[(c, top), (c, top)]) == sum(&[(c, top - 1), (c, top + 1)]) && sum(&[(c, top), (-c, top), (-0.0, top)]) == sum(&[]);
        right &= sum(&[(c, top), (1.0, 1)]) > sum(&[(c, top)]) && sum(&[(c, -top), (1.0, 1)]) > sum(&[(c, -top)]);
        right &= sum(&[(c, -top)]) < sum(&[(c, 1 - top)]) && sum(&[(-c, 1)]) < sum(&[(1.0, -1)]) && sum(&[(c, 1)]) > sum(&[(1.0, 1)]);
    }
    // one unit of the last place: 2^971 of the largest float, 2 past 2^53
    right &= sum(&[(f64::MAX, 1), (-f64::from_bits(f64::MAX.to_bits() - 1), 1)]) == sum(&[(2f64.powi(971), 1)]);
    right && sum(&[(9007199254740994.0, 1), (-9007199254740992.0, 1)]) == sum(&[(1.0, 2)])
}
