// What the families share: tolerances, modes, comparisons, terms, and what terms reach.
use super::Rng;
use crate::model::{Model, EQ, GE, LE};

pub const WILD: [f64; 22] = [
    0.0, -0.0, 1.0, -1.0, 0.1, 0.5, 2.0, 1e-300, -1e-300, 5e-324, -1e-320, 1e300, -1e300, 1.7e308, -1.7e308, 1.7976931348623157e308, 1e-9, 3e15, 9007199254740993.0, 0.3333333333333333, 1e154, -6.7e299,
];

pub fn tolerances(rng: &mut Rng) -> (f64, f64) {
    (rng.pick(&[1e-6, 1e-6, 1e-6, 0.01, 0.0, -0.0, 0.5, 1e-9, 1e-300]), rng.pick(&[1e-9, 1e-9, 0.01, 0.0, 0.5, -0.0]))
}

pub fn mode(rng: &mut Rng) -> u8 {
    rng.pick(&[1, 1, 1, 1, 2, 2, 0])
}

pub fn comparison(rng: &mut Rng) -> u8 {
    rng.pick(&[EQ, LE, LE, GE, GE])
}

// The least and the greatest value of the terms over the bounds given.
pub fn reach(m: &Model, terms: &[(usize, f64)]) -> (f64, f64) {
    let (mut lo, mut hi) = (0.0, 0.0);
    for &(v, a) in terms {
        let (x, y) = (a * m.lower[v], a * m.upper[v]);
        lo += f64::min(x, y);
        hi += f64::max(x, y);
    }
    (lo, hi)
}

pub fn some_terms(rng: &mut Rng, n: usize, percent: usize, mut coeff: impl FnMut(&mut Rng) -> f64) -> Vec<(usize, f64)> {
    let mut t = Vec::new();
    for v in 0..n {
        if rng.chance(percent) {
            t.push((v, coeff(rng)));
        }
    }
    t
}

// How dense rows are, so that they have some 1 to 12 terms.
pub fn density(rng: &mut Rng, n: usize) -> usize {
    (100 * (1 + rng.below(6.min(n) + 3)) / n.max(1)).clamp(1, 100)
}
