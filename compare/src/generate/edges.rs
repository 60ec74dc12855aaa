// Families at the edges of tolerances.
use super::parts::{comparison, density, mode, reach, some_terms};
use super::Rng;
use crate::model::{Model, EQ, GE, INTEGER, LE, REAL};

// A crossing that is within a tolerance: numbers so small that tolerances relative to them vanish, or a term that overflows, so
// that the row's activity does not show what its implied bound does.
pub fn sliver(rng: &mut Rng, most: usize) -> Model {
    if rng.chance(40) {
        return sliver_at_the_top(rng);
    }
    let n = 1 + rng.below(most.min(4));
    let mut m = Model::new(rng.pick(&[0, 0, 1, 2]), rng.pick(&[0.0, 0.0, 5e-324, 1e-320, 1e-310]), rng.pick(&[0.0, 1e-9]));
    let unit = f64::from_bits(1);
    for _ in 0..n {
        let (d, mut l) = (rng.pick(&[REAL, REAL, REAL, INTEGER]), rng.pick(&[0.0, 0.5, -0.5, 1.5, -1.5, 0.25, -1e300, -1e20, 3.0]));
        let mut h = l + rng.pick(&[1.0, 0.5, 4.0, 1e20, 2e300]);
        if rng.chance(10) {
            l = f64::NEG_INFINITY;
        }
        if rng.chance(10) {
            h = f64::INFINITY;
        }
        m.var(d, l, h, 0.0);
    }
    for _ in 0..1 + rng.below(3) {
        let large = rng.chance(30);
        let t = some_terms(rng, n, 80, |r| {
            if large && r.chance(50) {
                r.whole(-3, 3)
            } else {
                r.whole(-9, 9) * unit
            }
        });
        let b = if large { rng.whole(-2, 4) * rng.pick(&[1.0, 0.5]) } else { rng.whole(-9, 9) * unit };
        let op = comparison(rng);
        m.row(&t, op, b);
    }
    m
}

// The tolerance t of x's far bound, times a, is just a number, and a times x's working bound, between t and 2t, is none.
fn sliver_at_the_top(rng: &mut Rng) -> Model {
    let mut m = Model::new(rng.pick(&[0, 1, 2]), rng.pick(&[1e-6, 0.0]), 1e-9);
    let a = rng.pick(&[1e150, 3e120, 1e200]);
    let t = f64::MAX / a * rng.pick(&[0.8, 0.9, 0.99, 0.6]);
    let sign = rng.pick(&[1.0, -1.0]);
    let (far, near) = (-1e14 * t * sign, 1e6 * t * sign);
    let x = m.var(rng.pick(&[REAL, REAL, INTEGER]), far.min(near), far.max(near), 0.0);
    let y = m.var(REAL, 0.0, 1.0, 0.0);
    let at = t * rng.pick(&[1.05, 1.3, 1.6, 1.9, 1.99, 2.01, 2.3, 0.9]) * sign;
    let turn = rng.pick(&[1.0, -1.0]);
    // x beyond `at`, then a x within reach of 0
    let beyond = if (sign > 0.0) == (turn > 0.0) { GE } else { LE };
    m.row(&[(x, turn), (y, 1.0)], beyond, at * turn);
    let turn = rng.pick(&[1.0, -1.0]);
    let within = if (sign > 0.0) == (turn > 0.0) { LE } else { GE };
    m.row(&[(x, a * turn), (y, 1.0)], if rng.chance(15) { EQ } else { within }, rng.pick(&[5.0, -5.0, 0.0]));
    m
}

// Right sides at the very edge of what a decision tests: a corner, give or take a tolerance or a round-off.
pub fn edge(rng: &mut Rng, most: usize) -> Model {
    let n = 1 + rng.below(most.min(8));
    let (feas, int_tol) = (rng.pick(&[1e-6, 1e-6, 1e-9, 0.0, 0.01]), 1e-9);
    let mut m = Model::new(mode(rng), feas, int_tol);
    let size = rng.pick(&[1.0, 1.0, 1e3, 1e9, 1e15]);
    for _ in 0..n {
        let (d, l) = (rng.below(3) as u8, (rng.whole(-3, 3) * if rng.chance(30) { size } else { 1.0 }).trunc());
        let h = l + rng.pick(&[0.0, 1.0, 1.0, 5.0]);
        let obj = rng.whole(-1, 1);
        m.var(d, l, h, obj);
    }
    for _ in 0..1 + rng.below(most.min(8)) {
        let p = density(rng, n).max(40);
        let t = some_terms(rng, n, p, |r| r.pick(&[1.0, -1.0, 2.0, 0.1, -0.3, 7.0]) * r.pick(&[1.0, 1.0, size]));
        let (lo, hi) = reach(&m, &t);
        let mag: f64 = t.iter().map(|&(v, a)| (a * m.lower[v]).abs().max((a * m.upper[v]).abs())).sum();
        let off = rng.pick(&[0.0, feas, feas / 2.0, 2.0 * feas, 1e-14 * mag, 2e-14 * mag, 1e-9 * mag, 1e-9, 2e-9, 5e-324, mag * 2.3e-16]) * rng.pick(&[1.0, -1.0, 0.999999, 1.000001]);
        let b = (if rng.chance(50) { lo } else { hi }) + off;
        let op = comparison(rng);
        m.row(&t, op, if b.is_finite() { b } else { 0.0 });
    }
    m
}
