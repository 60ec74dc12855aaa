// Families of fractions, infinite bounds, the ends of the format, and explicit zeros.
use super::parts::{comparison, density, mode, reach, some_terms, tolerances, WILD};
use super::Rng;
use crate::model::{Model, BOOLEAN, GE, INTEGER, LE, REAL};

// Fractions, infinite bounds, all domains; wild: also numbers at the ends of the format.
pub fn numbers(rng: &mut Rng, most: usize, mode: u8, wild: bool) -> Model {
    let n = 1 + rng.below(most);
    let (feas, int_tol) = tolerances(rng);
    let mut m = Model::new(mode, feas, int_tol);
    for _ in 0..n {
        let d = if mode == 0 { rng.pick(&[REAL, REAL, INTEGER]) } else { rng.below(3) as u8 };
        let mut l = rng.whole(-4, 3);
        let mut h = l + rng.whole(0, 9);
        if d == BOOLEAN && rng.chance(60) {
            (l, h) = (0.0, 1.0);
        }
        if rng.chance(25) {
            l += rng.pick(&[0.25, -0.4, 0.5, 1e-10]);
        }
        if rng.chance(25) {
            h += rng.pick(&[0.25, -0.4, 0.5, 1e-10]);
        }
        if wild && rng.chance(40) {
            let (a, b) = (rng.pick(&WILD), rng.pick(&WILD));
            (l, h) = (a.min(b), a.max(b));
        }
        if rng.chance(14) {
            l = f64::NEG_INFINITY;
        }
        if rng.chance(14) {
            h = f64::INFINITY;
        }
        if rng.chance(2) {
            std::mem::swap(&mut l, &mut h);
        }
        if l == f64::INFINITY || h == f64::NEG_INFINITY {
            (l, h) = (1.0, 0.0);
        }
        let obj = if wild { rng.pick(&WILD) } else { rng.whole(-3, 3) * rng.pick(&[1.0, 0.1]) };
        m.var(d, l, h, obj);
    }
    for _ in 0..rng.below(most + 1) {
        let p = density(rng, n);
        let t = some_terms(rng, n, p, |r| {
            if wild && r.chance(60) {
                r.pick(&WILD)
            } else {
                let a = r.whole(-5, 5) * r.pick(&[1.0, 0.5, 0.1, 3.7]);
                if a == 0.0 && r.chance(80) {
                    1.0
                } else {
                    a
                }
            }
        });
        let op = comparison(rng);
        let (lo, hi) = reach(&m, &t);
        let mut b = rng.whole(-20, 40) * rng.pick(&[1.0, 0.5, 0.1]);
        if rng.chance(30) {
            b = (if rng.chance(50) { lo } else { hi }) + rng.pick(&[0.0, 1e-7, -1e-7, 1.0, -1.0]);
        }
        if wild && rng.chance(60) {
            b = rng.pick(&WILD);
        }
        if !b.is_finite() {
            b = 7.0;
        }
        if op == LE && rng.chance(3) {
            b = f64::INFINITY;
        }
        if op == GE && rng.chance(3) {
            b = f64::NEG_INFINITY;
        }
        m.row(&t, op, b);
    }
    m
}

// Explicit zeros, empty rows within and beyond their tolerance, rows of nothing but zeros, fixed variables.
pub fn zeros(rng: &mut Rng, most: usize) -> Model {
    let n = rng.below(most + 1);
    let (feas, int_tol) = tolerances(rng);
    let mut m = Model::new(mode(rng), feas, int_tol);
    for _ in 0..n {
        let (d, l) = (rng.below(3) as u8, rng.pick(&[0.0, -0.0, 1.0, -1.0, 0.4]));
        let h = l + rng.pick(&[0.0, 0.0, 1.0, 3.0, 0.2]);
        let obj = rng.whole(-1, 1);
        m.var(d, l, h, obj);
    }
    for _ in 0..rng.below(most + 1) {
        let share = rng.pick(&[30, 70, 100]);
        let p = if rng.chance(40) { 0 } else { 60 };
        let t = some_terms(rng, n, p, |r| if r.chance(share) { r.pick(&[0.0, -0.0]) } else { r.whole(-3, 3) });
        let op = comparison(rng);
        let b = if t.is_empty() && rng.chance(85) { rng.pick(&[0.0, -0.0, 1e-7, -1e-7, feas, -feas, 5e-324]) } else { rng.pick(&[0.0, 1.0, -1.0, 2.0, 1e-7, -1e-7]) };
        m.row(&t, op, b);
    }
    if rng.chance(10) {
        m.row(&[], LE, f64::INFINITY);
        m.row(&[], GE, f64::NEG_INFINITY);
    }
    m
}
