// Families whose sums overflow.
use super::parts::{comparison, mode, reach, some_terms};
use super::Rng;
use crate::model::{Model, BOOLEAN, EQ, GE, INTEGER, LE, REAL};

// Rewritten rows that overflow when a variable is fixed or the bound is formed: they are given back as written.
pub fn given_back(rng: &mut Rng, most: usize) -> Model {
    if rng.chance(40) {
        return given_back_later(rng);
    }
    let n = 3 + rng.below(most.min(5));
    let mut m = Model::new(rng.pick(&[1, 2, 2]), rng.pick(&[1e-6, 0.0]), 1e-9);
    for v in 0..n {
        let d = if v < 2 { BOOLEAN } else { rng.pick(&[INTEGER, BOOLEAN, REAL]) };
        let h = if d == BOOLEAN { 1.0 } else { rng.whole(1, 3) };
        let obj = rng.whole(-1, 1);
        m.var(d, 0.0, h, obj);
    }
    for _ in 0..1 + rng.below(3) {
        let ge = rng.chance(50);
        let unit = rng.pick(&[1e307, 4e307, 8e307, 1e308, 1e292, 1e300]);
        let mut t = some_terms(rng, n, 85, |r| r.pick(&[0.1, 0.5, 1.0, 1.0, -0.5, 1.5]) * unit);
        if t.is_empty() {
            t.push((0, unit));
        }
        for x in &mut t {
            if rng.chance(20) {
                x.1 = rng.whole(1, 9);
            }
            x.1 = x.1.clamp(-1.7e308, 1.7e308);
        }
        let (lo, hi) = reach(&m, &t);
        let part = unit * rng.pick(&[0.05, 0.1, 0.3, 0.5]);
        let b = if ge { lo + part } else { hi - part };
        m.row(&t, if ge { GE } else { LE }, if b.is_finite() { b } else { rng.pick(&[1.7e308, -1.7e308, 1.7976931348623157e308, 1e308]) });
    }
    for _ in 0..rng.below(3) {
        let v = rng.below(n);
        let w = rng.below(n);
        let (op, b) = (rng.pick(&[GE, LE, EQ]), rng.whole(0, 2));
        m.row_of(&[(v, 1.0), (w, rng.pick(&[1.0, -1.0]))], op, b);
    }
    m
}

// A row of two binaries and a variable that dual fixing takes: the first binary is rewritten in the first round, the second in
// the second, when what the row was given no longer adds up to a number.
fn given_back_later(rng: &mut Rng) -> Model {
    let ge = rng.chance(50);
    let sign = if ge { -1.0 } else { 1.0 };
    let unit = rng.pick(&[3.3e307, 3.4e307, 3.5e307, 3.55e307, 3.6e307, 3.2e307]) * sign;
    let mut m = Model::new(2, rng.pick(&[1e-6, 0.0, 1e-9]), 1e-9);
    m.var(BOOLEAN, 0.0, 1.0, -1.0);
    m.var(BOOLEAN, 0.0, 1.0, -1.0);
    let h = rng.pick(&[1.0, 1.0, 2.0]);
    m.var(INTEGER, 0.0, h, -1.0);
    let c = rng.pick(&[0.5, 0.5, 0.4, 0.6, 0.3]) / h;
    let (first, b) = rng.pick(&[(2.0, 2.0), (2.0, 2.0), (2.0, 1.9), (2.1, 2.0), (1.9, 1.9)]);
    m.row(&[(0, first * unit), (1, unit), (2, -c * unit)], if ge { GE } else { LE }, b * unit);
    if rng.chance(30) {
        let (v, obj) = (rng.below(3), rng.whole(-1, 1));
        m.obj[v] = obj;
    }
    if rng.chance(30) {
        let v = rng.below(2);
        m.row(&[(v, 1.0), (2, 1.0)], rng.pick(&[LE, GE]), rng.whole(0, 2));
    }
    m
}

// Fixed terms whose sum overflows, so that sides of rows turn infinite or are no numbers.
pub fn overflow(rng: &mut Rng, most: usize) -> Model {
    let n = 2 + rng.below(most.min(5));
    let mut m = Model::new(mode(rng), rng.pick(&[1e-6, 0.0, 0.5]), rng.pick(&[1e-9, 0.0]));
    for _ in 0..n {
        let (d, l) = (rng.below(3) as u8, rng.pick(&[1.0, -1.0, 0.0, 1e300, -1e300, 1.7e308, -1.7e308, 3.0]));
        let h = if rng.chance(60) { l } else { f64::min(l + rng.pick(&[1.0, 5.0, 1e300, 1e308]), 1.7e308) };
        let obj = rng.whole(-1, 1);
        m.var(d, l, h, obj);
    }
    for _ in 0..1 + rng.below(4) {
        let t = some_terms(rng, n, 80, |r| r.pick(&[1.0, -1.0, 1.7e308, -1.7e308, 1e300, -1e300, 10.0, 1e9]));
        let (op, b) = (comparison(rng), rng.pick(&[0.0, 1.0, 1e308, -1e308, 1.7e308, -1.7e308, 1e300]));
        m.row(&t, op, b);
    }
    m
}
