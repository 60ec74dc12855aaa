// Families of binaries, whose coefficients are tightened.
use super::parts::{comparison, density, mode, reach, some_terms, tolerances};
use super::Rng;
use crate::model::{Model, BOOLEAN, GE, INTEGER, LE, REAL};

// Mostly yes/no variables.
pub fn binary(rng: &mut Rng, most: usize) -> Model {
    let n = 1 + rng.below(most);
    let (feas, int_tol) = tolerances(rng);
    let mut m = Model::new(mode(rng), feas, int_tol);
    for _ in 0..n {
        let (d, obj) = (rng.pick(&[BOOLEAN, BOOLEAN, BOOLEAN, INTEGER]), rng.whole(-3, 3));
        let (l, h) = if rng.chance(85) { (rng.pick(&[0.0, -0.0]), 1.0) } else { rng.pick(&[(0.0, 3.0), (1.0, 1.0), (0.0, 0.0), (-1.0, 1.0), (0.0, 1.5)]) };
        m.var(d, l, h, obj);
    }
    for _ in 0..rng.below(most + 1) {
        let p = density(rng, n);
        let t = some_terms(rng, n, p, |r| r.pick(&[1.0, 1.0, 2.0, 3.0, -1.0, -3.0, 10.0, 25.0, -20.0]));
        let (lo, hi) = reach(&m, &t);
        let b = match rng.below(3) {
            0 => rng.whole(-5, 30),
            1 => lo + rng.whole(0, 4),
            _ => hi - rng.whole(0, 4),
        };
        let op = comparison(rng);
        m.row(&t, op, b);
    }
    m
}

// Rows that coefficient tightening rewrites: the rest of the row stays below its bound by part of a binary's coefficient.
pub fn big_m(rng: &mut Rng, most: usize, wild: bool) -> Model {
    let n = 2 + rng.below(most.min(30));
    let feas = rng.pick(&[1e-6, 1e-6, 1e-9, 0.0, 0.01]);
    let mut m = Model::new(1 + (rng.chance(30) as u8), feas, 1e-9);
    for v in 0..n {
        let bin = v % 2 == 0;
        let d = if bin { BOOLEAN } else { rng.pick(&[INTEGER, INTEGER, REAL]) };
        let h = if bin { 1.0 } else { rng.whole(1, 9) };
        let l = if rng.chance(8) { h } else { 0.0 };
        let obj = rng.whole(-1, 1);
        m.var(d, l, h, obj);
    }
    for _ in 0..1 + rng.below(most) {
        let ge = rng.chance(50);
        let mut t = Vec::new();
        let (mut rest, mut big) = (0.0, 0.0);
        for v in 0..n {
            if rng.chance(15) || n > 12 && rng.chance(50) {
                continue;
            }
            let mut a = if v % 2 == 0 { rng.whole(2, 12) } else { rng.whole(1, 3) };
            if wild && rng.chance(30) {
                a *= rng.pick(&[1e300, 1e307, 1.4e307, 1e-300, 1e150, 0.1, 1e15]);
            }
            if rng.chance(20) {
                a = -a;
            }
            if rng.chance(5) {
                a = 0.0;
            }
            if v % 2 == 0 {
                big = f64::max(big, a.abs());
            }
            rest += if ge { f64::min(a * m.lower[v], a * m.upper[v]) } else { f64::max(a * m.lower[v], a * m.upper[v]) };
            t.push((v, a));
        }
        let part = big * rng.pick(&[0.25, 0.5, 0.75, 0.9]);
        let b = if ge { rest + part } else { rest - part };
        m.row(&t, if ge { GE } else { LE }, if b.is_finite() { b } else { rng.pick(&[1e308, -1e308, 1.7e308]) });
    }
    // rows that fix or bound what the others hold
    for _ in 0..rng.below(3) {
        let v = rng.below(n);
        let (op, b) = (comparison(rng), rng.whole(0, 2));
        m.row(&[(v, 1.0)], op, b);
    }
    m
}

// Rows of 15 to 40 terms with none to several that could be rewritten: the cap on long rows.
pub fn long_rows(rng: &mut Rng) -> Model {
    let n = 15 + rng.below(26);
    let mut m = Model::new(rng.pick(&[1, 2]), 1e-6, 1e-9);
    for _ in 0..n {
        let (d, fixed) = (rng.pick(&[BOOLEAN, INTEGER]), rng.chance(5));
        let h = if d == BOOLEAN { 1.0 } else { rng.whole(1, 4) };
        m.var(d, if fixed { h } else { 0.0 }, h, 0.0);
    }
    for _ in 0..1 + rng.below(3) {
        let ge = rng.chance(50);
        let several = rng.pick(&[0, 1, 2, 2, 3, 6]);
        let mut t: Vec<(usize, f64)> = (0..n).map(|v| (v, 1.0)).collect();
        let mut made = 0;
        for x in &mut t {
            if m.domain[x.0] == BOOLEAN && made < several && rng.chance(40) {
                x.1 = rng.pick(&[40.0, 60.0]);
                made += 1;
            }
            if ge {
                x.1 = -x.1;
            }
        }
        let (lo, hi) = reach(&m, &t);
        let off = rng.whole(1, 30);
        m.row(&t, if ge { GE } else { LE }, if ge { lo + off } else { hi - off });
    }
    m
}
