// Families whose reductions pass from wave to wave and from round to round.
use super::parts::{density, reach, some_terms, tolerances};
use super::Rng;
use crate::model::{Model, BOOLEAN, EQ, GE, INTEGER, LE, REAL};

// Columns with one sign, so that dual fixing acts; infinite targets too.
pub fn dual(rng: &mut Rng, most: usize) -> Model {
    let n = 1 + rng.below(most);
    let (feas, int_tol) = tolerances(rng);
    let mut m = Model::new(2, feas, int_tol);
    for _ in 0..n {
        let (d, l) = (rng.pick(&[INTEGER, INTEGER, BOOLEAN, REAL]), rng.whole(-3, 0));
        let h = l + rng.whole(0, 6);
        let obj = rng.pick(&[1.0, -1.0, 0.0, -0.0, 2.5]);
        m.var(d, if rng.chance(10) { f64::NEG_INFINITY } else { l }, if rng.chance(10) { f64::INFINITY } else { h }, obj);
    }
    let up: Vec<bool> = (0..n).map(|_| rng.chance(50)).collect();
    for _ in 0..rng.below(most + 1) {
        let p = density(rng, n);
        let mut t = some_terms(rng, n, p, |r| r.whole(1, 4));
        let op = rng.pick(&[LE, LE, GE, EQ]);
        for x in &mut t {
            if up[x.0] != rng.chance(10) {
                x.1 = -x.1;
            }
            if rng.chance(4) {
                x.1 = 0.0;
            }
        }
        let b = rng.whole(-6, 14);
        m.row(&t, op, b);
    }
    m
}

// Rows that pass a change on by one variable a wave: past 30 waves the rest is left undone.
pub fn chain(rng: &mut Rng, most: usize) -> Model {
    let n = 2 + rng.below(most.clamp(2, 60));
    let d = if rng.chance(80) { INTEGER } else { REAL };
    let top = rng.whole(5, 60);
    let mut m = Model::new(rng.pick(&[1, 1, 2, 0]), rng.pick(&[1e-6, 0.0]), 1e-9);
    for _ in 0..n {
        m.var(d, 0.0, top, 0.0);
    }
    let step = rng.pick(&[1.0, 1.0, 2.0, 0.5]);
    // x_v + step <= x_(v+1), rows from the last to the first or at random
    let mut order: Vec<usize> = (0..n - 1).rev().collect();
    if rng.chance(30) {
        for i in 0..order.len() {
            let j = rng.below(order.len());
            order.swap(i, j);
        }
    }
    for v in order {
        m.row(&[(v, 1.0), (v + 1, -1.0)], LE, -step);
    }
    match rng.below(4) {
        // a circle: bounds rise by a step a turn until they cross
        0 => m.row(&[(0, 1.0), (n - 1, -1.0)], GE, rng.pick(&[0.0, -1.0])),
        1 => m.row(&[(0, 1.0)], GE, 1.0),
        2 => m.row(&[(0, 1.0), (n - 1, 1.0)], EQ, top),
        _ => {}
    }
    m
}

// Rewrites whose consequences make further rewrites and fixings: several rounds, folding after rewriting.
pub fn rounds(rng: &mut Rng, most: usize) -> Model {
    let pairs = 1 + rng.below(most.clamp(1, 6));
    let mut m = Model::new(rng.pick(&[1, 2, 2, 2]), rng.pick(&[1e-6, 1e-9, 0.0]), 1e-9);
    let mut ys = Vec::new();
    let mut xs = Vec::new();
    for _ in 0..pairs {
        let obj = rng.whole(-1, 1);
        ys.push(m.var(BOOLEAN, 0.0, 1.0, obj));
        let (h, obj, d) = (rng.whole(2, 12), rng.whole(-1, 1), rng.pick(&[INTEGER, INTEGER, REAL]));
        xs.push(m.var(d, 0.0, h, obj));
    }
    for i in 0..pairs {
        // x <= h - slack + M y and the like
        let (h, s) = (m.upper[xs[i]], rng.whole(1, 4));
        let big = h + s + rng.whole(0, 9);
        match rng.below(4) {
            0 => m.row_of(&[(ys[i], big), (xs[i], 1.0)], LE, h + s),
            1 => m.row_of(&[(ys[i], -big), (xs[i], -1.0)], GE, -h - s),
            2 => m.row_of(&[(ys[i], -big), (xs[i], 1.0)], LE, 0.0),
            _ => m.row_of(&[(ys[i], big), (xs[i], 1.0)], GE, s),
        }
        if i > 0 {
            // ties pairs together, so that what is found of one reaches the next in a later round
            let b = rng.whole(-1, 3);
            let (op, sign) = (rng.pick(&[LE, GE, LE, EQ]), rng.pick(&[1.0, -1.0]));
            let with = if rng.chance(50) { xs[i - 1] } else { ys[i - 1] };
            let mut t = vec![(with, sign), (xs[i], rng.whole(1, 2))];
            if rng.chance(50) {
                t.push((ys[i], rng.whole(-3, 9)));
            }
            m.row_of(&t, op, b + rng.whole(0, 9));
        }
    }
    for _ in 0..rng.below(3) {
        let all: Vec<(usize, f64)> = (0..m.vars()).filter(|_| rng.chance(60)).map(|v| (v, [1.0, 2.0, 15.0, -1.0][v % 4])).collect();
        let (lo, hi) = reach(&m, &all);
        let (op, off) = (rng.pick(&[LE, GE]), rng.whole(0, 6));
        m.row(&all, op, if op == LE { hi - off } else { lo + off });
    }
    m
}

// Bounds that close in by one a wave and meet at about the 30th: fixed variables are left for the last fold, where a row may
// empty, be false, or widen what a rewritten row keeps.
pub fn last_fold(rng: &mut Rng) -> Model {
    let top = if rng.chance(80) { rng.whole(57, 62) } else { rng.whole(10, 64) };
    let mut m = Model::new(rng.pick(&[1, 1, 2]), rng.pick(&[1e-6, 1e-6, 0.0]), 1e-9);
    let x = m.var(INTEGER, 0.0, top, 0.0);
    let y = m.var(INTEGER, 0.0, top, 0.0);
    let u = m.var(BOOLEAN, 0.0, 1.0, rng.pick(&[0.0, -1.0, 1.0]));
    let w = m.var(INTEGER, 0.0, 8.0, rng.pick(&[0.0, -1.0]));
    let gap = rng.pick(&[0.0, 0.0, 0.0, 1.0]);
    // x <= y - 1 and y <= x + gap: crossing, but only after many waves
    m.row(&[(x, 1.0), (y, -1.0)], LE, -1.0);
    m.row(&[(x, -1.0), (y, 1.0)], LE, gap);
    match rng.below(5) {
        0 => m.row(&[(x, 1.0), (y, 1.0)], LE, top + rng.whole(-2, 60)),
        1 => m.row(&[(x, 1000.0), (u, 30.0), (w, 1.0)], LE, 500.0 * top + 33.0),
        2 => m.row(&[(x, 1e9), (u, 30.0), (w, 1.0)], LE, 5e8 * top + rng.pick(&[33.0, 1e9 + 33.0])),
        3 => m.row(&[(x, -1e9), (u, -30.0), (w, -1.0)], GE, -5e8 * top - rng.pick(&[33.0, 1e9 + 33.0])),
        _ => m.row(&[(x, 1.0), (y, -1.0), (u, 1.0)], EQ, rng.pick(&[0.0, -1.0, 1.0])),
    }
    if rng.chance(40) {
        m.row(&[(u, 1.0), (w, 1.0)], rng.pick(&[LE, GE]), rng.whole(0, 9));
    }
    m
}
