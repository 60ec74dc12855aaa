// Farm models in mode 2, small enough for their points to be listed, with whole objectives of every size. They are no family:
// another one would change which models the replayed sample has, and which were proved as theorems.
use super::parts::{reach, some_terms};
use super::{whole, Rng};
use crate::model::{Model, BOOLEAN, EQ, GE, INTEGER, LE};

// Whole floats from 2^53 + 2 up to the end of the format.
const LARGE: [f64; 9] = [9007199254740994.0, 1e16, 1e25, 1e29, 1.2345678901234567e33, 1e154, 1e300, 1e308, f64::MAX];

// Objectives: zeros of both signs, small numbers, large ones, and large ones that are equal or differ in their last bit, so that
// they cancel and what is left decides.
fn objectives(rng: &mut Rng, m: &mut Model) {
    let (kind, one) = (rng.below(5), rng.pick(&LARGE));
    for c in &mut m.obj {
        let small = rng.whole(-3, 3);
        let large = match kind {
            0 => small,
            1 => f64::from_bits(one.to_bits() - rng.below(2) as u64),
            2 => one,
            _ => rng.pick(&LARGE),
        };
        let size = if rng.chance(30) { small } else { large };
        *c = size * rng.pick(&[1.0, -1.0]);
    }
}

// Few variables, of short ranges, here and there at the ends of what a farm model takes; no rows yet.
fn variables(rng: &mut Rng) -> Model {
    let mut m = Model::new(2, rng.pick(&[1e-6, 1e-6, 0.01, 0.0]), rng.pick(&[1e-9, 0.01, 0.0]));
    let n = 1 + rng.below(7);
    for _ in 0..n {
        let h = if n > 5 { rng.pick(&[1.0, 1.0, 2.0]) } else { rng.pick(&[0.0, 1.0, 2.0, 2.0, 3.0]) };
        let l = rng.pick(&[0.0, 0.0, 1.0, -1.0, -2.0, 1048573.0, -1048576.0]);
        m.var(rng.pick(&[INTEGER, INTEGER, BOOLEAN]), l, l + h, 0.0);
    }
    m
}

// Turns variable v into its negative.
fn mirror_variable(m: &mut Model, v: usize) {
    (m.lower[v], m.upper[v], m.obj[v]) = (-m.upper[v], -m.lower[v], -m.obj[v]);
    for t in 0..m.terms() {
        if m.index[t] == v {
            m.coeff[t] = -m.coeff[t];
        }
    }
}

// Multiplies row r by -1.
fn mirror_row(m: &mut Model, r: usize) {
    for t in m.starts[r]..m.starts[r + 1] {
        m.coeff[t] = -m.coeff[t];
    }
    m.rhs[r] = -m.rhs[r];
    m.cmp[r] = [EQ, GE, LE][m.cmp[r] as usize];
}

// Rows in which most columns push one way, so that dual fixing fixes several variables in one pass. They pass by a point, so
// that there is one, and closely, so that a variable at the wrong bound breaks one of them.
fn columns(rng: &mut Rng, m: &mut Model) {
    let point: Vec<f64> = (0..m.vars()).map(|v| m.lower[v] + rng.whole(0, (m.upper[v] - m.lower[v]) as i64)).collect();
    for _ in 0..rng.below(6) {
        let size = rng.pick(&[3, 3, 32768]);
        let t = some_terms(rng, m.vars(), 60, |r| r.whole(1, size) * if r.chance(12) { -1.0 } else { 1.0 });
        let sum: f64 = t.iter().map(|&(v, a)| a * point[v]).sum();
        let off = rng.pick(&[0.0, 0.0, 1.0, 2.0, 5.0]);
        match rng.pick(&[LE, LE, LE, GE, EQ]) {
            EQ => m.row(&t, EQ, sum),
            GE => m.row(&t, GE, sum - off),
            op => m.row(&t, op, sum + off),
        }
    }
}

// Rows that each hold a variable back until the one before it is fixed: a fixing a round. The first is best at its lower bound,
// the others at their upper, which they may take once the one before has what is best for it.
fn ladder(rng: &mut Rng, m: &mut Model) {
    m.obj[0] = m.obj[0].abs();
    for v in 1..m.vars() {
        m.obj[v] = -m.obj[v].abs();
        let (a, best) = if v == 1 { (1.0, m.lower[0]) } else { (-1.0, m.upper[v - 1]) };
        let off = rng.pick(&[0.0, 0.0, 0.0, 0.0, 0.0, 1.0, 1.0, -1.0]);
        m.row(&[(v - 1, a), (v, 1.0)], LE, a * best + m.upper[v] + off);
    }
}

// Rows that no point meets: an even sum that is to be odd, which presolve mostly does not find, or two that it does.
fn contradiction(rng: &mut Rng, m: &mut Model) {
    let n = m.vars();
    let (v, w) = (rng.below(n), rng.below(n));
    if v == w || rng.chance(60) {
        let even = some_terms(rng, n, 60, |r| r.pick(&[2.0, -2.0, 4.0]));
        let (lo, hi) = reach(m, &even);
        m.row(&even, EQ, 2.0 * ((lo + hi) / 4.0).floor() + 1.0);
    } else {
        m.row_of(&[(v, 1.0), (w, -1.0)], LE, m.lower[v] - m.lower[w] - 1.0);
        m.row_of(&[(v, 1.0), (w, -1.0)], GE, m.lower[v] - m.lower[w] + rng.whole(0, 1));
    }
}

pub fn model(rng: &mut Rng) -> Model {
    let kind = rng.below(8);
    let mut m = if kind == 0 { whole::whole(rng, 4) } else { variables(rng) };
    m.mode = 2;
    objectives(rng, &mut m);
    match kind {
        0 => {}
        1..=3 => ladder(rng, &mut m),
        _ => columns(rng, &mut m),
    }
    if rng.chance(12) {
        contradiction(rng, &mut m);
    }
    // falls and rises, Le and Ge alike
    for v in 0..m.vars() {
        if rng.chance(50) {
            mirror_variable(&mut m, v);
        }
    }
    for r in 0..m.rows() {
        if rng.chance(50) {
            mirror_row(&mut m, r);
        }
    }
    m
}
