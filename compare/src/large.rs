// Models at the largest sizes, made to scale, and models of no size.
use crate::generate::{self, Rng};
use crate::model::{Model, BOOLEAN, EQ, GE, INTEGER, LE, REAL};

pub const MAX_VARS: usize = 4096;
pub const MAX_ROWS: usize = 8192;
pub const MAX_TERMS: usize = 65536;

// A week at part/8 of the largest size: visits, rests, machines with their load, and pairs and groups that keep apart, up to the
// rows and terms that the size has.
pub fn planner(rng: &mut Rng, part: usize) -> Model {
    let (slots, machines) = (10, 4);
    let (vars, rows, terms) = (MAX_VARS / 8 * part, MAX_ROWS / 8 * part, MAX_TERMS / 8 * part);
    // besides the visits there is a variable for each machine in each slot, and one for each slot
    let jobs = (vars - slots * machines - slots) / (slots * machines);
    let mut m = generate::planner(rng, jobs, slots, machines, false);
    m.mode = 1;
    let x = |j: usize, s: usize, k: usize| (j * slots + s) * machines + k;
    while m.vars() < vars {
        let h = rng.whole(1, 20);
        m.var(INTEGER, 0.0, h, 1.0);
    }
    while m.rows() < rows && m.terms() + 16 <= terms {
        let (s, k) = (rng.below(slots), rng.below(machines));
        let left = (terms - m.terms()) / (rows - m.rows());
        if rng.chance(30) {
            // two that must not meet
            let (i, j) = (rng.below(jobs), rng.below(jobs));
            m.row_of(&[(x(i, s, k), 1.0), (x(j, s, k), 1.0)], LE, 1.0);
        } else {
            // a group that shares a machine
            let t: Vec<(usize, f64)> = (0..(left + 2).min(14)).map(|_| (x(rng.below(jobs), s, rng.below(machines)), rng.whole(1, 3))).collect();
            let most = rng.whole(2, 40);
            m.row_of(&t, LE, most);
        }
    }
    while m.rows() < rows && m.terms() < terms {
        let v = rng.below(m.vars());
        m.row(&[(v, 1.0)], LE, 30.0);
    }
    m
}

// Rows of two terms that pass a bound on by one variable a wave.
pub fn chain(part: usize) -> Model {
    let (vars, rows) = (MAX_VARS / 8 * part, MAX_ROWS / 8 * part);
    let mut m = Model::new(1, 1e-6, 1e-9);
    for _ in 0..vars {
        m.var(INTEGER, 0.0, 1_000_000.0, 0.0);
    }
    for r in 0..rows {
        // x_v + 1 <= x_u for both neighbours to the right, from the last row to the first
        let v = (rows - 1 - r) / 2 % (vars - 2);
        m.row(&[(v, 1.0), (v + 1 + r % 2, -1.0)], LE, -1.0);
    }
    m
}

// All domains, fractions, rows of 8 terms, a few infinite bounds, around a point that meets every row.
pub fn mixed(rng: &mut Rng, part: usize) -> Model {
    let (vars, rows) = (MAX_VARS / 8 * part, MAX_ROWS / 8 * part);
    let mut m = Model::new(1, 1e-6, 1e-9);
    let mut point = Vec::new();
    for _ in 0..vars {
        let (d, l) = (rng.below(3) as u8, rng.whole(-5, 0));
        let (l, h) = if d == BOOLEAN { (0.0, 1.0) } else { (l, l + rng.whole(1, 40)) };
        point.push(rng.whole(l as i64, h as i64));
        let obj = rng.whole(-3, 3);
        let half = if d == REAL { 0.5 } else { 0.0 };
        m.var(d, l - half, if d == REAL && rng.chance(10) { f64::INFINITY } else { h }, obj);
    }
    for _ in 0..rows {
        let mut t: Vec<(usize, f64)> = Vec::new();
        while t.len() < 8 {
            let v = rng.below(vars);
            if t.iter().all(|x| x.0 != v) {
                let a = rng.whole(1, 9) * rng.pick(&[1.0, -1.0, 0.5, 0.1]);
                t.push((v, a));
            }
        }
        let at: f64 = t.iter().map(|&(v, a)| a * point[v]).sum();
        let (op, room) = (rng.pick(&[LE, LE, GE, EQ]), rng.whole(0, 40));
        m.row_of(&t, op, [at, at + room, at - room][op as usize]);
    }
    m
}

// Rewrites in every row, with 4,096 binaries.
fn rewrites(rng: &mut Rng) -> Model {
    let mut m = Model::new(1, 1e-6, 1e-9);
    for _ in 0..MAX_VARS {
        m.var(BOOLEAN, 0.0, 1.0, 0.0);
    }
    for _ in 0..MAX_ROWS {
        let first = rng.below(MAX_VARS - 8);
        let t: Vec<(usize, f64)> = (0..8).map(|k| (first + k, rng.pick(&[2.0, 3.0, 20.0]))).collect();
        let all: f64 = t.iter().map(|t| t.1).sum();
        m.row(&t, LE, all - 1.0);
    }
    m
}

// As many terms as a model may have, in rows of as many as a row may have.
fn dense(rng: &mut Rng, mode: u8) -> Model {
    let mut m = Model::new(mode, 1e-6, 1e-9);
    for _ in 0..MAX_VARS {
        m.var(rng.below(3) as u8, 0.0, 1.0, -1.0);
    }
    for k in 0..256 {
        let t: Vec<(usize, f64)> = (0..256).map(|v| (k % 16 * 256 + v, rng.whole(-2, 6))).collect();
        let b = rng.whole(-100, 560);
        m.row(&t, rng.pick(&[LE, GE]), b);
    }
    m
}

pub fn all(rng: &mut Rng) -> Vec<(String, Model)> {
    let mut v: Vec<(String, Model)> = Vec::new();
    for part in [1, 3, 8] {
        v.push((format!("planner {part}/8"), planner(rng, part)));
        v.push((format!("chain {part}/8"), chain(part)));
        v.push((format!("mixed {part}/8"), mixed(rng, part)));
    }
    v.push(("planner 8/8, mode 2".into(), Model { mode: 2, ..planner(rng, 8) }));
    v.push(("chain 8/8, mode 0".into(), Model { mode: 0, ..chain(8) }));
    v.push(("mixed 8/8, mode 2".into(), Model { mode: 2, ..mixed(rng, 8) }));
    v.push(("rewrites".into(), rewrites(rng)));
    v.push(("rewrites, mode 2".into(), Model { mode: 2, ..rewrites(rng) }));
    for mode in 0..3 {
        v.push((format!("dense rows, mode {mode}"), dense(rng, mode)));
        v.push((format!("nothing, mode {mode}"), Model::new(mode, 1e-6, 1e-9)));
        let mut vars = Model::new(mode, 0.5, 0.5);
        for k in 0..MAX_VARS {
            vars.var((k % 3) as u8, 0.0, 1.0, (k % 5) as f64 - 2.0);
        }
        v.push((format!("variables only, mode {mode}"), vars));
        let mut rows = Model::new(mode, 1e-6, 1e-9);
        for k in 0..MAX_ROWS {
            rows.row(&[], [LE, GE, EQ][k % 3], if k % 3 == 0 { 5.0 } else { -0.0 });
        }
        v.push((format!("empty rows only, mode {mode}"), rows.clone()));
        rows.rhs[MAX_ROWS - 1] = 9.0;
        rows.cmp[MAX_ROWS - 1] = EQ;
        v.push((format!("empty rows, the last false, mode {mode}"), rows));
        // the last variable's bounds cross
        let mut crossed = mixed(rng, 8);
        crossed.mode = mode;
        crossed.lower[MAX_VARS - 1] = 2.0;
        crossed.upper[MAX_VARS - 1] = 1.0;
        v.push((format!("the last bounds cross, mode {mode}"), crossed));
    }
    for (_, m) in &v {
        assert!(m.vars() <= MAX_VARS && m.rows() <= MAX_ROWS && m.terms() <= MAX_TERMS);
    }
    v
}
