// Makes a model on which something is wrong as small as it gets while it stays wrong.
use crate::model::Model;

fn without_row(m: &Model, skip: usize) -> Model {
    let mut n = Model { obj: m.obj.clone(), lower: m.lower.clone(), upper: m.upper.clone(), domain: m.domain.clone(), ..Model::new(m.mode, m.feas, m.int_tol) };
    for r in (0..m.rows()).filter(|&r| r != skip) {
        n.row(&m.row_terms(r), m.cmp[r], m.rhs[r]);
    }
    n
}

fn without_var(m: &Model, skip: usize) -> Model {
    let mut n = Model::new(m.mode, m.feas, m.int_tol);
    for v in (0..m.vars()).filter(|&v| v != skip) {
        n.var(m.domain[v], m.lower[v], m.upper[v], m.obj[v]);
    }
    for r in 0..m.rows() {
        let t: Vec<(usize, f64)> = m.row_terms(r).into_iter().filter(|t| t.0 != skip).map(|(v, a)| (v - (v > skip) as usize, a)).collect();
        n.row(&t, m.cmp[r], m.rhs[r]);
    }
    n
}

fn without_term(m: &Model, skip: usize) -> Model {
    let mut n = m.clone();
    n.index.remove(skip);
    n.coeff.remove(skip);
    for s in n.starts.iter_mut().filter(|s| **s > skip) {
        *s -= 1;
    }
    n
}

// Simpler numbers than x, simplest first.
fn simpler(x: f64) -> Vec<f64> {
    let mut all = vec![0.0, 1.0, -1.0, 2.0, x.trunc()];
    if x.is_finite() {
        all.push(format!("{x:.1e}").parse().unwrap_or(x));
        all.push(format!("{x:.3e}").parse().unwrap_or(x));
    }
    all.retain(|y| y.to_bits() != x.to_bits() && y.is_finite());
    let weight = |y: f64| format!("{y:e}").len() + (y != 0.0) as usize;
    all.retain(|&y| weight(y) < weight(x));
    all
}

// One pass over all smaller models, taking each that is still wrong.
fn pass(m: &mut Model, wrong: &mut dyn FnMut(&Model) -> bool) -> bool {
    let mut better = false;
    let mut take = |n: Model, m: &mut Model| {
        let holds = wrong(&n);
        if holds {
            *m = n;
            better = true;
        }
        holds
    };
    let mut r = m.rows();
    while r > 0 {
        r -= 1;
        take(without_row(m, r), m);
    }
    let mut v = m.vars();
    while v > 0 {
        v -= 1;
        take(without_var(m, v), m);
    }
    let mut t = m.terms();
    while t > 0 {
        t -= 1;
        take(without_term(m, t), m);
    }
    macro_rules! simplify {
        ($($list:ident)*) => {$(
            for i in 0..m.$list.len() {
                for y in simpler(m.$list[i]) {
                    let mut n = m.clone();
                    n.$list[i] = y;
                    if take(n, m) {
                        break;
                    }
                }
            }
        )*};
    }
    simplify!(obj lower upper coeff rhs);
    for (feas, int_tol) in [(0.0, 0.0), (1e-6, 1e-9), (0.0, m.int_tol), (1e-6, m.int_tol), (m.feas, 0.0)] {
        let n = Model { feas, int_tol, ..m.clone() };
        if (feas, int_tol) < (m.feas, m.int_tol) && take(n, m) {
            break;
        }
    }
    for mode in 0..m.mode {
        let n = Model { mode, ..m.clone() };
        take(n, m);
    }
    better
}

pub fn shrink(m: &Model, wrong: &mut dyn FnMut(&Model) -> bool) -> Model {
    let mut m = m.clone();
    for _ in 0..30 {
        if !pass(&mut m, wrong) {
            break;
        }
    }
    m
}
