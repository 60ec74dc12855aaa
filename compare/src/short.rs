// Short models, every one of four kinds.
use crate::model::{Model, BOOLEAN, INTEGER, REAL};

const TOLERANCES: [(f64, f64); 3] = [(1e-6, 1e-9), (0.0, 0.0), (0.5, 0.5)];

// One variable, one row of at most one term.
fn one(f: &mut dyn FnMut(&Model)) {
    let inf = f64::INFINITY;
    for (feas, int_tol) in TOLERANCES {
        for mode in 0..3 {
            for domain in 0..3 {
                for lower in [-inf, -1.0, -0.5, -0.0, 0.5, 1.0] {
                    for upper in [0.0, 0.5, 1.0, 2.0, inf] {
                        for coeff in [None, Some(-2.0), Some(-0.5), Some(0.0), Some(1.0), Some(3.0)] {
                            for cmp in 0..3 {
                                for rhs in [-inf, -2.0, -1.0, -1e-7, 0.0, 0.4999999, 1.0, 2.5, inf] {
                                    let objs: &[f64] = if mode == 2 { &[-1.0, 0.0, 1.0] } else { &[0.0] };
                                    for &obj in objs {
                                        let mut m = Model::new(mode, feas, int_tol);
                                        m.var(domain, lower, upper, obj);
                                        let t: Vec<(usize, f64)> = coeff.iter().map(|&a| (0, a)).collect();
                                        m.row(&t, cmp, rhs);
                                        f(&m);
                                    }
                                }
                            }
                        }
                    }
                }
            }
        }
    }
}

// Kinds of variables with short ranges.
const KINDS: [(u8, f64, f64); 6] = [(BOOLEAN, 0.0, 1.0), (INTEGER, 0.0, 2.0), (REAL, 0.0, 1.0), (INTEGER, 1.0, 1.0), (REAL, 0.5, f64::INFINITY), (INTEGER, -1.0, 1.5)];

// Two variables, one row of two terms.
fn two(f: &mut dyn FnMut(&Model)) {
    for mode in 0..3 {
        for x in KINDS {
            for y in KINDS {
                for a in [-3.0, -1.0, 0.0, 1.0, 2.0] {
                    for b in [-3.0, -1.0, 1.0, 2.0] {
                        for cmp in 0..3 {
                            for rhs in -8..13 {
                                let mut m = Model::new(mode, 1e-6, 1e-9);
                                m.var(x.0, x.1, x.2, 1.0);
                                m.var(y.0, y.1, y.2, -1.0);
                                m.row(&[(0, a), (1, b)], cmp, rhs as f64 / 2.0);
                                f(&m);
                            }
                        }
                    }
                }
            }
        }
    }
}

// Three binaries, one row: coefficient tightening and forcing.
fn three(f: &mut dyn FnMut(&Model)) {
    for mode in 1..3 {
        for obj in -1..2 {
            for k in 0..216 {
                let a = [-7.0, -2.0, -1.0, 1.0, 2.0, 7.0];
                for cmp in 0..3 {
                    for rhs in -18..19 {
                        let mut m = Model::new(mode, 1e-6, 1e-9);
                        for _ in 0..3 {
                            m.var(BOOLEAN, 0.0, 1.0, obj as f64);
                        }
                        m.row(&[(0, a[k % 6]), (1, a[k / 6 % 6]), (2, a[k / 36])], cmp, rhs as f64 * 0.75);
                        f(&m);
                    }
                }
            }
        }
    }
}

// Two variables, two rows.
fn rows(f: &mut dyn FnMut(&Model)) {
    for mode in 0..3 {
        for kind in [(0, 0), (1, 0), (1, 2), (1, 5)] {
            for k in 0..256 {
                let a = [-1.0, 0.0, 1.0, 2.0];
                for cmps in 0..9 {
                    for rhs in 0..16 {
                        let mut m = Model::new(mode, 1e-6, 1e-9);
                        for kind in [KINDS[kind.0], KINDS[kind.1]] {
                            m.var(kind.0, kind.1, kind.2, 1.0);
                        }
                        m.row(&[(0, a[k % 4]), (1, a[k / 4 % 4])], cmps % 3, (rhs % 4) as f64 - 1.0);
                        m.row(&[(0, a[k / 16 % 4]), (1, a[k / 64])], cmps / 3, (rhs / 4) as f64 - 1.0);
                        f(&m);
                    }
                }
            }
        }
    }
}

pub fn all(f: &mut dyn FnMut(&Model)) {
    one(f);
    two(f);
    three(f);
    rows(f);
}
