// Damaged calls: a good model with one thing or several spoilt, for every refusal of a call.
use crate::generate::Rng;
use crate::model::{Model, EQ, GE, LE};
use crate::refusal::Sizes;

fn resize<T: Clone + Default>(rng: &mut Rng, x: &mut Vec<T>) {
    match rng.below(4) {
        0 => x.push(T::default()),
        1 if !x.is_empty() => {
            x.pop();
        }
        2 => x.clear(),
        _ => x.extend(std::iter::repeat(T::default()).take(1 + rng.below(5))),
    }
}

// Some entry of a list that has one.
fn at<'a, T>(rng: &mut Rng, x: &'a mut Vec<T>) -> Option<&'a mut T> {
    let n = x.len();
    x.get_mut(rng.below(n))
}

fn set<T>(rng: &mut Rng, x: &mut Vec<T>, v: T) {
    if let Some(e) = at(rng, x) {
        *e = v;
    }
}

// Spoils what row `kind` of the table looks at; now and then by a value that is still accepted.
pub fn spoil(rng: &mut Rng, kind: usize, m: &mut Model, s: &mut Sizes) {
    let inf = f64::INFINITY;
    let nan = f64::from_bits(0x7ff8_0000_0000_0000 | (rng.next() >> 63 << 63) | rng.next() >> 13);
    match kind {
        1 => match rng.below(9) {
            0 => resize(rng, &mut m.obj),
            1 => resize(rng, &mut m.lower),
            2 => resize(rng, &mut m.upper),
            3 => resize(rng, &mut m.domain),
            4 => resize(rng, &mut m.starts),
            5 => resize(rng, &mut m.cmp),
            6 => resize(rng, &mut m.rhs),
            7 => resize(rng, &mut m.index),
            _ => resize(rng, &mut m.coeff),
        },
        3 => match rng.below(5) {
            0 => {
                if let Some(first) = m.starts.first_mut() {
                    *first = 1;
                }
            }
            1 => {
                if let Some(last) = m.starts.last_mut() {
                    *last = rng.pick(&[0, 1, usize::MAX, *last + 1, last.wrapping_sub(1)]);
                }
            }
            2 => {
                let v = rng.pick(&[usize::MAX, 0, 1, 1 << 40]);
                set(rng, &mut m.starts, v)
            }
            3 => m.starts.reverse(),
            _ => m.starts.iter_mut().for_each(|x| *x += 1),
        },
        4 => match rng.below(4) {
            0 => {
                let v = rng.pick(&[m.vars(), usize::MAX, m.vars() + 1, 1 << 32]);
                set(rng, &mut m.index, v)
            }
            1 => {
                let t = rng.below(m.index.len());
                if t + 1 < m.index.len() {
                    m.index[t + 1] = m.index[t];
                }
            }
            2 => m.index.reverse(),
            _ => {
                let (t, u) = (rng.below(m.index.len()), rng.below(m.index.len()));
                if t < m.index.len() && u < m.index.len() {
                    m.index.swap(t, u);
                }
            }
        },
        5 => {
            let code = rng.pick(&[3, 4, 255, 128, 2]);
            match rng.below(3) {
                0 => set(rng, &mut m.domain, code),
                1 => set(rng, &mut m.cmp, code),
                _ => m.mode = code,
            }
        }
        6 => {
            let v = rng.pick(&[nan, inf, -inf]);
            if rng.chance(50) {
                set(rng, &mut m.lower, v)
            } else {
                set(rng, &mut m.upper, v)
            }
        }
        7 => {
            let v = rng.pick(&[nan, inf, -inf, f64::MAX]);
            if rng.chance(50) {
                set(rng, &mut m.obj, v)
            } else {
                set(rng, &mut m.coeff, v)
            }
        }
        8 => {
            let r = rng.below(m.rhs.len());
            if r < m.rhs.len() && r < m.cmp.len() {
                m.cmp[r] = rng.pick(&[EQ, LE, GE]);
                m.rhs[r] = rng.pick(&[nan, inf, -inf]);
            }
        }
        9 => {
            let v = rng.pick(&[nan, inf, -inf, -5e-324, -1e-9, 0.5000000000000001, 0.51, 1.0, 0.5, -0.0]);
            if rng.chance(50) {
                m.feas = v
            } else {
                m.int_tol = v
            }
        }
        10 => {
            let all = s.all();
            let k = rng.below(all.len());
            *all[k] = if rng.chance(70) { all[k].saturating_sub(1) } else { rng.below(*all[k] + 1) };
        }
        _ => {}
    }
}

// One to three things spoilt. Refusal 2 has calls of its own: `too_many`.
pub fn damaged(rng: &mut Rng, mut m: Model) -> (Model, Sizes) {
    let mut s = Sizes::least(&m);
    for n in s.all() {
        *n += rng.below(3) * rng.below(2);
    }
    let times = rng.pick(&[1, 1, 1, 2, 2, 3]);
    for _ in 0..times {
        let kind = rng.pick(&[1, 3, 4, 5, 6, 7, 8, 9, 10, 10]);
        spoil(rng, kind, &mut m, &mut s);
    }
    (m, s)
}

// Each lent slice one short, alone.
pub fn one_short(m: &Model) -> Vec<Sizes> {
    (0..Sizes::COUNT)
        .filter_map(|k| {
            let mut s = Sizes::least(m);
            let n = &mut s.all()[k];
            if **n == 0 {
                return None;
            }
            **n -= 1;
            Some(s)
        })
        .collect()
}

// Models of just the largest sizes and of one more, alone and with other faults after it in the table.
pub fn too_many(rng: &mut Rng) -> Vec<(Model, Sizes)> {
    let mut out = Vec::new();
    for (vars, rows, per_row) in [(4096, 8192, 8), (4097, 8192, 8), (4096, 8193, 7), (4096, 8192, 9), (4097, 0, 0), (0, 8193, 0), (9000, 9000, 8)] {
        let mut m = Model::new(1, 1e-6, 1e-9);
        for _ in 0..vars {
            m.var(rng.below(3) as u8, 0.0, 1.0, 0.0);
        }
        for r in 0..rows {
            let t: Vec<(usize, f64)> = (0..per_row).map(|k| ((r * 7 + k * 300) % vars.max(1), 1.0)).collect();
            m.row_of(&t, LE, if per_row == 0 { 0.0 } else { 3.0 });
        }
        let s = Sizes::least(&m);
        out.push((m.clone(), s));
        let mut later = m.clone();
        later.mode = 9;
        later.feas = f64::NAN;
        if let Some(last) = later.starts.last_mut() {
            *last += 1;
        }
        out.push((later, s));
        let mut shorter = s;
        shorter.floats = 0;
        out.push((m, shorter));
    }
    // 65,536 terms in 256 rows of the most terms, and one more
    let mut m = Model::new(1, 1e-6, 1e-9);
    for _ in 0..4096 {
        m.var(0, 0.0, 1.0, 0.0);
    }
    for k in 0..256 {
        let part: Vec<(usize, f64)> = (0..256).map(|v| (v + k % 16 * 256, 1.0)).collect();
        m.row(&part, LE, 9.0);
    }
    let s = Sizes::least(&m);
    out.push((m.clone(), s));
    m.row(&[(5, 1.0)], LE, 1.0);
    let s = Sizes::least(&m);
    out.push((m, s));
    out
}

// Rows of the most terms and of one more, in all modes: the coefficients numbers or zeros; with a fault before 18 in the table,
// or one after it; and with no space.
pub fn long_rows(rng: &mut Rng) -> Vec<(Model, Sizes)> {
    let mut out = Vec::new();
    for (mode, per_row) in [(0, 256), (1, 256), (2, 256), (0, 257), (1, 257), (2, 257)] {
        for coeff in [1.0, 0.0] {
            let mut m = Model::new(mode, 1e-6, 1e-9);
            for _ in 0..per_row + 3 {
                m.var(rng.below(3) as u8, 0.0, 1.0, 0.0);
            }
            m.row(&[(0, 1.0), (2, 1.0)], LE, 1.0);
            let first = rng.below(4);
            let terms: Vec<(usize, f64)> = (first..first + per_row).map(|v| (v, coeff)).collect();
            m.row(&terms, LE, 1.0);
            m.row(&[(1, 1.0)], GE, 0.0);
            let s = Sizes::least(&m);
            out.push((m.clone(), s));
            let mut falls = m.clone();
            falls.index.swap(5, 6);
            out.push((falls, s));
            for kind in [5, 6, 7, 8, 9] {
                let mut later = m.clone();
                let mut same = s;
                spoil(rng, kind, &mut later, &mut same);
                out.push((later, s));
            }
            out.push((m, Sizes::NONE));
        }
    }
    out
}
