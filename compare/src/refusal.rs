// 01's table of refusals with 02's rows, read row by row: the number of the first row that applies, or 0. Written from the papers alone.
use crate::model::{Model, EQ, GE, LE};

// How many entries each lent slice has: the ten result slices, the three working slices, the answer's.
#[derive(Clone, Copy, Debug, PartialEq)]
pub struct Sizes {
    pub lower: usize,
    pub upper: usize,
    pub emit_row: usize,
    pub emit_rewritten: usize,
    pub emit_rhs: usize,
    pub emit_from: usize,
    pub emit_upto: usize,
    pub kept: usize,
    pub term_index: usize,
    pub term_coeff: usize,
    pub floats: usize,
    pub numbers: usize,
    pub adjacency: usize,
    pub answer: usize,
}

impl Sizes {
    pub const NONE: Sizes = Sizes { lower: 0, upper: 0, emit_row: 0, emit_rewritten: 0, emit_rhs: 0, emit_from: 0, emit_upto: 0, kept: 0, term_index: 0, term_coeff: 0, floats: 0, numbers: 0, adjacency: 0, answer: 0 };
    // Just enough: docs/WORKSPACE.md for the working slices.
    pub fn least(m: &Model) -> Self {
        let (v, r, t) = (m.vars(), m.rows(), m.terms());
        Sizes {
            lower: v,
            upper: v,
            emit_row: r,
            emit_rewritten: r,
            emit_rhs: r,
            emit_from: r,
            emit_upto: r,
            kept: r,
            term_index: t,
            term_coeff: t,
            floats: 4 * v + 8 * r + t,
            numbers: 3 * v + 10 * r + 2 * t + 6,
            adjacency: v + t + 1,
            answer: 9,
        }
    }
    pub const COUNT: usize = 14;
    pub fn all(&mut self) -> [&mut usize; Self::COUNT] {
        [
            &mut self.lower,
            &mut self.upper,
            &mut self.emit_row,
            &mut self.emit_rewritten,
            &mut self.emit_rhs,
            &mut self.emit_from,
            &mut self.emit_upto,
            &mut self.kept,
            &mut self.term_index,
            &mut self.term_coeff,
            &mut self.floats,
            &mut self.numbers,
            &mut self.adjacency,
            &mut self.answer,
        ]
    }
}

// 1: slice lengths disagree; row starts have one entry more than there are rows.
fn lengths(m: &Model) -> bool {
    let n = m.obj.len();
    m.lower.len() != n || m.upper.len() != n || m.domain.len() != n || m.cmp.len() != m.rhs.len() || m.starts.len() != m.rhs.len() + 1 || m.index.len() != m.coeff.len()
}

// 2: more than a maximum.
fn maxima(m: &Model) -> bool {
    m.obj.len() > 4096 || m.rhs.len() > 8192 || m.index.len() > 65536
}

// 3: first isn't 0, one falls, or the last isn't the term count.
fn starts(m: &Model) -> bool {
    m.starts[0] != 0 || m.starts.windows(2).any(|w| w[1] < w[0]) || *m.starts.last().unwrap() != m.index.len()
}

// 4: index too large, or not rising within its row.
fn indices(m: &Model) -> bool {
    m.index.iter().any(|&v| v >= m.obj.len()) || m.starts.windows(2).any(|w| m.index[w[0]..w[1]].windows(2).any(|p| p[1] <= p[0]))
}

// 18, checked after 4: a row has more than 256 terms.
fn long_rows(m: &Model) -> bool {
    m.starts.windows(2).any(|w| w[1] - w[0] > 256)
}

// 5: a domain, comparison or mode above 2.
fn codes(m: &Model) -> bool {
    m.mode > 2 || m.domain.iter().chain(&m.cmp).any(|&c| c > 2)
}

// 6: not a number, lower +infinity or upper -infinity.
fn bounds(m: &Model) -> bool {
    m.lower.iter().any(|&x| x.is_nan() || x == f64::INFINITY) || m.upper.iter().any(|&x| x.is_nan() || x == f64::NEG_INFINITY)
}

// 7: an objective or coefficient isn't finite.
fn numbers(m: &Model) -> bool {
    m.obj.iter().chain(&m.coeff).any(|x| !x.is_finite())
}

// 8: `valid_rhs` says no: finite, or infinite on the side that the row leaves open.
fn right_sides(m: &Model) -> bool {
    m.cmp.iter().zip(&m.rhs).any(|(&c, &b)| match c {
        EQ => !b.is_finite(),
        LE => b.is_nan() || b == f64::NEG_INFINITY,
        GE => b.is_nan() || b == f64::INFINITY,
        _ => unreachable!("5 came before"),
    })
}

// 9: feasibility or int_tol outside 0 to 0.5, or not a number.
fn tolerances(m: &Model) -> bool {
    [m.feas, m.int_tol].iter().any(|x| x.is_nan() || *x < 0.0 || *x > 0.5)
}

// 10: a result or working slice is too short.
fn space(m: &Model, lent: &Sizes) -> bool {
    let (mut lent, mut least) = (*lent, Sizes::least(m));
    lent.all().iter().zip(least.all().iter()).any(|(a, b)| **a < **b)
}

pub fn refusal(m: &Model, lent: &Sizes) -> u8 {
    if lengths(m) {
        1
    } else if maxima(m) {
        2
    } else if starts(m) {
        3
    } else if indices(m) {
        4
    } else if long_rows(m) {
        18
    } else if codes(m) {
        5
    } else if bounds(m) {
        6
    } else if numbers(m) {
        7
    } else if right_sides(m) {
        8
    } else if tolerances(m) {
        9
    } else if space(m, lent) {
        10
    } else {
        0
    }
}
