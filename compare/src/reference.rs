//! The root of the crate that the reference's own text is compiled in: stand-ins for what presolve uses of microlp besides
//! itself (the sparse vector, the codes, the error, the clock, the log), a way in, and where the notes go. Names are those of
//! src/lib.rs, src/problem.rs and src/expr.rs of microlp 0.7.0 and of the crates it uses, changed: only what presolve calls.
#![allow(dead_code, unused_imports, unused_variables, unused_braces, unreachable_code, clippy::all)]

// `web_time::Instant` is found here: the clock stands still.
extern crate self as web_time;

pub struct Instant;

impl Instant {
    pub fn now() -> Self {
        Instant
    }
    pub fn elapsed(&self) -> u32 {
        0
    }
}

// The log: nothing is written.
macro_rules! debug {
    ($($arg:tt)*) => {
        if false {
            let _ = format!($($arg)*);
        }
    };
}

#[path = "presolve/mod.rs"]
mod presolve;
#[path = "solver/mod.rs"]
mod solver;

#[derive(Clone, Copy, Debug, PartialEq, Eq)]
pub enum VarDomain {
    Integer,
    Real,
    Boolean,
}

#[derive(Clone, Copy, Debug, PartialEq)]
pub enum ComparisonOp {
    Eq,
    Le,
    Ge,
}

#[derive(Debug, PartialEq)]
pub enum Error {
    Infeasible,
}

// A sparse vector: indices and values, in the order given; `new_from_unsorted` sorts by index and refuses twins.
#[derive(Clone, Debug)]
pub struct CsVec {
    indices: Vec<usize>,
    data: Vec<f64>,
}

impl CsVec {
    pub fn new(indices: Vec<usize>, data: Vec<f64>) -> Self {
        CsVec { indices, data }
    }
    pub fn new_from_unsorted(_dim: usize, mut indices: Vec<usize>, mut data: Vec<f64>) -> Result<Self, ()> {
        let mut terms: Vec<(usize, f64)> = indices.iter().copied().zip(data.iter().copied()).collect();
        terms.sort_unstable_by_key(|t| t.0);
        if terms.windows(2).any(|w| w[0].0 == w[1].0) {
            return Err(());
        }
        for (i, &(k, a)) in terms.iter().enumerate() {
            indices[i] = k;
            data[i] = a;
        }
        Ok(CsVec { indices, data })
    }
    pub fn indices(&self) -> &[usize] {
        &self.indices
    }
    pub fn data(&self) -> &[f64] {
        &self.data
    }
    pub fn nnz(&self) -> usize {
        self.indices.len()
    }
    pub fn iter(&self) -> impl Iterator<Item = (usize, &f64)> {
        self.indices.iter().copied().zip(&self.data)
    }
    // By halves, as the sparse vector does: indices rise.
    pub fn get(&self, k: usize) -> Option<f64> {
        self.indices.binary_search(&k).ok().map(|i| self.data[i])
    }
}

pub type Row = (CsVec, ComparisonOp, f64);

// A model as presolve takes it.
pub struct Input {
    pub obj: Vec<f64>,
    pub lower: Vec<f64>,
    pub upper: Vec<f64>,
    pub domains: Vec<VarDomain>,
    pub rows: Vec<Row>,
    pub mip: bool,
    pub dual: bool,
    pub feas: f64,
    pub int_tol: f64,
}

// What presolve hands back.
pub struct Output {
    pub lower: Vec<f64>,
    pub upper: Vec<f64>,
    pub rows: Vec<Row>,
    pub kept: Vec<Row>,
    pub reduced: bool,
    pub counts: [usize; 5],
}

fn counts(s: presolve::PresolveStats) -> [usize; 5] {
    [s.rows_dropped, s.bounds_tightened, s.vars_fixed, s.coeffs_tightened, s.passes]
}

// The input's presolve; None is Infeasible.
pub fn run(m: &Input) -> Option<Output> {
    let mode = if m.mip { presolve::Mode::Mip } else { presolve::Mode::Lp };
    let p = presolve::presolve(&m.obj, &m.lower, &m.upper, &m.rows, &m.domains, mode, m.feas, m.int_tol, m.dual).ok()?;
    Some(Output { lower: p.var_mins, upper: p.var_maxs, rows: p.constraints, kept: p.validation_rows, reduced: p.reduced, counts: counts(p.stats) })
}

// Whether `reduced_model` gives a model, of the input's presolve.
pub fn gives_reduced_model(m: &Input) -> bool {
    let mode = if m.mip { presolve::Mode::Mip } else { presolve::Mode::Lp };
    let p = presolve::presolve(&m.obj, &m.lower, &m.upper, &m.rows, &m.domains, mode, m.feas, m.int_tol, m.dual);
    presolve::reduced_model(p).unwrap().is_some()
}

// The checks of one value and of one row, for plans.
pub fn outside(value: f64, lo: f64, hi: f64, tol: f64) -> bool {
    solver::outside(value, lo, hi, tol)
}

pub fn bound_tolerance(feas: f64, bound: f64) -> f64 {
    solver::bound_tolerance(feas, bound)
}

pub fn row_violation(row: &Row, value: impl Fn(usize) -> f64, feas: f64) -> Option<f64> {
    solver::row_violation(&row.0, row.1, row.2, value, feas)
}

// The notes of the last run, kept by thread: the counts where Infeasible was returned, the rows put out (number, rewritten)
// and kept; and over all runs how often each line ran.
#[derive(Clone, Default)]
pub struct Notes {
    pub counts: [usize; 5],
    pub out: Vec<(usize, bool)>,
    pub kept: Vec<usize>,
}

pub const PLACES: usize = 60000;

thread_local! {
    static NOTES: std::cell::RefCell<Notes> = const { std::cell::RefCell::new(Notes { counts: [0; 5], out: Vec::new(), kept: Vec::new() }) };
}

static HITS: [std::sync::atomic::AtomicU64; PLACES] = [const { std::sync::atomic::AtomicU64::new(0) }; PLACES];

// Not an atomic addition: one thread runs models.
pub(crate) fn hit(place: usize) {
    use std::sync::atomic::Ordering::Relaxed;
    HITS[place].store(HITS[place].load(Relaxed) + 1, Relaxed);
}

// A number on its way; counted at this place, which is no line's, where it is none.
pub(crate) fn number(place: usize, x: f64) -> f64 {
    if x.is_nan() {
        hit(place);
    }
    x
}

pub fn hits(place: usize) -> u64 {
    HITS[place].load(std::sync::atomic::Ordering::Relaxed)
}

pub(crate) fn note(s: presolve::PresolveStats) {
    NOTES.with(|n| n.borrow_mut().counts = counts(s));
}

pub(crate) fn note_out(row: usize, rewritten: bool) {
    NOTES.with(|n| n.borrow_mut().out.push((row, rewritten)));
}

pub(crate) fn note_kept(row: usize) {
    NOTES.with(|n| n.borrow_mut().kept.push(row));
}

pub fn take_notes() -> Notes {
    NOTES.with(|n| std::mem::take(&mut *n.borrow_mut()))
}
