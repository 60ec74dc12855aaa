//! Presolve of a linear or integer model, over the proved library libpresolve_c.a.
//!
//! ```no_run
//! use presolve::{Comparison, Domain, Model, Presolved};
//!
//! let mut model = Model::default();
//! let u = model.variable(Domain::Boolean, 0.0, 1.0, 0.0);
//! let w = model.variable(Domain::Integer, 0.0, 8.0, 0.0);
//! model.row(&[(u, 3.0), (w, 1.0)], Comparison::Le, 10.0);
//! match model.presolve() {
//!     Ok(Presolved::Done(reduced)) => println!("{} rows", reduced.rows.len()),
//!     Ok(Presolved::Infeasible(_)) => println!("infeasible"),
//!     Err(refusal) => println!("{refusal}"),
//! }
//! ```
//!
//! This layer is plain Rust and no proof covers it; what it calls is proved. `raw` is the call itself, on slices.

#[path = "../../../include/presolve.rs"]
pub mod raw;

use std::fmt;

#[derive(Clone, Copy, Debug, PartialEq, Eq)]
#[repr(u8)]
pub enum Domain {
    Integer = raw::INTEGER,
    Real = raw::REAL,
    Boolean = raw::BOOLEAN,
}

#[derive(Clone, Copy, Debug, PartialEq, Eq)]
#[repr(u8)]
pub enum Comparison {
    Eq = raw::EQ,
    Le = raw::LE,
    Ge = raw::GE,
}

#[derive(Clone, Copy, Debug, Default, PartialEq, Eq)]
#[repr(u8)]
pub enum Mode {
    Lp = raw::LP,
    #[default]
    Mip = raw::MIP,
    /// Mip with dual fixing.
    MipDual = raw::MIP_DUAL,
}

/// A model in vectors. The fields are open: whatever they hold, the library refuses what is wrong.
#[derive(Clone, Debug, PartialEq)]
pub struct Model {
    pub objective: Vec<f64>,
    pub lower: Vec<f64>,
    pub upper: Vec<f64>,
    pub domain: Vec<Domain>,
    /// Row k has the terms starts[k] up to starts[k + 1].
    pub starts: Vec<usize>,
    pub index: Vec<usize>,
    pub coeff: Vec<f64>,
    pub cmp: Vec<Comparison>,
    pub rhs: Vec<f64>,
    pub mode: Mode,
    pub feasibility: f64,
    pub int_tol: f64,
}

impl Default for Model {
    /// No variable and no row; Mip, tolerances 1e-6 and 1e-9.
    fn default() -> Self {
        Model {
            objective: Vec::new(),
            lower: Vec::new(),
            upper: Vec::new(),
            domain: Vec::new(),
            starts: vec![0],
            index: Vec::new(),
            coeff: Vec::new(),
            cmp: Vec::new(),
            rhs: Vec::new(),
            mode: Mode::default(),
            feasibility: 1e-6,
            int_tol: 1e-9,
        }
    }
}

/// What the five counts are: docs/COUNTS.md.
#[derive(Clone, Copy, Debug, PartialEq, Eq)]
pub struct Counts {
    pub rows_dropped: usize,
    pub bounds_tightened: usize,
    pub vars_fixed: usize,
    pub coeffs_tightened: usize,
    pub passes: usize,
}

/// A row of the reduced model. It keeps its comparison.
#[derive(Clone, Debug, PartialEq)]
pub struct Row {
    /// Its number in the model.
    pub number: usize,
    pub rewritten: bool,
    pub rhs: f64,
    pub terms: Vec<(usize, f64)>,
}

#[derive(Clone, Debug, PartialEq)]
pub struct Reduced {
    pub counts: Counts,
    /// Whether anything was found that makes the model smaller.
    pub reduced: bool,
    pub lower: Vec<f64>,
    pub upper: Vec<f64>,
    pub rows: Vec<Row>,
    /// Rows, as they were written, that an answer is still to be checked against.
    pub kept: Vec<usize>,
}

#[derive(Clone, Debug, PartialEq)]
pub enum Presolved {
    /// With the counts reached.
    Infeasible(Counts),
    Done(Reduced),
}

/// The first thing that a plan breaks, with its variable or row; or that it breaks nothing.
#[derive(Clone, Copy, Debug, PartialEq, Eq)]
pub enum Verdict {
    Lower(usize),
    Upper(usize),
    NotWhole(usize),
    Row(usize),
    AllHold,
}

/// What is said of a plan.
#[derive(Clone, Copy, Debug, PartialEq)]
pub struct Check {
    pub verdict: Verdict,
    /// The largest of any row, 0 where no row is missed.
    pub excursion: f64,
}

/// The number of a refusal.
#[derive(Clone, Copy, Debug, PartialEq, Eq)]
pub struct Refusal(pub u8);

impl Refusal {
    pub fn words(self) -> &'static str {
        match self.0 {
            raw::LENGTHS_DISAGREE => "slice lengths disagree",
            raw::TOO_MANY => "more than a maximum",
            raw::BAD_STARTS => "row starts: first is not 0, one falls, or the last is not the term count",
            raw::BAD_INDEX => "a term's index is too large, or not rising within its row",
            raw::LONG_ROW => "a row has more than 256 terms",
            raw::BAD_CODE => "a domain, comparison or mode above 2",
            raw::BAD_BOUND => "a bound is not a number, a lower bound is +infinity or an upper bound -infinity",
            raw::NOT_FINITE => "an objective or coefficient is not finite",
            raw::BAD_RHS => "a right side is not a number, or infinite on the wrong side of its comparison",
            raw::BAD_TOLERANCE => "feasibility or int_tol is outside 0 to 0.5, or not a number",
            raw::TOO_SHORT => "a result or working slice is too short",
            _ => "no such number in the table",
        }
    }
}

impl fmt::Display for Refusal {
    fn fmt(&self, f: &mut fmt::Formatter<'_>) -> fmt::Result {
        write!(f, "refused with {}: {}", self.0, self.words())
    }
}

impl std::error::Error for Refusal {}

impl Model {
    /// Adds a variable and returns its number.
    pub fn variable(&mut self, domain: Domain, lower: f64, upper: f64, objective: f64) -> usize {
        self.domain.push(domain);
        self.lower.push(lower);
        self.upper.push(upper);
        self.objective.push(objective);
        self.domain.len() - 1
    }

    /// Adds a row, its terms in the order of their variables, and returns its number.
    pub fn row(&mut self, terms: &[(usize, f64)], cmp: Comparison, rhs: f64) -> usize {
        for &(index, coeff) in terms {
            self.index.push(index);
            self.coeff.push(coeff);
        }
        self.starts.push(self.index.len());
        self.cmp.push(cmp);
        self.rhs.push(rhs);
        self.cmp.len() - 1
    }

    pub fn presolve(&self) -> Result<Presolved, Refusal> {
        let (n, r, t) = (self.objective.len(), self.cmp.len(), self.index.len());
        let domain: Vec<u8> = self.domain.iter().map(|&d| d as u8).collect();
        let cmp: Vec<u8> = self.cmp.iter().map(|&c| c as u8).collect();
        let (mut lower, mut upper) = (vec![0.0; n], vec![0.0; n]);
        let (mut number, mut mark, mut side) = (vec![0; r], vec![0; r], vec![0.0; r]);
        let (mut from, mut upto, mut kept) = (vec![0; r], vec![0; r], vec![0; r]);
        let (mut term_index, mut term_coeff) = (vec![0; t], vec![0.0; t]);
        let mut floats = vec![0.0; raw::floats_needed(n, r, t)];
        let mut numbers = vec![0; raw::numbers_needed(n, r, t)];
        let mut adjacency = vec![0; raw::adjacency_needed(n, r, t)];
        let mut answer = [0; raw::ANSWER];
        let code = raw::presolve(
            &self.objective, &self.lower, &self.upper, &domain, &self.starts, &self.index, &self.coeff, &cmp, &self.rhs,
            self.mode as u8, self.feasibility, self.int_tol, &mut lower, &mut upper, &mut number, &mut mark, &mut side, &mut from,
            &mut upto, &mut kept, &mut term_index, &mut term_coeff, &mut floats, &mut numbers, &mut adjacency, &mut answer,
        );
        let counts = Counts {
            rows_dropped: answer[raw::ROWS_DROPPED],
            bounds_tightened: answer[raw::BOUNDS_TIGHTENED],
            vars_fixed: answer[raw::VARS_FIXED],
            coeffs_tightened: answer[raw::COEFFS_TIGHTENED],
            passes: answer[raw::PASSES],
        };
        match code {
            raw::DONE => {}
            raw::INFEASIBLE => return Ok(Presolved::Infeasible(counts)),
            refused => return Err(Refusal(refused)),
        }
        let rows = (0..answer[raw::EMITTED]).map(|i| {
            let rewritten = mark[i] != raw::WRITTEN;
            let (vars, coeffs) = if rewritten { (&term_index, &term_coeff) } else { (&self.index, &self.coeff) };
            let span = from[i]..upto[i];
            let terms = vars[span.clone()].iter().copied().zip(coeffs[span].iter().copied()).collect();
            Row { number: number[i], rewritten, rhs: side[i], terms }
        });
        let rows = rows.collect();
        kept.truncate(answer[raw::KEPT]);
        Ok(Presolved::Done(Reduced { counts, reduced: answer[raw::REDUCED] != 0, lower, upper, rows, kept }))
    }

    /// Whether a plan, one value for each variable, is good: what it breaks first.
    pub fn check(&self, plan: &[f64]) -> Result<Check, Refusal> {
        let domain: Vec<u8> = self.domain.iter().map(|&d| d as u8).collect();
        let cmp: Vec<u8> = self.cmp.iter().map(|&c| c as u8).collect();
        let (mut place, mut excursion) = (0, 0.0);
        let code = raw::check_plan(
            &self.objective, &self.lower, &self.upper, &domain, &self.starts, &self.index, &self.coeff, &cmp, &self.rhs,
            self.mode as u8, self.feasibility, self.int_tol, plan, &mut place, &mut excursion,
        );
        let verdict = match code {
            raw::PLAN_HOLDS => Verdict::AllHold,
            raw::PLAN_LOWER => Verdict::Lower(place),
            raw::PLAN_UPPER => Verdict::Upper(place),
            raw::PLAN_NOT_WHOLE => Verdict::NotWhole(place),
            raw::PLAN_ROW => Verdict::Row(place),
            refused => return Err(Refusal(refused)),
        };
        Ok(Check { verdict, excursion })
    }
}
