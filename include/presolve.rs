//! Presolve of a linear or integer model: the proved static library libpresolve_c.a, for Rust. include/presolve.h says what
//! each slice is, what is returned, and how long the working slices must be.
//!
//!     tools/staticlib presolve_c
//!     rustc -L native=target/staticlib -l static=presolve_c ..
//!
//! The functions below take slices, so the duties of a C caller are met by their types. They test nothing: the library refuses.

unsafe extern "C" {
    fn suedeonyx_presolve(
        obj: *const f64, obj_len: usize,
        lower: *const f64, lower_len: usize,
        upper: *const f64, upper_len: usize,
        domain: *const u8, domain_len: usize,
        starts: *const usize, starts_len: usize,
        index: *const usize, index_len: usize,
        coeff: *const f64, coeff_len: usize,
        cmp: *const u8, cmp_len: usize,
        rhs: *const f64, rhs_len: usize,
        mode: u8, feas: f64, int_tol: f64,
        out_lower: *mut f64, out_lower_len: usize,
        out_upper: *mut f64, out_upper_len: usize,
        emit_row: *mut usize, emit_row_len: usize,
        emit_rewritten: *mut u8, emit_rewritten_len: usize,
        emit_rhs: *mut f64, emit_rhs_len: usize,
        emit_from: *mut usize, emit_from_len: usize,
        emit_upto: *mut usize, emit_upto_len: usize,
        kept: *mut usize, kept_len: usize,
        term_index: *mut usize, term_index_len: usize,
        term_coeff: *mut f64, term_coeff_len: usize,
        floats: *mut f64, floats_len: usize,
        numbers: *mut usize, numbers_len: usize,
        adjacency: *mut usize, adjacency_len: usize,
        answer: *mut usize, answer_len: usize,
    ) -> u8;

    fn suedeonyx_row_terms(
        index: *const usize, index_len: usize,
        coeff: *const f64, coeff_len: usize,
        term_index: *const usize, term_index_len: usize,
        term_coeff: *const f64, term_coeff_len: usize,
        mark: u8, from: usize, upto: usize,
        start: *mut usize, count: *mut usize,
    ) -> u8;

    fn suedeonyx_check_plan(
        obj: *const f64, obj_len: usize,
        lower: *const f64, lower_len: usize,
        upper: *const f64, upper_len: usize,
        domain: *const u8, domain_len: usize,
        starts: *const usize, starts_len: usize,
        index: *const usize, index_len: usize,
        coeff: *const f64, coeff_len: usize,
        cmp: *const u8, cmp_len: usize,
        rhs: *const f64, rhs_len: usize,
        mode: u8, feas: f64, int_tol: f64,
        plan: *const f64, plan_len: usize,
        place: *mut usize, excursion: *mut f64,
    ) -> u8;
}

/// `suedeonyx_presolve` on slices.
#[allow(clippy::too_many_arguments)]
pub fn presolve(
    obj: &[f64], lower: &[f64], upper: &[f64], domain: &[u8], starts: &[usize], index: &[usize], coeff: &[f64], cmp: &[u8], rhs: &[f64],
    mode: u8, feas: f64, int_tol: f64,
    out_lower: &mut [f64], out_upper: &mut [f64],
    emit_row: &mut [usize], emit_rewritten: &mut [u8], emit_rhs: &mut [f64], emit_from: &mut [usize], emit_upto: &mut [usize],
    kept: &mut [usize], term_index: &mut [usize], term_coeff: &mut [f64],
    floats: &mut [f64], numbers: &mut [usize], adjacency: &mut [usize], answer: &mut [usize],
) -> u8 {
    // Each pointer comes from a slice with its length, and slices that can be written overlap no other.
    unsafe {
        suedeonyx_presolve(
            obj.as_ptr(), obj.len(),
            lower.as_ptr(), lower.len(),
            upper.as_ptr(), upper.len(),
            domain.as_ptr(), domain.len(),
            starts.as_ptr(), starts.len(),
            index.as_ptr(), index.len(),
            coeff.as_ptr(), coeff.len(),
            cmp.as_ptr(), cmp.len(),
            rhs.as_ptr(), rhs.len(),
            mode, feas, int_tol,
            out_lower.as_mut_ptr(), out_lower.len(),
            out_upper.as_mut_ptr(), out_upper.len(),
            emit_row.as_mut_ptr(), emit_row.len(),
            emit_rewritten.as_mut_ptr(), emit_rewritten.len(),
            emit_rhs.as_mut_ptr(), emit_rhs.len(),
            emit_from.as_mut_ptr(), emit_from.len(),
            emit_upto.as_mut_ptr(), emit_upto.len(),
            kept.as_mut_ptr(), kept.len(),
            term_index.as_mut_ptr(), term_index.len(),
            term_coeff.as_mut_ptr(), term_coeff.len(),
            floats.as_mut_ptr(), floats.len(),
            numbers.as_mut_ptr(), numbers.len(),
            adjacency.as_mut_ptr(), adjacency.len(),
            answer.as_mut_ptr(), answer.len(),
        )
    }
}

/// The terms of an emitted row, by its mark and span, as `suedeonyx_row_terms` says: a part of the model's slices or of the
/// rewritten ones.
pub fn row_terms<'a>(
    index: &'a [usize], coeff: &'a [f64], term_index: &'a [usize], term_coeff: &'a [f64], mark: u8, from: usize, upto: usize,
) -> (&'a [usize], &'a [f64]) {
    let (mut start, mut count) = (0, 0);
    // Each pointer comes from a slice with its length; start and count are two numbers of this function.
    let rewritten = unsafe {
        suedeonyx_row_terms(
            index.as_ptr(), index.len(),
            coeff.as_ptr(), coeff.len(),
            term_index.as_ptr(), term_index.len(),
            term_coeff.as_ptr(), term_coeff.len(),
            mark, from, upto,
            &mut start, &mut count,
        )
    };
    let (vars, coeffs) = if rewritten == 1 { (term_index, term_coeff) } else { (index, coeff) };
    (&vars[start..start + count], &coeffs[start..start + count])
}

/// `suedeonyx_check_plan` on slices: what it returns. `place` and `excursion` are as they were where the call is refused.
#[allow(clippy::too_many_arguments)]
pub fn check_plan(
    obj: &[f64], lower: &[f64], upper: &[f64], domain: &[u8], starts: &[usize], index: &[usize], coeff: &[f64], cmp: &[u8], rhs: &[f64],
    mode: u8, feas: f64, int_tol: f64, plan: &[f64], place: &mut usize, excursion: &mut f64,
) -> u8 {
    // Each pointer comes from a slice with its length; place and excursion are two numbers that can be written.
    unsafe {
        suedeonyx_check_plan(
            obj.as_ptr(), obj.len(),
            lower.as_ptr(), lower.len(),
            upper.as_ptr(), upper.len(),
            domain.as_ptr(), domain.len(),
            starts.as_ptr(), starts.len(),
            index.as_ptr(), index.len(),
            coeff.as_ptr(), coeff.len(),
            cmp.as_ptr(), cmp.len(),
            rhs.as_ptr(), rhs.len(),
            mode, feas, int_tol,
            plan.as_ptr(), plan.len(),
            place, excursion,
        )
    }
}

/// How many entries the working slices need, of a model of so many variables, rows and terms.
pub const fn floats_needed(vars: usize, rows: usize, terms: usize) -> usize {
    4 * vars + 8 * rows + terms
}

pub const fn numbers_needed(vars: usize, rows: usize, terms: usize) -> usize {
    3 * vars + 10 * rows + 2 * terms + 6
}

pub const fn adjacency_needed(vars: usize, _rows: usize, terms: usize) -> usize {
    vars + terms + 1
}

/// How many entries the answer's slice needs.
pub const ANSWER: usize = 9;

// ---- the constants of presolve.h, by the same names without their prefix; tools/check_library.py keeps them equal

/// Domains.
pub const INTEGER: u8 = 0;
pub const REAL: u8 = 1;
pub const BOOLEAN: u8 = 2;

/// Comparisons.
pub const EQ: u8 = 0;
pub const LE: u8 = 1;
pub const GE: u8 = 2;

/// Modes: the last with dual fixing.
pub const LP: u8 = 0;
pub const MIP: u8 = 1;
pub const MIP_DUAL: u8 = 2;

/// Marks of emitted rows.
pub const WRITTEN: u8 = 0;
pub const REWRITTEN: u8 = 1;

/// The largest counts, and how many terms one row may have.
pub const MAX_VARS: usize = 4096;
pub const MAX_ROWS: usize = 8192;
pub const MAX_TERMS: usize = 65536;
pub const MAX_ROW_TERMS: usize = 256;

/// What the call returns: `DONE`, `INFEASIBLE`, or the number of a refusal; in the order of the table, of which the earliest row is given.
pub const DONE: u8 = 0;
pub const LENGTHS_DISAGREE: u8 = 1;
pub const TOO_MANY: u8 = 2;
pub const BAD_STARTS: u8 = 3;
pub const BAD_INDEX: u8 = 4;
pub const LONG_ROW: u8 = 18;
pub const BAD_CODE: u8 = 5;
pub const BAD_BOUND: u8 = 6;
pub const NOT_FINITE: u8 = 7;
pub const BAD_RHS: u8 = 8;
pub const BAD_TOLERANCE: u8 = 9;
pub const TOO_SHORT: u8 = 10;
pub const INFEASIBLE: u8 = 100;

/// What a check of a plan returns where it is not refused: that all hold, or the first thing that the plan breaks.
pub const PLAN_HOLDS: u8 = 0;
pub const PLAN_LOWER: u8 = 101;
pub const PLAN_UPPER: u8 = 102;
pub const PLAN_NOT_WHOLE: u8 = 103;
pub const PLAN_ROW: u8 = 104;

/// Places in the answer's slice: five counts, then how much of the result slices is used, then the flag.
pub const ROWS_DROPPED: usize = 0;
pub const BOUNDS_TIGHTENED: usize = 1;
pub const VARS_FIXED: usize = 2;
pub const COEFFS_TIGHTENED: usize = 3;
pub const PASSES: usize = 4;
pub const EMITTED: usize = 5;
pub const TERMS: usize = 6;
pub const KEPT: usize = 7;
pub const REDUCED: usize = 8;
