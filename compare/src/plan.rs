// What is said of a plan: by 02's W11, its sentence read from left to right over the Rust's own `outside`, `bound_tolerance` and
// `row_violation`; and by the port. Nearest whole numbers are taken by fractions, which are exact, and not as the port takes them.
use crate::input::plain_input;
use crate::model::{Model, REAL};
use crate::refusal::{refusal, Sizes};

pub const HOLDS: u8 = 0;
pub const LOWER: u8 = 101;
pub const UPPER: u8 = 102;
pub const NOT_WHOLE: u8 = 103;
pub const ROW: u8 = 104;

// A refusal's number, or a verdict's code with its variable or row, and the excursion.
#[derive(Clone, Copy, Debug, PartialEq)]
pub enum Said {
    Refused(u8),
    Checked { code: u8, place: usize, excursion: u64 },
}

// The whole number nearest to x, of two the lower. A fraction has the sign of x, and is exact.
pub fn nearest(x: f64) -> f64 {
    let (whole, fraction) = (x.trunc(), x.fract());
    if fraction > 0.5 {
        whole + 1.0
    } else if fraction <= -0.5 {
        whole - 1.0
    } else {
        whole
    }
}

// The table: 1 also of a plan of another length, 7 also of a value that is not finite, and no 10.
fn refused(m: &Model, plan: &[f64]) -> u8 {
    if plan.len() != m.obj.len() {
        return 1;
    }
    match refusal(m, &Sizes::least(m)) {
        0 | 8 | 9 if plan.iter().any(|x| !x.is_finite()) => 7,
        number => number,
    }
}

// The first that there is.
fn first(n: usize, said: impl Fn(usize) -> Option<u8>) -> Option<(u8, usize)> {
    (0..n).find_map(|k| said(k).map(|code| (code, k)))
}

pub fn said(m: &Model, plan: &[f64]) -> Said {
    match refused(m, plan) {
        0 => {}
        number => return Said::Refused(number),
    }
    let model = plain_input(m);
    let (low, high) = (f64::NEG_INFINITY, f64::INFINITY);
    let bound = |v: usize| {
        let (lower, upper) = (m.lower[v], m.upper[v]);
        if plain::outside(plan[v], lower, high, plain::bound_tolerance(m.feas, lower)) {
            Some(LOWER)
        } else if plain::outside(plan[v], low, upper, plain::bound_tolerance(m.feas, upper)) {
            Some(UPPER)
        } else {
            None
        }
    };
    let whole = |v: usize| {
        let needed = m.mode > 0 && m.domain[v] != REAL;
        let to = nearest(plan[v]);
        (needed && plain::outside(plan[v], to, to, m.int_tol)).then_some(NOT_WHOLE)
    };
    let missed: Vec<Option<f64>> = model.rows.iter().map(|row| plain::row_violation(row, |v| plan[v], m.feas)).collect();
    let (code, place) = first(m.vars(), bound)
        .or_else(|| first(m.vars(), whole))
        .or_else(|| first(m.rows(), |r| missed[r].map(|_| ROW)))
        .unwrap_or((HOLDS, 0));
    let excursion = missed.iter().flatten().fold(0.0, |most: f64, &x| if x > most { x } else { most });
    Said::Checked { code, place, excursion: excursion.to_bits() }
}

// What a refused call must leave.
const PLACE: usize = 0xdead_beef;
const EXCURSION: f64 = -7.25;

// What the port says. A refusal that wrote anything is a code that there is not.
pub fn port(m: &Model, plan: &[f64]) -> Said {
    let (mut place, mut excursion) = (PLACE, EXCURSION);
    let code = called(m, plan, &mut place, &mut excursion);
    match code {
        1..=99 if place == PLACE && excursion.to_bits() == EXCURSION.to_bits() => Said::Refused(code),
        1..=99 => Said::Refused(255),
        _ => Said::Checked { code, place, excursion: excursion.to_bits() },
    }
}

#[cfg(port)]
fn called(m: &Model, plan: &[f64], place: &mut usize, excursion: &mut f64) -> u8 {
    crate::port::presolve::check_plan(
        &m.obj, &m.lower, &m.upper, &m.domain, &m.starts, &m.index, &m.coeff, &m.cmp, &m.rhs, m.mode, m.feas, m.int_tol, plan, place, excursion,
    )
}

#[cfg(not(port))]
pub use stand_in::{FAULT, FAULTS};
#[cfg(not(port))]
use stand_in::called;

// A stand-in made of the above, which can be told to be wrong in one of several ways.
#[cfg(not(port))]
mod stand_in {
    use super::*;
    use std::sync::atomic::{AtomicUsize, Ordering::Relaxed};

    pub static FAULT: AtomicUsize = AtomicUsize::new(usize::MAX);
    pub const FAULTS: [&str; 16] = [
        "of two whole numbers the upper is taken",
        "the nearest whole number is floor(x + 0.5)",
        "of a fraction that rounds to a half the lower is taken",
        "upper bounds come before lower ones",
        "both bounds are asked at once",
        "a bound is asked within the other's tolerance",
        "whole numbers come before bounds",
        "a whole number is needed in mode 0",
        "a Boolean needs no whole number",
        "whole numbers are asked within feasibility",
        "the excursion is the first missed row's",
        "the excursion is 0 where a bound is told",
        "the last row is not looked at",
        "7 comes before 1",
        "8 comes before 7 of a value",
        "a refusal writes the place",
    ];

    fn fault(k: usize) -> bool {
        FAULT.load(Relaxed) == k
    }

    fn other_nearest(x: f64) -> f64 {
        let (floor, ceil) = (x.floor(), x.ceil());
        if fault(0) {
            return if ceil - x <= x - floor { ceil } else { floor };
        }
        if fault(1) {
            return (x + 0.5).floor();
        }
        if fault(2) {
            return if x - floor <= 0.5 { floor } else { ceil };
        }
        nearest(x)
    }

    pub fn called(m: &Model, plan: &[f64], place: &mut usize, excursion: &mut f64) -> u8 {
        let right = said(m, plan);
        let finite = plan.iter().all(|x| x.is_finite());
        let (mut code, mut at, mut most) = match right {
            Said::Refused(1) if fault(13) && !finite => return 7,
            Said::Refused(7) if fault(14) && refusal(m, &Sizes::least(m)) == 8 => return 8,
            Said::Refused(number) => {
                if fault(15) {
                    *place = 0;
                }
                return number;
            }
            Said::Checked { code, place, excursion } => (code, place, f64::from_bits(excursion)),
        };
        let (low, high) = (f64::NEG_INFINITY, f64::INFINITY);
        let passes = |v: usize, upper: bool, tol: f64| if upper { plain::outside(plan[v], low, m.upper[v], tol) } else { plain::outside(plan[v], m.lower[v], high, tol) };
        let own = |v: usize, upper: bool| plain::bound_tolerance(m.feas, if upper { m.upper[v] } else { m.lower[v] });
        let bound = |v: usize| {
            if fault(3) && passes(v, true, own(v, true)) {
                Some(UPPER)
            } else if fault(4) && plain::outside(plan[v], m.lower[v], m.upper[v], own(v, false)) {
                Some(LOWER)
            } else if passes(v, false, own(v, fault(5))) {
                Some(LOWER)
            } else if passes(v, true, own(v, !fault(5))) {
                Some(UPPER)
            } else {
                None
            }
        };
        let whole = |v: usize| {
            let needed = (m.mode > 0 || fault(7)) && m.domain[v] != REAL && !(fault(8) && m.domain[v] == crate::model::BOOLEAN);
            let to = other_nearest(plan[v]);
            (needed && plain::outside(plan[v], to, to, if fault(9) { m.feas } else { m.int_tol })).then_some(NOT_WHOLE)
        };
        let model = plain_input(m);
        let rows = if fault(12) { m.rows().saturating_sub(1) } else { m.rows() };
        let missed: Vec<Option<f64>> = model.rows[..rows].iter().map(|row| plain::row_violation(row, |v| plan[v], m.feas)).collect();
        if FAULT.load(Relaxed) < 13 {
            let (bounds, wholes) = (first(m.vars(), bound), first(m.vars(), whole));
            let early = if fault(6) { wholes.or(bounds) } else { bounds.or(wholes) };
            (code, at) = early.or_else(|| first(rows, |r| missed[r].map(|_| ROW))).unwrap_or((HOLDS, 0));
            most = missed.iter().flatten().fold(0.0, |most: f64, &x| if x > most { x } else { most });
        }
        if fault(10) {
            most = missed.iter().flatten().next().copied().unwrap_or(0.0);
        }
        if fault(11) && (code == LOWER || code == UPPER) {
            most = 0.0;
        }
        *place = at;
        *excursion = most;
        code
    }
}
