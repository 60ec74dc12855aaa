// Small farm models, point by point. A point gives each variable a whole number within its bounds and meets every row, exactly.
// Where no coefficient was rewritten, each point of the reduced model is one of the input's. With dual fixing off all of the
// input's stay; with it on some point stays, and if the objective is whole, a least one. An infeasible model has none.
use crate::exact::Exact;
use crate::model::{Answer, Model, Reduced, EQ, LE};

// The most assignments that are listed.
const MOST: i64 = 2000;

// How many points a model has, their least objective, how many of them have that, and the first of these.
#[derive(Default)]
pub struct Points {
    pub count: u64,
    pub least: Option<Exact>,
    pub best: u64,
    first: Vec<i64>,
}

impl Points {
    fn add(&mut self, x: &[i64], objective: Exact) {
        self.count += 1;
        if self.least.map_or(true, |least| objective < least) {
            (self.least, self.best, self.first) = (Some(objective), 0, x.to_vec());
        }
        self.best += (self.least == Some(objective)) as u64;
    }
}

// The points of the input, and those that the reduced model has; none where the answer is infeasible.
#[derive(Default)]
pub struct Listing {
    pub infeasible: bool,
    pub before: Points,
    pub after: Points,
}

// Whether x meets the row, exactly.
fn meets(m: &Model, r: usize, x: &[i64]) -> bool {
    let sum: i128 = (m.starts[r]..m.starts[r + 1]).map(|t| m.coeff[t] as i128 * x[m.index[t]] as i128).sum();
    let b = m.rhs[r] as i128;
    match m.cmp[r] {
        EQ => sum == b,
        LE => sum <= b,
        _ => sum >= b,
    }
}

// Whether the bounds given leave an assignment, and no more than are listed.
fn few(m: &Model) -> bool {
    let mut assignments = 1i64;
    (0..m.vars()).all(|v| {
        assignments = assignments.saturating_mul((m.upper[v] - m.lower[v]) as i64 + 1);
        (1..=MOST).contains(&assignments)
    })
}

// Makes x the next assignment within the bounds given, if there is one.
fn next(m: &Model, x: &mut [i64]) -> bool {
    for v in 0..x.len() {
        if (x[v] as f64) < m.upper[v] {
            x[v] += 1;
            return true;
        }
        x[v] = m.lower[v] as i64;
    }
    false
}

// Bounds that are whole and within the given ones, so that listing these misses no point of the reduced model, and rows as given.
fn comparable(m: &Model, r: &Reduced) -> Result<(), String> {
    for v in 0..m.vars() {
        let (lower, upper) = (r.lower[v], r.upper[v]);
        if lower.fract() != 0.0 || upper.fract() != 0.0 || lower < m.lower[v] || upper > m.upper[v] {
            return Err(format!("points: variable {v} has the bounds {lower:e} and {upper:e}"));
        }
    }
    match r.emitted.iter().find(|e| e.rewritten || e.rhs != m.rhs[e.row]) {
        Some(e) => Err(format!("points: row {} is not as given", e.row)),
        None => Ok(()),
    }
}

// The points before and after, where they can be listed and something is claimed of them; an error says which claim is false.
pub fn list(m: &Model, answer: &Answer) -> Result<Option<Listing>, String> {
    let whole_objective = m.whole_objective();
    if !m.is_whole() || answer.counts()[3] != 0 || !few(m) {
        return Ok(None);
    }
    let reduced = match answer {
        Answer::Infeasible(_) => None,
        Answer::Done(r) => Some(r),
    };
    if let Some(r) = reduced {
        comparable(m, r)?;
    }
    let mut listing = Listing { infeasible: reduced.is_none(), ..Listing::default() };
    let mut x: Vec<i64> = m.lower.iter().map(|&l| l as i64).collect();
    loop {
        let before = (0..m.rows()).all(|r| meets(m, r, &x));
        let after = reduced.is_some_and(|r| (0..m.vars()).all(|v| r.lower[v] <= x[v] as f64 && x[v] as f64 <= r.upper[v]) && r.emitted.iter().all(|e| meets(m, e.row, &x)));
        if after && !before {
            return Err(format!("points: the reduced model has {x:?}, the input has not"));
        }
        if before && !after && m.mode == 1 {
            return Err(format!("points: the input has {x:?}, the reduced model has not"));
        }
        if before {
            // with fractions in it, it is left out: then the least is that of no objective, which says whether there is a point
            let objective = Exact::sum(m.obj.iter().copied().zip(x.iter().copied()).filter(|_| whole_objective));
            listing.before.add(&x, objective);
            if after {
                listing.after.add(&x, objective);
            }
        }
        if !next(m, &mut x) {
            break;
        }
    }
    match (&listing.before, &listing.after) {
        (b, a) if b.least == a.least => Ok(Some(listing)),
        (b, Points { least: None, .. }) => Err(format!("points: the input has {:?}, the answer leaves none", b.first)),
        (b, a) => Err(format!("points: the input's least objective is at {:?}, that of the reduced model, another, at {:?}", b.first, a.first)),
    }
}
