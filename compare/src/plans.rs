// Random plans on random models, each held against what must be said of it: values at, one unit off and half a unit off each bound, at
// the edges of tolerances, near whole numbers and halves, on rows and a unit beside them, and up to the largest float.
use crate::damage;
use crate::generate::{self, Rng, FAMILIES};
use crate::model::{Model, BOOLEAN, INTEGER};
use crate::plan::{nearest, port, said, Said, HOLDS, LOWER, NOT_WHOLE, ROW, UPPER};
use crate::table::thousands;

// The next float, up or down.
fn beside(x: f64, up: bool) -> f64 {
    if x == 0.0 {
        return if up { 5e-324 } else { -5e-324 };
    }
    f64::from_bits(if up == (x > 0.0) { x.to_bits() + 1 } else { x.to_bits() - 1 })
}

// x, or what is up to two units beside it, a half, a whole or a tolerance.
fn near(rng: &mut Rng, x: f64, tol: f64) -> f64 {
    if !x.is_finite() {
        return x;
    }
    let moved = match rng.below(10) {
        0 | 1 => x,
        2 => x + tol,
        3 => x - tol,
        4 => x + 0.5,
        5 => x - 0.5,
        6 => x + 1.0,
        7 => x - 1.0,
        8 => x + tol * 0.5,
        _ => x - tol * 0.5,
    };
    match rng.below(5) {
        0 => beside(moved, true),
        1 => beside(moved, false),
        2 => beside(beside(moved, true), true),
        _ => moved,
    }
}

const SOME: [f64; 18] = [
    0.0, -0.0, 0.5, -0.5, 0.49999999999999994, -0.49999999999999994, 1.5, -2.5, 4503599627370497.0, 4503599627370495.5, -4503599627370497.0, 9007199254740993.0,
    1.7976931348623157e308, -1.7976931348623157e308, 1e300, 5e-324, -5e-324, 1e16,
];

// A value for the variable.
fn value(rng: &mut Rng, m: &Model, v: usize) -> f64 {
    let (lower, upper) = (m.lower[v], m.upper[v]);
    let tol = |b: f64| plain::bound_tolerance(m.feas, b);
    match rng.below(12) {
        0 | 1 => near(rng, lower, tol(lower)),
        2 | 3 => near(rng, upper, tol(upper)),
        4 => rng.pick(&SOME),
        5 => f64::from_bits(rng.next()),
        6 => {
            let whole = nearest(lower.max(-1e9).min(1e9) + rng.whole(-3, 3));
            near(rng, whole, m.int_tol)
        }
        // within the bounds, whole more often than not
        _ => {
            let (low, high) = (lower.max(-1e6), upper.min(1e6));
            let x = low + (high - low) * (rng.below(1001) as f64 / 1000.0);
            if rng.chance(70) { x.round().max(low.ceil()).min(high.floor()) } else { x }
        }
    }
}

// Moves one variable of a row so that its sum is about the right side.
fn on_row(rng: &mut Rng, m: &Model, plan: &mut [f64], r: usize) {
    let terms = m.row_terms(r);
    if terms.is_empty() {
        return;
    }
    let (v, a) = terms[rng.below(terms.len())];
    if v >= plan.len() || a == 0.0 {
        return;
    }
    let others: f64 = terms.iter().filter(|t| t.0 != v && t.0 < plan.len()).map(|t| t.1 * plan[t.0]).sum();
    let magnitude: f64 = m.rhs[r].abs() + terms.iter().filter(|t| t.0 < plan.len()).map(|t| (t.1 * plan[t.0]).abs()).sum::<f64>();
    let x = (m.rhs[r] - others) / a;
    let tol = m.feas.max(1e-14 * magnitude) / a;
    if x.is_finite() && tol.is_finite() {
        plan[v] = near(rng, x, tol);
    }
}

fn plan(rng: &mut Rng, m: &Model) -> Vec<f64> {
    let mut plan: Vec<f64> = (0..m.obj.len()).map(|v| if v < m.lower.len() && v < m.upper.len() { value(rng, m, v) } else { 1.0 }).collect();
    let sound = m.starts.len() == m.rhs.len() + 1 && m.index.len() == m.coeff.len() && m.starts.windows(2).all(|w| w[0] <= w[1] && w[1] <= m.index.len());
    if sound && !m.rhs.is_empty() {
        for _ in 0..rng.below(3) {
            let r = rng.below(m.rhs.len());
            on_row(rng, m, &mut plan, r);
        }
    }
    if rng.chance(90) {
        for x in plan.iter_mut().filter(|x| !x.is_finite()) {
            *x = 1.0;
        }
    }
    if rng.chance(3) {
        match rng.below(3) {
            0 => plan.push(f64::NAN),
            1 => plan.push(0.0),
            _ => {
                plan.pop();
            }
        }
    }
    plan
}

// Wholeness alone: one variable without bounds, its value near a whole number or a half, and int_tol at its distance, or a unit beside it.
fn one_value(rng: &mut Rng) -> (Model, Vec<f64>) {
    let mut m = Model::new(1 + rng.below(2) as u8, rng.pick(&[0.0, 0.5, 1e-6]), 0.0);
    let open = (f64::NEG_INFINITY, f64::INFINITY);
    m.var(rng.pick(&[INTEGER, BOOLEAN]), open.0, open.1, 0.0);
    let size = rng.below(60);
    let whole = f64::from_bits((1023 + size as u64) << 52 | rng.next() >> 12).trunc() * rng.pick(&[1.0, -1.0]);
    let fraction = match rng.below(6) {
        0 => 0.5,
        1 => 0.49999999999999994,
        2 => 1e-9,
        3 => 0.0,
        4 => 0.5 + f64::EPSILON,
        _ => rng.below(1 << 30) as f64 / (1u64 << 30) as f64,
    };
    let x = match rng.below(4) {
        0 => rng.pick(&SOME),
        1 => f64::from_bits(rng.next()),
        _ => {
            let middle = whole + fraction * rng.pick(&[1.0, -1.0]);
            near(rng, middle, 1e-9)
        }
    };
    let x = if x.is_finite() { x } else { 0.5 };
    let far = (x - nearest(x)).abs();
    m.int_tol = rng.pick(&[far, far, beside(far, true), beside(far, false), 0.0, 0.5, 0.49999999999999994, 1e-9]).clamp(0.0, 0.5);
    (m, vec![x])
}

pub struct Plans {
    pub passed: u64,
    pub failed: u64,
    codes: [u64; 256],
    infinite: u64,
    missed: u64,
    first: Option<String>,
}

impl Plans {
    pub fn new() -> Self {
        Plans { passed: 0, failed: 0, codes: [0; 256], infinite: 0, missed: 0, first: None }
    }
    fn held(&mut self, m: &Model, plan: &[f64]) {
        let (must, is) = (said(m, plan), port(m, plan));
        match must {
            Said::Refused(number) => self.codes[number as usize] += 1,
            Said::Checked { code, excursion, .. } => {
                self.codes[code as usize] += 1;
                self.infinite += (f64::from_bits(excursion) == f64::INFINITY) as u64;
                self.missed += (f64::from_bits(excursion) > 0.0 && code != ROW) as u64;
            }
        }
        if must == is {
            self.passed += 1;
        } else {
            self.failed += 1;
            self.first.get_or_insert_with(|| format!("must be {must:?}, is {is:?}, of the plan {plan:?}\n{m:?}"));
        }
    }
    // N plans, a tenth on damaged calls and a tenth of one value alone; and two on each call at or past the maxima.
    pub fn many(&mut self, seed: u64, n: u64) {
        for k in 0..n {
            let mut rng = Rng::new(seed.wrapping_mul(1 << 43).wrapping_add(k));
            if k % 10 == 9 {
                let (m, x) = one_value(&mut rng);
                self.held(&m, &x);
                continue;
            }
            let most = [2, 3, 3, 4, 5, 8][rng.below(6)];
            let mut m = generate::model(&mut rng, (k / 10) as usize % FAMILIES.len(), most);
            // what comes before a value that is not finite, and what after it
            let unsound = k % 10 == 8 && rng.chance(40);
            if k % 10 == 8 {
                let (damaged, mut sizes) = damage::damaged(&mut rng, m);
                m = damaged;
                if unsound && rng.chance(50) {
                    damage::spoil(&mut rng, 8 + k as usize / 10 % 2, &mut m, &mut sizes);
                }
            }
            let mut x = plan(&mut rng, &m);
            if unsound && !x.is_empty() {
                let v = rng.below(x.len());
                x[v] = rng.pick(&[f64::NAN, f64::INFINITY, f64::NEG_INFINITY]);
            }
            self.held(&m, &x);
        }
        // counts past the maxima and at them, rows of 256 terms and of 257
        let mut rng = Rng::new(seed ^ 0x9a11);
        for (m, _) in damage::too_many(&mut rng).into_iter().chain(damage::long_rows(&mut rng)) {
            for x in [0.0, f64::NAN] {
                let plan = vec![x; m.obj.len()];
                self.held(&m, &plan);
            }
        }
    }
    pub fn told(&self) -> String {
        let of = |code: u8| thousands(self.codes[code as usize]);
        let refused: Vec<String> = (1..=9).chain([18]).filter(|&k| self.codes[k as usize] > 0).map(|k| format!("{k}: {}", of(k))).collect();
        format!(
            "plans: all hold {}, a lower bound {}, an upper bound {}, no whole number {}, a row {}; a row missed beside another fault {}, excursions infinite {}\nplans refused: {}\n{}",
            of(HOLDS), of(LOWER), of(UPPER), of(NOT_WHOLE), of(ROW), thousands(self.missed), thousands(self.infinite), refused.join(", "),
            self.first.as_ref().map_or(String::new(), |f| format!("the first that differs: {f}\n"))
        )
    }
}
