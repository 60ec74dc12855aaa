// The port's call. Built with `--cfg port` it is the proved static library; else a stand-in made of the reference, to try the
// driver itself, which can be told to be wrong in one of several ways.
use crate::generate::Rng;
use crate::model::Model;
use crate::part::Part;
use crate::refusal::Sizes;

// How an emitted row is marked: 0 written, 1 rewritten.
pub type Mark = u8;

macro_rules! slices {
    ($($name:ident: $of:ty,)*) => {
        // What a caller lends, each slice between guard words.
        #[derive(Clone)]
        pub struct Lent {
            $(pub $name: Part<$of>,)*
        }

        // The slices of it.
        #[derive(Debug)]
        pub struct Slices<'a> {
            $(pub $name: &'a mut [$of],)*
        }

        impl Lent {
            // Slices of these sizes that hold zeros.
            pub fn zeros(s: &Sizes) -> Self {
                Lent { $($name: Part::new(vec![<$of>::default(); s.$name]),)* }
            }
            pub fn slices(&mut self) -> Slices<'_> {
                Slices { $($name: self.$name.lent(),)* }
            }
            // The slices beside which something was written.
            pub fn overrun(&self) -> Vec<&'static str> {
                let mut names = Vec::new();
                $(if !self.$name.guards_stand() {
                    names.push(stringify!($name));
                })*
                names
            }
        }

        #[cfg(not(port))]
        impl Slices<'_> {
            fn sizes(&self) -> Sizes {
                Sizes { $($name: self.$name.len(),)* }
            }
        }
    };
}

slices! {
    lower: f64,
    upper: f64,
    emit_row: usize,
    emit_rewritten: Mark,
    emit_rhs: f64,
    emit_from: usize,
    emit_upto: usize,
    kept: usize,
    term_index: usize,
    term_coeff: f64,
    floats: f64,
    numbers: usize,
    adjacency: usize,
    answer: usize,
}

// Values that a port might trip over, were it to read them.
fn junk_float(rng: &mut Rng) -> f64 {
    match rng.below(8) {
        0 => f64::NAN,
        1 => f64::from_bits(0xfff8_dead_beef_0001),
        2 => f64::INFINITY,
        3 => f64::NEG_INFINITY,
        4 => -0.0,
        5 => 1.0,
        _ => f64::from_bits(rng.next()),
    }
}

fn junk_number(rng: &mut Rng) -> usize {
    match rng.below(6) {
        0 => usize::MAX,
        1 => 1,
        2 => 0,
        3 => rng.below(70000),
        _ => rng.next() as usize,
    }
}

impl Lent {
    // Slices of these sizes, full of junk.
    pub fn junk(rng: &mut Rng, s: &Sizes) -> Self {
        let mut f = |n: usize| Part::new((0..n).map(|_| junk_float(rng)).collect());
        let (lower, upper, emit_rhs, term_coeff, floats) = (f(s.lower), f(s.upper), f(s.emit_rhs), f(s.term_coeff), f(s.floats));
        let mut u = |n: usize| Part::new((0..n).map(|_| junk_number(rng)).collect());
        let (emit_row, emit_from, emit_upto, kept, term_index) = (u(s.emit_row), u(s.emit_from), u(s.emit_upto), u(s.kept), u(s.term_index));
        let (numbers, adjacency, answer) = (u(s.numbers), u(s.adjacency), u(s.answer));
        let emit_rewritten = Part::new((0..s.emit_rewritten).map(|_| (rng.next() >> 56) as Mark).collect());
        Lent { lower, upper, emit_row, emit_rewritten, emit_rhs, emit_from, emit_upto, kept, term_index, term_coeff, floats, numbers, adjacency, answer }
    }
}

pub const PRESOLVED: u8 = 0;
pub const INFEASIBLE: u8 = 100;

#[cfg(port)]
pub const NAME: &str = "the static library";

#[cfg(port)]
#[path = "../../include/presolve.rs"]
#[allow(dead_code)]
pub mod presolve;

#[cfg(port)]
impl Slices<'_> {
    // The call, with no test of its own: the library refuses what it does not take.
    pub fn call(&mut self, m: &Model) -> u8 {
        presolve::presolve(
            &m.obj, &m.lower, &m.upper, &m.domain, &m.starts, &m.index, &m.coeff, &m.cmp, &m.rhs, m.mode, m.feas, m.int_tol,
            self.lower, self.upper, self.emit_row, self.emit_rewritten, self.emit_rhs, self.emit_from, self.emit_upto,
            self.kept, self.term_index, self.term_coeff, self.floats, self.numbers, self.adjacency, self.answer,
        )
    }
}

#[cfg(port)]
pub fn call(m: &Model, s: &mut Lent) -> u8 {
    s.slices().call(m)
}

#[cfg(not(port))]
pub const NAME: &str = "a stand-in made of the reference";

#[cfg(not(port))]
pub use stand_in::{call, FAULT, FAULTS};

#[cfg(not(port))]
mod stand_in {
    use super::*;
    use crate::model::Answer;
    use crate::refer::reference;
    use crate::refusal::refusal;
    use std::sync::atomic::{AtomicUsize, Ordering::Relaxed};

    // Which of the faults below the stand-in has; none by default.
    pub static FAULT: AtomicUsize = AtomicUsize::new(usize::MAX);
    pub const FAULTS: [&str; 30] = [
        "a count of an infeasible answer is 0",
        "a lower bound is one unit off",
        "an upper bound is one unit off",
        "the last emitted row is missing",
        "a rewritten mark is missing",
        "a rewritten right side is one unit off",
        "a span starts one late",
        "the last kept row is missing",
        "rewritten terms stand in falling order",
        "a rewritten coefficient is one unit off",
        "the flag is always set",
        "passes are one more",
        "a result slice is written past its used front",
        "an infeasible answer writes a bound",
        "the working floats are not cleared",
        "the working numbers are cleared up to what is needed only",
        "the adjacency is cleared to one short",
        "a refusal writes its number into the answer",
        "8 is checked before 7",
        "a working slice may be one short",
        "a result slice may be one short",
        "infeasible where no row is left",
        "the word before a result slice is written",
        "the word after a working slice is written",
        "an integer's lower bound is minus zero",
        "an integer's upper bound is minus zero",
        "a Real variable's given minus zero comes out as plus zero",
        "in mode 0 a given minus zero comes out as plus zero",
        "a row of 256 terms is refused",
        "5 is checked before 18",
    ];

    fn up(x: f64) -> f64 {
        f64::from_bits(x.to_bits() + 1)
    }

    fn fault(k: usize) -> bool {
        FAULT.load(Relaxed) == k
    }

    pub fn call(m: &Model, s: &mut Lent) -> u8 {
        let code = answered(m, &mut s.slices());
        if fault(22) {
            *s.upper.beside(false) = 0.0;
        }
        if fault(23) {
            *s.numbers.beside(true) = 0;
        }
        code
    }

    fn answered(m: &Model, s: &mut Slices) -> u8 {
        let mut sizes = s.sizes();
        if fault(19) {
            sizes.adjacency += 1;
        }
        if fault(20) {
            sizes.emit_upto += 1;
        }
        let mut refused = refusal(m, &sizes);
        if fault(18) && refused == 7 {
            let mut other = m.clone();
            other.obj.iter_mut().chain(&mut other.coeff).for_each(|x| *x = 0.0);
            if refusal(&other, &sizes) == 8 {
                refused = 8;
            }
        }
        if fault(28) && refused == 0 && m.starts.windows(2).any(|w| w[1] - w[0] == 256) {
            refused = 18;
        }
        if fault(29) && refused == 18 && (m.mode > 2 || m.domain.iter().chain(&m.cmp).any(|&c| c > 2)) {
            refused = 5;
        }
        if refused != 0 {
            if fault(17) && !s.answer.is_empty() {
                s.answer[0] = refused as usize;
            }
            return refused;
        }
        let mut code = PRESOLVED;
        match reference(m) {
            Answer::Infeasible(c) => {
                code = INFEASIBLE;
                s.answer[..5].copy_from_slice(&c);
                if fault(0) {
                    s.answer[0] = 0;
                    s.answer[4] = 0;
                }
                if fault(13) && !s.lower.is_empty() {
                    s.lower[0] = 0.25;
                }
            }
            Answer::Done(r) => {
                s.lower[..m.vars()].copy_from_slice(&r.lower);
                s.upper[..m.vars()].copy_from_slice(&r.upper);
                let mut emitted = r.emitted.len();
                let mut kept = r.kept.len();
                for (i, e) in r.emitted.iter().enumerate() {
                    s.emit_row[i] = e.row;
                    s.emit_rewritten[i] = Mark::from(e.rewritten && !fault(4));
                    s.emit_rhs[i] = if fault(5) && e.rewritten { up(e.rhs) } else { e.rhs };
                    s.emit_from[i] = e.from + (fault(6) && e.from < e.upto) as usize;
                    if let Some(upto) = s.emit_upto.get_mut(i) {
                        *upto = e.upto;
                    }
                }
                s.kept[..kept].copy_from_slice(&r.kept);
                for (i, &(v, a)) in r.terms.iter().enumerate() {
                    let at = if fault(8) { r.terms.len() - 1 - i } else { i };
                    s.term_index[at] = v;
                    s.term_coeff[at] = if fault(9) { up(a) } else { a };
                }
                if fault(1) && m.vars() > 0 && s.lower[0].is_finite() {
                    s.lower[0] = up(s.lower[0]);
                }
                if fault(2) && m.vars() > 0 && s.upper[0].is_finite() {
                    s.upper[0] = up(s.upper[0]);
                }
                for v in 0..m.vars() {
                    if m.rounds(v) {
                        if fault(24) && s.lower[v] == 0.0 {
                            s.lower[v] = -0.0;
                        }
                        if fault(25) && s.upper[v] == 0.0 {
                            s.upper[v] = -0.0;
                        }
                    } else if fault(if m.mode > 0 { 26 } else { 27 }) {
                        // plus zero added: of minus zero it makes plus zero, of no other float another
                        s.lower[v] += 0.0;
                        s.upper[v] += 0.0;
                    }
                }
                if fault(3) {
                    emitted = emitted.saturating_sub(1);
                }
                if fault(7) {
                    kept = kept.saturating_sub(1);
                }
                if fault(12) && emitted < s.emit_row.len() {
                    s.emit_row[emitted] = 1;
                }
                if fault(21) && emitted == 0 {
                    code = INFEASIBLE;
                }
                let c = r.counts;
                s.answer[..9].copy_from_slice(&[c[0], c[1], c[2], c[3], c[4] + fault(11) as usize, emitted, r.terms.len(), kept, (r.flag || fault(10)) as usize]);
            }
        }
        let least = Sizes::least(m);
        let keep = fault(14) as usize * s.floats.len();
        s.floats[keep..].fill(0.0);
        let upto = if fault(15) { least.numbers } else { s.numbers.len() };
        s.numbers[..upto].fill(0);
        let upto = s.adjacency.len() - fault(16) as usize;
        s.adjacency[..upto].fill(0);
        code
    }
}
