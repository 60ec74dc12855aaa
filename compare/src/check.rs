// One call of the port held against what it must give: the reference's answer, the table of refusals, and the promises on
// lent memory.
use crate::generate::Rng;
use crate::model::{Answer, Model};
use crate::part::Part;
use crate::port::{call, Lent, Mark, INFEASIBLE, PRESOLVED};
use crate::refusal::Sizes;

// What a call must give.
pub enum Expected {
    Refused(u8),
    Answered(Answer),
}

// Equal but for the sign of zero; every NaN is the one NaN.
fn same(a: f64, b: f64) -> bool {
    a == b || a.is_nan() && b.is_nan()
}

// Equal, the sign of zero too.
fn exact(a: f64, b: f64) -> bool {
    same(a, b) && (a != 0.0 || a.to_bits() == b.to_bits())
}

// What was seen over many calls.
#[derive(Default)]
pub struct Seen {
    pub passed: u64,
    pub failed: u64,
    pub infeasible: u64,
    pub reduced: u64,
    pub unchanged: u64,
    pub refused: [u64; 19],
    pub rewritten_rows: u64,
    // calls with a zero of another sign that passed for the same
    pub zero_signs: u64,
    pub whole: u64,
}

impl Seen {
    fn answer(&mut self, m: &Model, answer: &Answer) {
        match answer {
            Answer::Infeasible(_) => self.infeasible += 1,
            Answer::Done(r) => {
                self.rewritten_rows += r.emitted.iter().filter(|e| e.rewritten).count() as u64;
                if r.flag {
                    self.reduced += 1
                } else {
                    self.unchanged += 1
                }
            }
        }
        self.whole += m.is_whole() as u64;
    }
}

// What is wrong with a call, at most eight things of it.
#[derive(Default)]
pub struct Check {
    pub wrong: Vec<String>,
    zero_signs: u64,
}

impl Check {
    fn fact(&mut self, holds: bool, what: impl Fn() -> String) {
        if !holds && self.wrong.len() < 8 {
            self.wrong.push(what());
        }
    }
    // The front of got is want by `like`, what follows is as before.
    fn floats(&mut self, name: &str, like: fn(f64, f64) -> bool, got: &[f64], want: &[f64], before: &[f64]) {
        for i in 0..got.len() {
            if i < want.len() {
                let alike = like(got[i], want[i]);
                self.fact(alike, || format!("{name}[{i}]: {:016x} ({:e}), it must be {:016x} ({:e})", got[i].to_bits(), got[i], want[i].to_bits(), want[i]));
                self.zero_signs += (alike && !exact(got[i], want[i])) as u64;
            } else {
                self.fact(got[i].to_bits() == before[i].to_bits(), || format!("{name}[{i}] was written past the used front"));
            }
        }
        self.fact(want.len() <= got.len(), || format!("{name}: more entries than lent"));
    }
    fn numbers<T: PartialEq + Copy + std::fmt::Debug>(&mut self, name: &str, got: &[T], want: &[T], before: &[T]) {
        for i in 0..got.len() {
            if i < want.len() {
                self.fact(got[i] == want[i], || format!("{name}[{i}]: {:?}, the reference has {:?}", got[i], want[i]));
            } else {
                self.fact(got[i] == before[i], || format!("{name}[{i}] was written past the used front"));
            }
        }
        self.fact(want.len() <= got.len(), || format!("{name}: more entries than lent"));
    }
    // The result slices and the answer's numbers. Of a bound the sign of zero counts: what is rounded is never minus zero, and a
    // given minus zero that is not rounded stays.
    fn results(&mut self, got: &Lent, want: &Lent, before: &Lent) {
        self.floats("lower", exact, &got.lower, &want.lower, &before.lower);
        self.floats("upper", exact, &got.upper, &want.upper, &before.upper);
        self.numbers("emit_row", &got.emit_row, &want.emit_row, &before.emit_row);
        self.numbers("emit_rewritten", &got.emit_rewritten, &want.emit_rewritten, &before.emit_rewritten);
        self.floats("emit_rhs", same, &got.emit_rhs, &want.emit_rhs, &before.emit_rhs);
        self.numbers("emit_from", &got.emit_from, &want.emit_from, &before.emit_from);
        self.numbers("emit_upto", &got.emit_upto, &want.emit_upto, &before.emit_upto);
        self.numbers("kept", &got.kept, &want.kept, &before.kept);
        self.numbers("term_index", &got.term_index, &want.term_index, &before.term_index);
        self.floats("term_coeff", same, &got.term_coeff, &want.term_coeff, &before.term_coeff);
        self.numbers("answer", &got.answer, &want.answer, &before.answer);
    }
    // All working slices are plus zero.
    fn cleared(&mut self, got: &Lent) {
        self.fact(got.floats.iter().all(|x| x.to_bits() == 0), || "floats: not all zero after an accepted call".into());
        self.fact(got.numbers.iter().all(|&x| x == 0), || "numbers: not all zero after an accepted call".into());
        self.fact(got.adjacency.iter().all(|&x| x == 0), || "adjacency: not all zero after an accepted call".into());
    }
    // What stands beside the lent slices is as it was.
    fn guards(&mut self, got: &Lent) {
        for name in got.overrun() {
            self.fact(false, || format!("{name}: written beside what was lent"));
        }
    }
    // A refused call: its number, and nothing written.
    fn refused(&mut self, number: u8, code: u8, got: &Lent, before: &Lent) {
        self.fact(code == number, || format!("answered {code}, the table has {number}"));
        let nothing = Lent::zeros(&Sizes::NONE);
        self.results(got, &nothing, before);
        self.floats("floats", same, &got.floats, &[], &before.floats);
        self.numbers("numbers", &got.numbers, &[], &before.numbers);
        self.numbers("adjacency", &got.adjacency, &[], &before.adjacency);
        self.guards(got);
    }
    // An accepted call: the whole answer, in slices that held `before`.
    pub fn answered(&mut self, answer: &Answer, code: u8, got: &Lent, before: &Lent) {
        let (want_code, want) = wanted(answer);
        self.fact(code == want_code, || format!("answered {code}, the reference {want_code}"));
        if code == want_code {
            self.results(got, &want, before);
        }
        self.cleared(got);
        self.guards(got);
    }
}

// What is returned, and what the result slices and the answer's numbers begin with, after this answer.
fn wanted(a: &Answer) -> (u8, Lent) {
    let mut w = Lent::zeros(&Sizes::NONE);
    match a {
        Answer::Infeasible(c) => {
            w.answer = Part::new(c.to_vec());
            (INFEASIBLE, w)
        }
        Answer::Done(r) => {
            w.lower = Part::new(r.lower.clone());
            w.upper = Part::new(r.upper.clone());
            w.emit_row = Part::new(r.emitted.iter().map(|e| e.row).collect());
            w.emit_rewritten = Part::new(r.emitted.iter().map(|e| Mark::from(e.rewritten)).collect());
            w.emit_rhs = Part::new(r.emitted.iter().map(|e| e.rhs).collect());
            w.emit_from = Part::new(r.emitted.iter().map(|e| e.from).collect());
            w.emit_upto = Part::new(r.emitted.iter().map(|e| e.upto).collect());
            w.kept = Part::new(r.kept.clone());
            w.term_index = Part::new(r.terms.iter().map(|t| t.0).collect());
            w.term_coeff = Part::new(r.terms.iter().map(|t| t.1).collect());
            let mut answer = r.counts.to_vec();
            answer.extend([r.emitted.len(), r.terms.len(), r.kept.len(), r.flag as usize]);
            w.answer = Part::new(answer);
            (PRESOLVED, w)
        }
    }
}

// The port's call on this model and on slices of these sizes full of junk, twice with the same slices where it is accepted.
// What is wrong with it, if anything.
pub fn check(m: &Model, sizes: &Sizes, expected: &Expected, rng: &mut Rng, seen: &mut Seen) -> Option<String> {
    let mut c = Check::default();
    let given = m.clone();
    let before = Lent::junk(rng, sizes);
    let mut lent = before.clone();
    let code = call(m, &mut lent);
    match expected {
        Expected::Refused(number) => {
            c.refused(*number, code, &lent, &before);
            seen.refused[*number as usize] += 1;
        }
        Expected::Answered(answer) => {
            c.answered(answer, code, &lent, &before);
            // again, in the space as the first call left it
            let first = lent.clone();
            let again = call(m, &mut lent);
            c.answered(answer, again, &lent, &first);
            seen.answer(m, answer);
        }
    }
    c.fact(m.same(&given), || "the model was written to".into());
    seen.zero_signs += (c.zero_signs > 0) as u64;
    if c.wrong.is_empty() {
        seen.passed += 1;
        None
    } else {
        seen.failed += 1;
        Some(c.wrong.join("\n"))
    }
}

// The least sizes, some slices with entries to spare.
pub fn sizes_for(m: &Model, rng: &mut Rng) -> Sizes {
    let mut s = Sizes::least(m);
    for n in s.all() {
        if rng.chance(40) {
            *n += 1 + rng.below(4);
        }
    }
    s
}
