// The reference's answer to a model: microlp's own text, run as it is, and once more with notes and with 02's W1 in its roundings,
// whose answer counts. The two must agree but for the sign of a zero that was rounded.
use crate::input::plain_input;
use crate::model::{Answer, Emit, Model, Reduced};

fn bits(x: &[f64]) -> impl Iterator<Item = u64> + '_ {
    x.iter().map(|x| x.to_bits())
}

fn same_rows(a: &[plain::Row], b: &[noted::Row]) -> bool {
    a.len() == b.len()
        && a.iter().zip(b).all(|(x, y)| {
            x.0.indices() == y.0.indices() && bits(x.0.data()).eq(bits(y.0.data())) && x.1 as u8 == y.1 as u8 && x.2.to_bits() == y.2.to_bits()
        })
}

// The bounds of the text as it is, by W1. In Mip every finite bound of an integer variable comes from rounding, so none is minus
// zero; the others must be the given ones, their minus zeros too.
fn plus_zeros(m: &Model, given: &[f64], mut bounds: Vec<f64>) -> Vec<f64> {
    for v in 0..m.vars() {
        if !m.rounds(v) {
            assert_eq!(bounds[v].to_bits(), given[v].to_bits(), "a bound that is not rounded is as given");
        } else if bounds[v] == 0.0 {
            bounds[v] = 0.0;
        }
    }
    bounds
}

// The text as it is gives the same, bit for bit: its bounds by W1, and all else as it stands.
fn same(m: &Model, a: Option<plain::Output>, b: &Option<noted::Output>) -> bool {
    match (a, b) {
        (None, None) => true,
        (Some(a), Some(b)) => {
            bits(&plus_zeros(m, &m.lower, a.lower)).eq(bits(&b.lower))
                && bits(&plus_zeros(m, &m.upper, a.upper)).eq(bits(&b.upper))
                && same_rows(&a.rows, &b.rows)
                && same_rows(&a.kept, &b.kept)
                && a.reduced == b.reduced
                && a.counts == b.counts
        }
        _ => false,
    }
}

pub fn reference(m: &Model) -> Answer {
    noted::take_notes();
    let result = noted::run(&input!(noted, m));
    let notes = noted::take_notes();
    assert!(same(m, plain::run(&plain_input(m)), &result), "the notes or W1 changed an answer:\n{}", m.to_text());
    let p = match result {
        None => return Answer::Infeasible(notes.counts),
        Some(p) => p,
    };
    assert_eq!(notes.out.len(), p.rows.len());
    assert_eq!(notes.kept.len(), p.kept.len());
    let mut emitted = Vec::new();
    let mut terms = Vec::new();
    for (&(r, rewritten), (c, op, b)) in notes.out.iter().zip(&p.rows) {
        assert_eq!(*op as u8, m.cmp[r], "a row keeps its comparison");
        if rewritten {
            emitted.push(Emit { row: r, rewritten, rhs: *b, from: terms.len(), upto: terms.len() + c.nnz() });
            terms.extend(c.iter().map(|(v, &a)| (v, a)));
        } else {
            let span = m.starts[r]..m.starts[r + 1];
            assert!(c.indices() == &m.index[span.clone()] && bits(c.data()).eq(bits(&m.coeff[span])), "a written row has the terms given");
            emitted.push(Emit { row: r, rewritten, rhs: *b, from: m.starts[r], upto: m.starts[r + 1] });
        }
    }
    for (&r, (c, _, b)) in notes.kept.iter().zip(&p.kept) {
        let span = m.starts[r]..m.starts[r + 1];
        assert!(c.indices() == &m.index[span.clone()] && bits(c.data()).eq(bits(&m.coeff[span])) && b.to_bits() == m.rhs[r].to_bits(), "a kept row is as given");
    }
    Answer::Done(Reduced { counts: p.counts, lower: p.lower, upper: p.upper, emitted, terms, kept: notes.kept, flag: p.reduced })
}

// `reduced_model` gives a model exactly where presolve is done and reduced something.
pub fn reduced_model_agrees(m: &Model, a: &Answer) {
    let reduced = matches!(a, Answer::Done(r) if r.flag);
    assert_eq!(plain::gives_reduced_model(&plain_input(m)), reduced, "reduced_model of\n{}", m.to_text());
}

// What f gives, or what it panicked with.
pub fn caught<T>(f: impl FnOnce() -> T) -> Result<T, String> {
    std::panic::catch_unwind(std::panic::AssertUnwindSafe(f)).map_err(|e| match (e.downcast_ref::<&str>(), e.downcast_ref::<String>()) {
        (Some(s), _) => s.to_string(),
        (_, Some(s)) => s.clone(),
        _ => "no message".into(),
    })
}
