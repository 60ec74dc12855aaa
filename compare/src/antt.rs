// A model and its answer as a theorem about the definition, in the definition's words.
use crate::model::{Answer, Model};

fn float(x: f64) -> String {
    if x.is_nan() {
        return "nan".into();
    }
    format!("(bits 0x{:016x})", x.to_bits())
}

fn list<T>(xs: &[T], show: impl Fn(&T) -> String) -> String {
    let mut s = String::new();
    for x in xs {
        s += &show(x);
        s += " ∷ ";
    }
    s + "[]"
}

pub fn model_text(m: &Model) -> String {
    let fs = |xs: &[f64]| list(xs, |x| float(*x));
    let ns = |xs: &[usize]| list(xs, |x| x.to_string());
    let bs = |xs: &[u8]| list(xs, |x| x.to_string());
    format!(
        "record {{ obj = {}; lower = {}; upper = {}; domain = {}; starts = {}; index = {}; coeff = {}; cmp = {}; rhs = {}; mode = {}; feas = {}; int_tol = {}; params = params }}",
        fs(&m.obj), fs(&m.lower), fs(&m.upper), bs(&m.domain), ns(&m.starts), ns(&m.index), fs(&m.coeff), bs(&m.cmp), fs(&m.rhs), m.mode, float(m.feas), float(m.int_tol)
    )
}

pub fn answer_text(a: &Answer) -> String {
    let counts = |c: &[usize; 5]| format!("counts {} {} {} {} {}", c[0], c[1], c[2], c[3], c[4]);
    match a {
        Answer::Infeasible(c) => format!("infeasible ({})", counts(c)),
        Answer::Done(r) => format!(
            "done (record {{ counts = {}; lower = {}; upper = {}; emitted = {}; terms = {}; kept = {}; flag = {} }})",
            counts(&r.counts),
            list(&r.lower, |x| float(*x)),
            list(&r.upper, |x| float(*x)),
            list(&r.emitted, |e| format!("(record {{ row = {}; rewritten = {}; rhs = {}; from = {}; upto = {} }})", e.row, e.rewritten, float(e.rhs), e.from, e.upto)),
            list(&r.terms, |t| format!("(term {} {})", t.0, float(t.1))),
            list(&r.kept, |k| k.to_string()),
            r.flag
        ),
    }
}
