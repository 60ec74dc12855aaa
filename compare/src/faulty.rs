// Answers made wrong in one way after another, for the self-test: the listing of points must find each.
use crate::generate::{self, Rng};
use crate::model::{Answer, Model, Reduced};
use crate::points;
use crate::refer::reference;

type Way = fn(&mut Model, &mut Answer);

// Changes an answer that is not infeasible.
fn done(answer: &mut Answer, f: impl FnOnce(&mut Reduced)) {
    if let Answer::Done(r) = answer {
        f(r)
    }
}

pub const WAYS: [(&str, Way); 8] = [
    ("the objective has the other sign", |m, _| m.obj.iter_mut().for_each(|c| *c = -*c)),
    ("a fixed variable is at its other bound", |m, a| {
        done(a, |r| {
            if let Some(v) = (0..m.vars()).find(|&v| m.lower[v] < m.upper[v] && r.lower[v] == r.upper[v]) {
                let other = if r.lower[v] == m.lower[v] { m.upper[v] } else { m.lower[v] };
                (r.lower[v], r.upper[v]) = (other, other);
            }
        })
    }),
    ("dual fixing, in mode 1", |m, _| m.mode = 1),
    ("an upper bound is one less", |_, a| done(a, |r| r.upper[0] -= 1.0)),
    ("an upper bound is past the given one", |m, a| done(a, |r| r.upper[0] = m.upper[0] + 1.0)),
    ("an emitted row is missing", |_, a| {
        done(a, |r| {
            r.emitted.pop();
        })
    }),
    ("infeasible, though there is a point", |_, a| *a = Answer::Infeasible(*a.counts())),
    ("the bounds given and no row, though infeasible", |m, a| {
        if let Answer::Infeasible(counts) = *a {
            *a = Answer::Done(Reduced { counts, lower: m.lower.clone(), upper: m.upper.clone(), emitted: vec![], terms: vec![], kept: vec![], flag: true });
        }
    }),
];

// In how many of n models it is found.
pub fn found(way: Way, n: u64) -> u64 {
    let mut found = 0;
    for k in 0..n {
        let mut m = generate::fixings::model(&mut Rng::new(k));
        let mut answer = reference(&m);
        way(&mut m, &mut answer);
        found += points::list(&m, &answer).is_err() as u64;
    }
    found
}
