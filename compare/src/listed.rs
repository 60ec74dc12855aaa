// What the listings of points have met: totals by mode, and what happened to models with dual fixing on.
use crate::cover::Cover;
use crate::model::Model;
use crate::points::Listing;
use crate::table::{thousands, Event, Table};

// How often a thing happened in a model, by its listing and by what ran in the reference.
type Count = fn(&Model, &Listing, &Cover) -> u64;

// Points that the reduced model no longer has, where it has some.
fn vanished(l: &Listing) -> u64 {
    l.before.count - if l.after.count > 0 { l.after.count } else { l.before.count }
}

const DUAL: [Event<Count>; 11] = [
    ("listed", |_, _, _| 1),
    ("infeasible", |_, l, _| l.infeasible as u64),
    ("no point, and not found infeasible", |_, l, _| (!l.infeasible && l.before.count == 0) as u64),
    ("the same, and a variable fixed by dual fixing", |_, l, c| (!l.infeasible && l.before.count == 0) as u64 * c.fixings()),
    ("variable fixed by dual fixing", |_, _, c| c.fixings()),
    // there is one pass of dual fixing a round
    ("several variables fixed in one pass: more than there are passes", |_, _, c| (c.fixings() > c.rounds()) as u64),
    // a third round follows where the second changed something, and no coefficient was rewritten
    ("variables fixed in two rounds or more: there is a third", |_, _, c| (c.rounds() == 3) as u64),
    ("point vanishes, a least one stays", |m, l, _| m.whole_objective() as u64 * vanished(l)),
    ("least point vanishes, another stays", |m, l, _| m.whole_objective() as u64 * (l.before.best - l.after.best)),
    ("point vanishes, a least one stays, an objective is past 2^53", |m, l, _| (m.whole_objective() && m.obj.iter().any(|c| c.abs() > 9007199254740992.0)) as u64 * vanished(l)),
    ("point vanishes, another stays, the objective is not whole", |m, l, _| !m.whole_objective() as u64 * vanished(l)),
];

#[derive(Default)]
struct Totals {
    models: u64,
    infeasible: u64,
    before: u64,
    after: u64,
}

pub struct Listed {
    // dual fixing off, and on
    modes: [Totals; 2],
    dual: Table<Count>,
}

impl Listed {
    pub fn new() -> Self {
        Listed { modes: Default::default(), dual: Table::new("Listed point by point, dual fixing on", &DUAL) }
    }
    // A model, its listing, and what its run in the reference covered.
    pub fn add(&mut self, m: &Model, listing: &Listing, cover: &Cover) {
        let t = &mut self.modes[m.mode as usize - 1];
        t.models += 1;
        t.infeasible += listing.infeasible as u64;
        t.before += listing.before.count;
        t.after += listing.after.count;
        if m.mode == 2 {
            self.dual.model(|count| count(m, listing, cover));
        }
    }
    pub fn never(&self) -> impl Iterator<Item = &'static str> + '_ {
        self.dual.never()
    }
    pub fn text(&self) -> String {
        self.dual.text()
    }
    // A line for each mode.
    pub fn totals(&self) -> String {
        let line = |mode: usize, t: &Totals| {
            let [models, infeasible, before, after] = [t.models, t.infeasible, t.before, t.after].map(thousands);
            format!("farm models whose points were listed, mode {mode}: {models} ({infeasible} of them infeasible), points {before} before, {after} after\n")
        };
        line(1, &self.modes[0]) + &line(2, &self.modes[1])
    }
}
