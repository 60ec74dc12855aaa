// How often each line of the reference ran, and what that says of each reduction and each infeasible exit. Line numbers are
// those of microlp 0.7.0's files: 1 presolve/mod.rs, 2 presolve/work.rs, 3 presolve/model.rs, 4 solver/tolerances.rs,
// 5 solver/proof.rs, times 10,000. Of their text only names of functions stand here.
use crate::table::{Event, Table};

include!("../target/places.rs");

const FILES: [&str; 6] = ["", "presolve/mod.rs", "presolve/work.rs", "presolve/model.rs", "solver/tolerances.rs", "solver/proof.rs"];

// How often a thing happened in a model, by how often lines ran there.
type Lines<'a> = &'a dyn Fn(usize) -> u64;
type Count = fn(Lines) -> u64;

// Lines that the listing of points asks for too: a dual fixing at the lower and at the upper bound, a round.
const FIXED_LOWER: usize = 20974;
const FIXED_UPPER: usize = 20979;
const ROUND: usize = 10261;

const EXITS: [Event<Count>; 13] = [
    ("bounds given cross", |n| n(10166)),
    ("rounding to whole numbers crosses", |n| n(10181)),
    ("an empty row as handed in is false", |n| n(10198)),
    ("`tighten_upper`, Integer", |n| n(20272)),
    ("`tighten_upper`, Real, past its tolerance", |n| n(20289)),
    ("`tighten_lower`, Integer", |n| n(20315)),
    ("`tighten_lower`, Real, past its tolerance", |n| n(20332)),
    ("a row that emptied is false, in a wave", |n| n(20369) * (n(10270) == 0) as u64),
    ("a row that emptied is false, at emission", |n| n(20369) * (n(10270) > 0) as u64),
    ("`singleton_row`, Integer", |n| n(20423)),
    ("`singleton_row`, Real", |n| n(20440)),
    ("the least activity is above the row", |n| n(20512)),
    ("the greatest activity is below the row", |n| n(20519)),
];

const REDUCTIONS: [Event<Count>; 41] = [
    ("row trivially true, infinite right side", |n| n(40311)),
    ("row trivially true, empty within tolerance", |n| n(10195) - n(40311).min(n(10195))),
    ("integer lower bound rounded", |n| n(10175)),
    ("integer upper bound rounded", |n| n(10178)),
    ("fixed term folded", |n| n(20210)),
    ("explicit zero taken out", |n| n(20217) - n(20210)),
    ("row emptied and dropped, in a wave", |n| n(20371) - n(10282)),
    ("row emptied and dropped, at emission", |n| n(10282)),
    ("one-term row tightens an Integer", |n| n(20188)),
    ("one-term row dropped", |n| n(20456)),
    ("forcing row, least corner", |n| (n(20556) > 0 && n(20538) > 0 && n(20548) == 0) as u64 * n(20556)),
    ("forcing row, greatest corner", |n| (n(20556) > 0 && n(20548) > 0 && n(20538) == 0) as u64 * n(20556)),
    ("corner met, but not forcing", |n| (n(20538) + n(20548)) - n(20556)),
    ("row redundant", |n| n(20591)),
    ("upper bound implied, Integer", |n| n(20274)),
    ("upper bound implied, Real", |n| n(20293)),
    ("lower bound implied, Integer", |n| n(20317)),
    ("lower bound implied, Real", |n| n(20336)),
    ("upper bound crosses within its tolerance", |n| n(20291)),
    ("lower bound crosses within its tolerance", |n| n(20334)),
    ("implied bound not finite", |n| n(20261) + n(20305)),
    ("rewrite, Le, positive coefficient", |n| n(20869)),
    ("rewrite, Le, negative coefficient", |n| n(20879)),
    ("rewrite, Ge, negative coefficient", |n| n(20894)),
    ("rewrite, Ge, positive coefficient", |n| n(20904)),
    ("long row left alone", |n| (n(20820) + n(20825) + n(20835) + n(20840) > 0 && n(20909) == 0) as u64),
    ("row given back while it is rewritten", |n| n(20919)),
    ("row given back by a fold", |n| n(20239) - n(20919)),
    ("room of a rewrite overflows", |n| n(20676)),
    ("fold after a rewrite that moved the bound", |n| n(20718)),
    ("that fold widens an upper side", |n| n(20726)),
    ("that fold widens a lower side", |n| n(20728)),
    ("dual fixing at the lower bound", |n| n(FIXED_LOWER)),
    ("dual fixing at the upper bound", |n| n(FIXED_UPPER)),
    ("rewritten row emitted", |n| n(10312)),
    ("rewritten row emitted with its bound as written", |n| n(20751)),
    ("rewritten row with folded terms restored", |n| (n(10309) > 0) as u64),
    ("rewritten bound not finite, emitted as written", |n| n(10302)),
    ("2 rounds", |n| (n(ROUND) == 2) as u64),
    ("3 rounds", |n| (n(ROUND) == 3) as u64),
    ("30 waves", |n| (n(10251) == 30) as u64),
];

// Places that are no lines': sums that are not numbers (notes.awk).
const SUMS: [Event<Count>; 2] = [
    ("a row's budget that is not a number", |n| n(1)),
    ("a fold that leaves a side or the shift of its row not a number", |n| n(2)),
];

// How often each place ran, and each sum was none, in one model: between `begin` and `end` what there was before it.
struct Last {
    places: Vec<u64>,
    sums: [u64; SUMS.len()],
}

impl Last {
    fn ran(&self, line: usize) -> u64 {
        match self.sums.get(line - 1) {
            Some(n) => *n,
            None => PLACES.binary_search_by_key(&line, |p| p.0).map_or(0, |i| self.places[i]),
        }
    }
}

pub struct Cover {
    last: Last,
    lines: Vec<u64>,
    exits: Table<Count>,
    reductions: Table<Count>,
    sums: Table<Count>,
}

impl Cover {
    pub fn new() -> Self {
        Cover {
            last: Last { places: vec![0; PLACES.len()], sums: [0; SUMS.len()] },
            lines: vec![0; PLACES.len()],
            exits: Table::new("Infeasible at", &EXITS),
            reductions: Table::new("Reduction or event", &REDUCTIONS),
            sums: Table::new("Sums", &SUMS),
        }
    }
    pub fn begin(&mut self) {
        for (b, p) in self.last.places.iter_mut().zip(PLACES) {
            *b = noted::hits(p.0);
        }
        self.last.sums = std::array::from_fn(|i| noted::hits(i + 1));
    }
    // What ran since `begin`, as one model's.
    pub fn end(&mut self) {
        for i in 0..PLACES.len() {
            self.last.places[i] = noted::hits(PLACES[i].0) - self.last.places[i];
            self.lines[i] += self.last.places[i];
        }
        self.last.sums = std::array::from_fn(|i| noted::hits(i + 1) - self.last.sums[i]);
        for table in [&mut self.exits, &mut self.reductions, &mut self.sums] {
            table.model(|count| count(&|line| self.last.ran(line)));
        }
    }
    // Of the last model: the variables that dual fixing fixed, and the rounds.
    pub fn fixings(&self) -> u64 {
        self.last.ran(FIXED_LOWER) + self.last.ran(FIXED_UPPER)
    }
    pub fn rounds(&self) -> u64 {
        self.last.ran(ROUND)
    }
    // Whether an exit or a reduction happened in f that happened in fewer than `few` models so far; if so, f counts.
    pub fn rare(&mut self, few: u64, f: impl Fn()) -> bool {
        let (exits, reductions, sums, lines) = (self.exits.clone(), self.reductions.clone(), self.sums.clone(), self.lines.clone());
        self.begin();
        f();
        self.end();
        let rare = self.exits.rarer(&exits, few) || self.reductions.rarer(&reductions, few);
        if !rare {
            (self.exits, self.reductions, self.sums, self.lines) = (exits, reductions, sums, lines);
        }
        rare
    }
    pub fn never(&self) -> impl Iterator<Item = &'static str> + '_ {
        self.exits.never().chain(self.reductions.never()).chain(self.sums.never())
    }
    // As a document: the tables, and the lines that never ran.
    pub fn text(&self) -> String {
        let mut s = self.exits.text() + &self.reductions.text() + &self.sums.text();
        let mut functions: Vec<(usize, &str, usize, usize)> = Vec::new();
        for (i, &(line, name)) in PLACES.iter().enumerate() {
            if functions.last().map(|f| (f.0, f.1)) != Some((line / 10000, name)) {
                functions.push((line / 10000, name, 0, 0));
            }
            let f = functions.last_mut().unwrap();
            f.2 += 1;
            f.3 += (self.lines[i] > 0) as usize;
        }
        let (ran, all) = (functions.iter().filter(|f| f.3 > 0).map(|f| f.3).sum::<usize>(), functions.iter().filter(|f| f.3 > 0).map(|f| f.2).sum::<usize>());
        s += &format!("Statements of the functions that presolve calls: {all}, of which {ran} ran.\n\n");
        s += "Statements that never ran:\n\n";
        for (i, &(line, name)) in PLACES.iter().enumerate() {
            let called = functions.iter().any(|f| f.0 == line / 10000 && f.1 == name && f.3 > 0);
            if self.lines[i] == 0 && called {
                s += &format!("- {}:{} in `{}`\n", FILES[line / 10000], line % 10000, name);
            }
        }
        let mut unused: Vec<&str> = functions.iter().filter(|f| f.3 == 0).map(|f| f.1).collect();
        unused.dedup();
        s += &format!("\nFunctions of these files that presolve does not call: {}.\n", unused.join(", "));
        s
    }
}
