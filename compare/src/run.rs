// Many calls of the port, each held against what it must give; what was seen, and the models that differ.
use crate::check::{check, sizes_for, Expected, Seen};
use crate::cover::Cover;
use crate::generate::{self, Rng, FAMILIES};
use crate::listed::Listed;
use crate::model::{Answer, Model};
use crate::plans::Plans;
use crate::refer::{caught, reduced_model_agrees, reference};
use crate::refusal::{refusal, Sizes};
use crate::table::thousands;
use crate::{damage, large, points, port, short, shrink};

const FAILED: &str = "compare/target/failed";
// So many failing models are saved.
const SAVED: usize = 20;

pub struct Run {
    pub seen: Seen,
    cover: Cover,
    // failing models so far
    failing: usize,
    save: bool,
    calls: u64,
    listed: Listed,
}

// The reference's answer to a model that is accepted in the least space.
fn answer_to(m: &Model) -> Option<Answer> {
    if refusal(m, &Sizes::least(m)) != 0 {
        return None;
    }
    caught(|| reference(m)).ok()
}

// What is wrong with the call in the least space, if anything.
fn wrong_call(m: &Model) -> Option<String> {
    check(m, &Sizes::least(m), &Expected::Answered(answer_to(m)?), &mut Rng::new(1), &mut Seen::default())
}

// What is wrong with the points of the reference's answer, if anything.
fn wrong_points(m: &Model) -> Option<String> {
    points::list(m, &answer_to(m)?).err()
}

// The model, and the smallest with which something is wrong in the same way.
fn with_smallest(m: &Model, wrong: fn(&Model) -> Option<String>) -> String {
    let least = shrink::shrink(m, &mut |n| wrong(n).is_some());
    let what = wrong(&least).unwrap_or_else(|| "only in larger lent space".into());
    format!("{}\nsmallest\n{what}\n{}", m.to_text(), least.to_text())
}

impl Run {
    // With `save` failing models are saved, in place of those of the last run.
    pub fn new(save: bool) -> Self {
        if save {
            std::fs::remove_dir_all(FAILED).ok();
        }
        Run { seen: Seen::default(), cover: Cover::new(), failing: 0, save, calls: 0, listed: Listed::new() }
    }
    // What the call must give; or what failed in the reference itself, its own debug assertions among that.
    fn expected(&mut self, m: &Model, sizes: &Sizes) -> Result<Expected, String> {
        match refusal(m, sizes) {
            0 => caught(|| {
                self.cover.begin();
                let answer = reference(m);
                self.cover.end();
                self.calls += 1;
                if self.calls % 16 == 0 {
                    reduced_model_agrees(m, &answer);
                }
                Expected::Answered(answer)
            }),
            number => Ok(Expected::Refused(number)),
        }
    }
    // The points of the reference's answer, where they are listed; what is wrong with them, if anything.
    fn points(&mut self, m: &Model, expected: &Expected) -> Option<String> {
        let Expected::Answered(answer) = expected else { return None };
        match points::list(m, answer) {
            Ok(Some(listing)) => self.listed.add(m, &listing, &self.cover),
            Ok(None) => {}
            Err(wrong) => return Some(wrong),
        }
        None
    }
    // One call; a difference is saved with the smallest model that shows one.
    fn call(&mut self, what: &str, m: &Model, sizes: &Sizes, rng: &mut Rng) {
        let expected = match self.expected(m, sizes) {
            Err(panic) => {
                self.seen.failed += 1;
                return self.failed(what, &format!("the reference failed: {panic}"), || m.to_text());
            }
            Ok(expected) => expected,
        };
        if let Some(wrong) = self.points(m, &expected) {
            self.seen.failed += 1;
            return self.failed(what, &wrong, || with_smallest(m, wrong_points));
        }
        if let Some(wrong) = check(m, sizes, &expected, rng, &mut self.seen) {
            self.failed(what, &wrong, || match expected {
                Expected::Refused(_) => format!("{m:?}\n{sizes:?}\n"),
                Expected::Answered(_) => with_smallest(m, wrong_call),
            });
        }
    }
    fn failed(&mut self, what: &str, wrong: &str, model: impl FnOnce() -> String) {
        self.failing += 1;
        if !self.save || self.failing > SAVED {
            return;
        }
        std::fs::create_dir_all(FAILED).ok();
        let file = format!("{FAILED}/{}.txt", self.failing);
        std::fs::write(&file, format!("{what}\n{wrong}\n{}", model())).ok();
        eprintln!("{what}: differs, see {file}\n{wrong}");
    }
    pub fn families(&mut self, seed: u64, n: u64, only: Option<usize>) {
        for k in 0..n {
            let mut rng = Rng::new(seed.wrapping_mul(1 << 40).wrapping_add(k));
            let family = only.unwrap_or(k as usize % FAMILIES.len());
            let most = [3, 3, 4, 4, 5, 6, 8, 12, 24, if rng.chance(8) { 120 } else { 6 }][rng.below(10)];
            let m = generate::model(&mut rng, family, most);
            let sizes = sizes_for(&m, &mut rng);
            self.call(&format!("family {} ({}) seed {seed} model {k}", family, FAMILIES[family]), &m, &sizes, &mut rng);
        }
    }
    // Small farm models with dual fixing on, whose points can be listed.
    pub fn fixings(&mut self, seed: u64, n: u64) {
        for k in 0..n {
            let mut rng = Rng::new(seed.wrapping_mul(1 << 45).wrapping_add(k));
            let m = generate::fixings::model(&mut rng);
            let sizes = sizes_for(&m, &mut rng);
            self.call(&format!("dual fixing, seed {seed} model {k}"), &m, &sizes, &mut rng);
        }
    }
    pub fn short(&mut self) {
        let mut rng = Rng::new(7);
        let mut models = 0;
        short::all(&mut |m| {
            models += 1;
            let sizes = Sizes::least(m);
            self.call(&format!("short model {models}"), m, &sizes, &mut rng);
        });
        println!("short models: {}", thousands(models));
    }
    pub fn refusals(&mut self, seed: u64, n: u64) {
        let mut rng = Rng::new(seed ^ 0x5eed);
        for k in 0..n {
            let mut rng = Rng::new(seed.wrapping_mul(1 << 41).wrapping_add(k));
            let m = generate::model(&mut rng, k as usize % FAMILIES.len(), 4);
            let (m, s) = damage::damaged(&mut rng, m);
            self.call(&format!("damaged call seed {seed} number {k}"), &m, &s, &mut rng);
            if k % 50 == 0 {
                let m = generate::model(&mut rng, k as usize / 50 % FAMILIES.len(), 5);
                for (i, s) in damage::one_short(&m).iter().enumerate() {
                    self.call(&format!("slice {i} one short, seed {seed} number {k}"), &m, s, &mut rng);
                }
            }
        }
        for (i, (m, s)) in damage::too_many(&mut rng).iter().enumerate() {
            self.call(&format!("maxima, call {i}"), m, s, &mut rng);
        }
        for (i, (m, s)) in damage::long_rows(&mut rng).iter().enumerate() {
            self.call(&format!("long rows, call {i}"), m, s, &mut rng);
        }
    }
    pub fn limits(&mut self, seed: u64) {
        let mut rng = Rng::new(seed ^ 0x1177);
        for (name, m) in large::all(&mut rng) {
            let sizes = Sizes::least(&m);
            self.call(&format!("limits: {name}"), &m, &sizes, &mut rng);
        }
    }
    // Checks of plans, counted with the rest.
    pub fn plans(&mut self, seed: u64, n: u64) {
        let mut plans = Plans::new();
        plans.many(seed, n);
        print!("{}", plans.told());
        self.seen.passed += plans.passed;
        self.seen.failed += plans.failed;
    }
    pub fn finish(&self) -> ! {
        let s = &self.seen;
        std::fs::write("compare/target/coverage.md", self.listed.text() + &self.cover.text()).ok();
        let models = s.infeasible + s.reduced + s.unchanged;
        println!("port: {}", port::NAME);
        println!("models: {} (infeasible {}, reduced {}, unchanged {}), farm models among them {}", thousands(models), thousands(s.infeasible), thousands(s.reduced), thousands(s.unchanged), thousands(s.whole));
        println!("rewritten rows emitted: {}; answers with a zero of another sign in a row: {}", thousands(s.rewritten_rows), thousands(s.zero_signs));
        print!("{}", self.listed.totals());
        let refused: Vec<String> = (1..=10).chain([18]).map(|k| format!("{k}: {}", thousands(s.refused[k]))).collect();
        println!("refused calls: {}", refused.join(", "));
        for e in self.cover.never() {
            println!("never happened: {e}");
        }
        for e in self.listed.never() {
            println!("never happened where points were listed, mode 2: {e}");
        }
        if self.failing > 0 {
            println!("of {} failing models the first {} are saved in {FAILED}", self.failing, self.failing.min(SAVED));
        }
        println!("{} passed, {} failed", s.passed, s.failed);
        std::process::exit((s.failed > 0) as i32);
    }
}
