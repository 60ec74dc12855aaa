// The comparison with the Rust. See compare/README.md; commands, of which all to one call the library:
//   compare all [SEED [N]]            everything below; N models of the families (default 1,000,000); last line 'N passed, M failed'
//   compare families SEED N [FAMILY]  N random models, of one family or of each in turn
//   compare fixings SEED N            N small farm models with dual fixing on
//   compare short                     all short models of four kinds
//   compare refusals SEED N           N damaged calls, and calls past the maxima
//   compare plans SEED N              N plans on models of the families, on damaged calls, and of one value alone
//   compare limits SEED               models at the largest sizes, and of no size
//   compare one FILE                  a saved model, the smallest of its file: both answers
//   compare file                      a house file on standard input: what is to be printed of it
//   compare sample SEED N FOLDER      N models as house files and what the program prints of them, for crates/replay
//   compare files PROGRAM SEED N      N house files, good and damaged, through the program of crates/replay
//   compare selftest                  a stand-in and points that are right, then wrong in one way after another: each must be found
//   compare antt SEED N [FAMILY]      N small models and the reference's answers, as theorems that the definition computes
mod antt;
mod check;
mod cover;
mod damage;
mod exact;
#[cfg(not(port))]
mod faulty;
mod generate;
mod house;
#[macro_use]
mod input;
mod large;
mod listed;
mod model;
mod part;
mod plan;
mod plans;
mod points;
mod port;
mod refer;
mod refusal;
mod run;
mod sample;
mod short;
mod shrink;
mod table;

use generate::{Rng, FAMILIES};
use model::Model;
use refer::reference;
use refusal::Sizes;
use run::Run;

fn show(m: &Model) {
    let a = reference(m);
    print!("the reference:\n{}", house::printed(&a));
    let mut s = port::Lent::zeros(&Sizes::least(m));
    let code = port::call(m, &mut s);
    println!("the port: {code}\n{:?}", s.slices());
}

// The stand-in as it is must pass, and in each wrong way be found; so must the points of answers. Exact sums must be right.
#[cfg(not(port))]
fn selftest() -> ! {
    use std::sync::atomic::Ordering::Relaxed;
    let (mut passed, mut failed) = (0, 0);
    let mut is = |right: bool| if right { passed += 1 } else { failed += 1 };
    let ways = [(usize::MAX, "no fault")].into_iter().chain(port::FAULTS.into_iter().enumerate());
    for (k, name) in ways {
        port::FAULT.store(k, Relaxed);
        let mut run = Run::new(false);
        run.families(1, 4000, None);
        run.refusals(1, 4000);
        run.fixings(1, 1000);
        println!("{name}: found {} times in {} calls", run.seen.failed, run.seen.passed + run.seen.failed);
        is((run.seen.failed > 0) == (k < port::FAULTS.len()));
    }
    let ways = [(usize::MAX, "no fault")].into_iter().chain(plan::FAULTS.into_iter().enumerate());
    for (k, name) in ways {
        plan::FAULT.store(k, Relaxed);
        let mut plans = plans::Plans::new();
        plans.many(1, 40_000);
        println!("plans, {name}: found {} times in {}", plans.failed, plans.passed + plans.failed);
        is((plans.failed > 0) == (k < plan::FAULTS.len()));
    }
    for (name, way) in faulty::WAYS {
        let found = faulty::found(way, 4000);
        println!("points, {name}: found {found} times in 4000 models");
        is(found > 0);
    }
    is(exact::selftest());
    println!("{passed} passed, {failed} failed");
    std::process::exit((failed > 0) as i32);
}

#[cfg(port)]
fn selftest() -> ! {
    eprintln!("compare: selftest is for a build without the library: compare/run selftest");
    std::process::exit(2);
}

// Stops unless the library is called: the stand-in held against the reference would say nothing of the port.
fn needs_library() {
    if !cfg!(port) {
        eprintln!("compare: built without the library: compare/run builds with it");
        std::process::exit(2);
    }
}

fn main() {
    let args: Vec<String> = std::env::args().collect();
    let number = |i: usize, d: u64| args.get(i).and_then(|s| s.parse().ok()).unwrap_or(d);
    let seed = number(2, 1);
    let command = args.get(1).map_or("", |s| s.as_str());
    if ["all", "families", "fixings", "short", "refusals", "plans", "limits", "one"].contains(&command) {
        needs_library();
    }
    match command {
        "all" => {
            let mut run = Run::new(true);
            run.short();
            run.families(seed, number(3, 1_000_000), None);
            run.fixings(seed, number(3, 1_000_000) / 10);
            run.refusals(seed, number(3, 1_000_000) / 5);
            run.limits(seed);
            run.plans(seed, number(3, 1_000_000));
            run.finish();
        }
        "families" => {
            let mut run = Run::new(true);
            run.families(seed, number(3, 1000), args.get(4).and_then(|s| s.parse().ok()));
            run.finish();
        }
        "fixings" => {
            let mut run = Run::new(true);
            run.fixings(seed, number(3, 1000));
            run.finish();
        }
        "short" => {
            let mut run = Run::new(true);
            run.short();
            run.finish();
        }
        "refusals" => {
            let mut run = Run::new(true);
            run.refusals(seed, number(3, 1000));
            run.finish();
        }
        "plans" => {
            let mut plans = plans::Plans::new();
            plans.many(seed, number(3, 1000));
            print!("{}", plans.told());
            println!("{} passed, {} failed", plans.passed, plans.failed);
            std::process::exit((plans.failed > 0) as i32);
        }
        "limits" => {
            let mut run = Run::new(true);
            run.limits(seed);
            run.finish();
        }
        "one" => show(&Model::from_text(&std::fs::read_to_string(&args[2]).expect("a saved model"))),
        "file" => {
            let mut bytes = Vec::new();
            std::io::Read::read_to_end(&mut std::io::stdin(), &mut bytes).expect("standard input");
            let text = match house::read(&bytes) {
                Err(n) => format!("refused {n}\n"),
                Ok(m) => match refusal::refusal(&m, &Sizes::least(&m)) {
                    0 => house::printed(&reference(&m)),
                    n => format!("refused {n}\n"),
                },
            };
            print!("{text}");
        }
        "sample" => sample::write(seed, number(3, 300) as usize, &args[4]),
        "files" => {
            let (passed, failed) = sample::through(&args[2], number(3, 1), number(4, 10_000) as usize);
            println!("{passed} passed, {failed} failed");
            std::process::exit((failed > 0) as i32);
        }
        "selftest" => selftest(),
        "antt" => {
            for k in 0..number(3, 8) {
                let mut rng = Rng::new(seed.wrapping_mul(1 << 40).wrapping_add(k));
                let family = number(4, k % FAMILIES.len() as u64) as usize;
                let m = generate::model(&mut rng, family, 3);
                let a = reference(&m);
                println!("model-{k} : presolve ({}) ≡ {}", antt::model_text(&m), antt::answer_text(&a));
                println!("unfolding everything\nmodel-{k} = refl\n");
            }
        }
        _ => {
            eprintln!("usage: compare all|families|fixings|short|refusals|plans|limits|one|file|sample|files|selftest|antt ..");
            std::process::exit(2);
        }
    }
}
