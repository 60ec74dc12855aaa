// Times the port beside the reference on the same models, in one run, one call after the other by turns.
//
//     bench/run [PICTURE]
//
// builds both and runs this. Each figure is the median of many calls (of batches of calls, where one is short), in the thread's
// own processor time, so that other work on the machine counts little. The reference is microlp 0.7.0's own text, compiled for
// release; its input is built before the clock runs, and the result it allocates is freed while it runs, as a caller would. The
// port's slices are lent once: before the first call, which is not timed, all of them hold junk; after that the working slices
// hold zeros, as each call leaves them, and the result slices what the last call wrote. Before the timing and after it the
// port's whole answer is compared with the reference's. The reference's allocations are counted; that the port has none is seen
// from what its library needs (compare/library). PICTURE is an SVG of how time grows with size.
#[path = "../compare/src/check.rs"]
#[allow(dead_code)]
mod check;
#[path = "../compare/src/generate/mod.rs"]
#[allow(dead_code)]
mod generate;
#[macro_use]
#[path = "../compare/src/input.rs"]
mod input;
#[path = "../compare/src/large.rs"]
#[allow(dead_code)]
mod large;
#[path = "../compare/src/model.rs"]
#[allow(dead_code)]
mod model;
#[path = "../compare/src/part.rs"]
mod part;
#[path = "../compare/src/port.rs"]
#[allow(dead_code)]
mod port;
#[path = "../compare/src/refer.rs"]
#[allow(dead_code)]
mod refer;
#[path = "../compare/src/refusal.rs"]
#[allow(dead_code)]
mod refusal;

use check::Check;
use generate::Rng;
use model::{Answer, Model, INTEGER, LE};
use port::Lent;
use refusal::Sizes;
use std::alloc::{GlobalAlloc, Layout, System};
use std::hint::black_box;
use std::sync::atomic::{AtomicBool, AtomicU64, Ordering::Relaxed};

#[repr(C)]
struct Timespec {
    seconds: i64,
    nanoseconds: i64,
}

extern "C" {
    fn clock_gettime(clock: i32, time: *mut Timespec) -> i32;
}

// Seconds of this thread's processor time.
fn now() -> f64 {
    const CLOCK_THREAD_CPUTIME_ID: i32 = 3;
    let mut t = Timespec { seconds: 0, nanoseconds: 0 };
    // Linux's own clock; t is lent for the call
    unsafe { clock_gettime(CLOCK_THREAD_CPUTIME_ID, &mut t) };
    t.seconds as f64 + t.nanoseconds as f64 * 1e-9
}

// The system's allocator; it counts what is asked of it while it is told to.
struct Counting;

static COUNTING: AtomicBool = AtomicBool::new(false);
static COUNT: AtomicU64 = AtomicU64::new(0);

impl Counting {
    fn count(&self) {
        if COUNTING.load(Relaxed) {
            COUNT.fetch_add(1, Relaxed);
        }
    }
}

unsafe impl GlobalAlloc for Counting {
    unsafe fn alloc(&self, l: Layout) -> *mut u8 {
        self.count();
        System.alloc(l)
    }
    unsafe fn alloc_zeroed(&self, l: Layout) -> *mut u8 {
        self.count();
        System.alloc_zeroed(l)
    }
    unsafe fn realloc(&self, p: *mut u8, l: Layout, size: usize) -> *mut u8 {
        self.count();
        System.realloc(p, l, size)
    }
    unsafe fn dealloc(&self, p: *mut u8, l: Layout) {
        System.dealloc(p, l)
    }
}

#[global_allocator]
static GLOBAL: Counting = Counting;

fn allocations(f: impl FnOnce()) -> u64 {
    COUNT.store(0, Relaxed);
    COUNTING.store(true, Relaxed);
    f();
    COUNTING.store(false, Relaxed);
    COUNT.load(Relaxed)
}

// Calls the port once on each model, and stops unless its whole answer is the reference's.
fn compare(models: &[Model], answers: &[Answer], lent: &mut [Lent]) {
    for ((m, a), s) in models.iter().zip(answers).zip(lent) {
        let before = s.clone();
        let code = port::call(m, s);
        let mut c = Check::default();
        c.answered(a, code, s, &before);
        assert!(c.wrong.is_empty(), "the answers differ:\n{}", c.wrong.join("\n"));
    }
}

struct Times {
    rust: f64,
    port: f64,
    // of each of the two
    calls: usize,
    rust_allocations: u64,
    counts: Option<[usize; 5]>,
}

fn median(x: &mut [f64]) -> f64 {
    x.sort_by(f64::total_cmp);
    x[x.len() / 2]
}

// Seconds a call of both over all the models, by turns.
fn times(models: &[Model], seconds: f64) -> Times {
    let inputs: Vec<plain::Input> = models.iter().map(input::plain_input).collect();
    let answers: Vec<Answer> = models.iter().map(refer::reference).collect();
    let mut rng = Rng::new(1);
    let mut lent: Vec<Lent> = models.iter().map(|m| Lent::junk(&mut rng, &Sizes::least(m))).collect();
    compare(models, &answers, &mut lent);
    let rust_allocations = allocations(|| inputs.iter().for_each(|i| drop(black_box(plain::run(black_box(i))))));
    let mut slices: Vec<port::Slices> = lent.iter_mut().map(Lent::slices).collect();
    let rust = |n: usize| {
        let t = now();
        for _ in 0..n {
            for i in &inputs {
                black_box(plain::run(black_box(i)));
            }
        }
        (now() - t) / (n * inputs.len()) as f64
    };
    let mut port = |n: usize| {
        let t = now();
        for _ in 0..n {
            for (m, s) in models.iter().zip(&mut slices) {
                black_box(s.call(black_box(m)));
            }
        }
        (now() - t) / (n * models.len()) as f64
    };
    // a batch takes some milliseconds
    let once = (rust(1) + port(1)) * models.len() as f64;
    let batch = ((4e-3 / once) as usize).max(1);
    let runs = ((seconds / (once * batch as f64)) as usize).clamp(51, 2001) | 1;
    let (mut a, mut b) = (Vec::new(), Vec::new());
    for _ in 0..runs {
        a.push(rust(batch));
        b.push(port(batch));
    }
    compare(models, &answers, &mut lent);
    let counts = match &answers[..] {
        [Answer::Infeasible(c)] => Some(*c),
        [Answer::Done(r)] => Some(r.counts),
        _ => None,
    };
    Times { rust: median(&mut a), port: median(&mut b), calls: runs * batch * models.len(), rust_allocations, counts }
}

fn shown(s: f64) -> String {
    if s < 1e-6 {
        format!("{:.0} ns", s * 1e9)
    } else if s < 1e-3 {
        format!("{:.2} µs", s * 1e6)
    } else {
        format!("{:.2} ms", s * 1e3)
    }
}

fn first_case() -> Model {
    let mut m = Model::new(1, 1e-6, 1e-9);
    m.var(INTEGER, 0.0, 10.0, 0.0);
    m.row(&[(0, 2.0)], LE, 7.0);
    m
}

// Planner weeks as large as a house file takes.
fn house_weeks(rng: &mut Rng) -> Vec<Model> {
    let mut all = Vec::new();
    while all.len() < 32 {
        let (jobs, slots, machines) = rng.pick(&[(8, 5, 2), (9, 4, 2), (5, 5, 3), (12, 3, 2)]);
        let m = generate::planner(rng, jobs, slots, machines, false);
        if m.vars() <= 128 && m.rows() <= 128 && m.terms() <= 512 {
            all.push(m);
        }
    }
    all
}

fn of_kind(kind: &str, part: usize) -> Model {
    let mut rng = Rng::new(1);
    match kind {
        "planner" => large::planner(&mut rng, part),
        "chain" => large::chain(part),
        _ => large::mixed(&mut rng, part),
    }
}

// How time grows: a panel for each kind, size in eighths to the right, milliseconds upward, a line for each side.
fn picture(kinds: &[(&str, Vec<(f64, f64)>)]) -> String {
    let (w, h, left, top) = (250.0, 170.0, 46.0, 34.0);
    let mut s = format!("<svg xmlns=\"http://www.w3.org/2000/svg\" viewBox=\"0 0 {:.0} 262\" font-family=\"sans-serif\" font-size=\"11\">\n", kinds.len() as f64 * (w + 60.0) + 10.0);
    s += "<rect width=\"100%\" height=\"100%\" fill=\"white\"/>\n";
    for (k, (name, times)) in kinds.iter().enumerate() {
        let x0 = left + k as f64 * (w + 60.0);
        let most = times.iter().map(|t| t.0.max(t.1)).fold(0.0, f64::max) * 1e3;
        let step = [0.1, 0.2, 0.5, 1.0, 2.0, 5.0, 10.0, 20.0, 50.0].into_iter().find(|s| most / s <= 6.0).unwrap_or(100.0);
        let high = (most / step).ceil() * step;
        let (x, y) = (|part: f64| x0 + w * part / 8.0, |ms: f64| top + h - h * ms / high);
        s += &format!("<text x=\"{:.1}\" y=\"18\" font-size=\"13\">{name}</text>\n", x0);
        let mut ms = 0.0;
        while ms <= high + step / 2.0 {
            s += &format!("<line x1=\"{:.1}\" y1=\"{:.1}\" x2=\"{:.1}\" y2=\"{:.1}\" stroke=\"#ddd\"/>\n", x0, y(ms), x0 + w, y(ms));
            s += &format!("<text x=\"{:.1}\" y=\"{:.1}\" text-anchor=\"end\">{}</text>\n", x0 - 5.0, y(ms) + 4.0, (ms * 10.0).round() / 10.0);
            ms += step;
        }
        for part in 1..=8 {
            s += &format!("<text x=\"{:.1}\" y=\"{:.1}\" text-anchor=\"middle\">{part}</text>\n", x(part as f64), top + h + 15.0);
        }
        s += &format!("<text x=\"{:.1}\" y=\"{:.1}\" text-anchor=\"middle\">eighths of the largest size; ms a call</text>\n", x0 + w / 2.0, top + h + 31.0);
        for (side, colour) in [(0, "#c0392b"), (1, "#1f6fb2")] {
            let of = |t: &(f64, f64)| 1e3 * if side == 0 { t.0 } else { t.1 };
            let points: Vec<String> = times.iter().enumerate().map(|(i, t)| format!("{:.1},{:.1}", x(i as f64 + 1.0), y(of(t)))).collect();
            s += &format!("<polyline points=\"{}\" fill=\"none\" stroke=\"{colour}\" stroke-width=\"2\"/>\n", points.join(" "));
            for p in &points {
                let (px, py) = p.split_once(',').unwrap();
                s += &format!("<circle cx=\"{px}\" cy=\"{py}\" r=\"2.5\" fill=\"{colour}\"/>\n");
            }
        }
    }
    for (i, (text, colour)) in [("Rust", "#c0392b"), ("port", "#1f6fb2")].into_iter().enumerate() {
        let x = left + 80.0 * i as f64;
        s += &format!("<line x1=\"{x:.1}\" y1=\"252\" x2=\"{:.1}\" y2=\"252\" stroke=\"{colour}\" stroke-width=\"2\"/><text x=\"{:.1}\" y=\"256\">{text}</text>\n", x + 20.0, x + 25.0);
    }
    s + "</svg>\n"
}

fn main() {
    let args: Vec<String> = std::env::args().collect();
    let seconds: f64 = std::env::var("SECONDS_EACH").ok().and_then(|s| s.parse().ok()).unwrap_or(2.0);
    println!("| Models | variables, rows, terms | Rust | port | Rust / port | calls of each | allocations a call, Rust |");
    println!("|---|---|---|---|---|---|---|");
    let line = |name: &str, models: &[Model]| {
        let t = times(models, seconds);
        let m = &models[0];
        let size = if models.len() == 1 { format!("{}, {}, {}", m.vars(), m.rows(), m.terms()) } else { format!("{} models of up to {}, {}, {}", models.len(), models.iter().map(|m| m.vars()).max().unwrap(), models.iter().map(|m| m.rows()).max().unwrap(), models.iter().map(|m| m.terms()).max().unwrap()) };
        println!("| {name} | {size} | {} | {} | {:.2} | {} | {} |", shown(t.rust), shown(t.port), t.rust / t.port, t.calls, t.rust_allocations / models.len() as u64);
        if let Some(c) = t.counts {
            eprintln!("{name}: counts {} {} {} {} {}", c[0], c[1], c[2], c[3], c[4]);
        }
    };
    for kind in ["planner", "chain", "mixed"] {
        line(&format!("{kind}, full size"), &[of_kind(kind, 8)]);
    }
    line("planner weeks, house size", &house_weeks(&mut Rng::new(1)));
    line("case 1", &[first_case()]);
    if let Some(path) = args.get(1) {
        println!("\n| Models | 1/8 | 2/8 | 3/8 | 4/8 | 5/8 | 6/8 | 7/8 | 8/8 | growth, 1/8 to 8/8 |");
        println!("|---|---|---|---|---|---|---|---|---|---|");
        let mut kinds = Vec::new();
        for kind in ["planner", "chain", "mixed"] {
            let all: Vec<(f64, f64)> = (1..=8).map(|part| times(&[of_kind(kind, part)], seconds / 4.0)).map(|t| (t.rust, t.port)).collect();
            for (side, name) in [(0, "Rust"), (1, "port")] {
                let of = |t: &(f64, f64)| if side == 0 { t.0 } else { t.1 };
                let cells: Vec<String> = all.iter().map(|t| shown(of(t))).collect();
                println!("| {kind}, {name} | {} | {:.1} times |", cells.join(" | "), of(&all[7]) / of(&all[0]));
            }
            kinds.push((kind, all));
        }
        std::fs::write(path, picture(&kinds)).expect("the picture");
    }
}
