// The replayed sample: house files, each after its length in two bytes, and what a program prints of them one after another.
// It holds 01's twelve cases, models of every family, models for every event of the coverage table, planner weeks as large as
// a house file takes, and damaged files.
use crate::cover::Cover;
use crate::damage;
use crate::generate::{self, Rng, FAMILIES};
use crate::house;
use crate::model::{Model, BOOLEAN, EQ, GE, INTEGER, LE};
use crate::refer::reference;
use crate::refusal::{refusal, Sizes};

// 01's twelve cases, in order.
pub fn twelve() -> Vec<Model> {
    let p = (INTEGER, 0.0, 10.0);
    let u = (BOOLEAN, 0.0, 1.0);
    let w = (INTEGER, 0.0, 8.0);
    let case = |mode: u8, vars: &[(u8, f64, f64)], rows: &[(&[f64], u8, f64)]| {
        let mut m = Model::new(mode, 1e-6, 1e-9);
        for v in vars {
            m.var(v.0, v.1, v.2, 0.0);
        }
        for (coeffs, cmp, rhs) in rows {
            let t: Vec<(usize, f64)> = coeffs.iter().copied().enumerate().collect();
            m.row(&t, *cmp, *rhs);
        }
        m
    };
    vec![
        case(1, &[p], &[(&[2.0], LE, 7.0)]),
        case(1, &[p], &[(&[2.0], LE, 6.0)]),
        case(1, &[p], &[(&[2.0], EQ, 7.0)]),
        case(1, &[p], &[(&[2.0], LE, 1.0)]),
        case(1, &[u, u], &[(&[1.0, 1.0], GE, 2.0)]),
        case(1, &[u, u], &[(&[1.0, 1.0], GE, 1.0)]),
        case(1, &[u, u], &[(&[1.0, 1.0], GE, 3.0)]),
        case(1, &[u, w], &[(&[3.0, 1.0], LE, 10.0)]),
        case(0, &[u, u], &[(&[1.0, 1.0], GE, 2.0)]),
        case(1, &[(INTEGER, 0.4, 0.6)], &[]),
        case(1, &[], &[(&[], LE, -1e-7)]),
        case(1, &[], &[(&[], LE, -1.0)]),
    ]
}

// A file with some bytes changed, cut or added.
fn damaged(rng: &mut Rng, m: &Model) -> Vec<u8> {
    let explicit = rng.chance(50);
    let mut b = house::file(m, explicit);
    for _ in 0..1 + rng.below(2) {
        let k = rng.below(b.len());
        match rng.below(6) {
            0 => b.truncate(k),
            1 => b.extend(std::iter::repeat(0).take(1 + rng.below(3))),
            2 if k < b.len() => b[k] ^= 1 << rng.below(8),
            3 if b.len() > 4 => {
                let at = rng.below(4);
                b[at] = rng.pick(&[129, 128, 255, 1])
            }
            4 if k < b.len() => b[k] = rng.pick(&[0xff, 0x7f, 0xf0, 0]),
            _ if k < b.len() => {
                b.remove(k);
            }
            _ => {}
        }
    }
    b
}

// A file of a model with something spoilt that 1 to 10 look at after reading.
fn spoilt(rng: &mut Rng, mut m: Model) -> Vec<u8> {
    let kind = rng.pick(&[4, 6, 7, 8, 9]);
    let mut sizes = Sizes::least(&m);
    damage::spoil(rng, kind, &mut m, &mut sizes);
    house::file(&m, true)
}

// What the program prints of a file.
fn text(bytes: &[u8]) -> String {
    match house::read(bytes) {
        Err(n) => format!("refused {n}\n"),
        Ok(m) => match refusal(&m, &Sizes::least(&m)) {
            0 => house::printed(&reference(&m)),
            n => format!("refused {n}\n"),
        },
    }
}

// Files one after another, each after its length, and what is printed of them.
fn together(files: &[Vec<u8>]) -> (Vec<u8>, String) {
    let (mut blob, mut out) = (Vec::new(), String::new());
    for (i, b) in files.iter().enumerate() {
        blob.extend((b.len() as u16).to_le_bytes());
        blob.extend(b);
        out += &format!("file {i}\n{}", text(b));
    }
    (blob, out)
}

// The refusals that a file can have. The reader makes slices that agree, starts and codes that are right, within the maxima and
// in enough space, and with at most 128 variables no row is long where indices rise: so a file is never refused with 1, 2, 3, 5, 10 or 18.
const OF_FILES: [usize; 9] = [4, 6, 7, 8, 9, 11, 12, 13, 14];

// The number that a text refuses with, or 0.
fn refused(text: &str) -> usize {
    text.strip_prefix("refused ").map_or(0, |n| n.trim_end().parse().expect("a number"))
}

// A printed text by its files: what stands before the first, and then each with its number.
fn parts(text: &str) -> Vec<&str> {
    text.split("file ").collect()
}

// N files, good and damaged by turns, through the program of crates/replay: how many it answered right. What it prints besides
// is a failure, and so is a refusal that none of the files had.
pub fn through(program: &str, seed: u64, n: usize) -> (usize, usize) {
    let (mut passed, mut failed) = (0, 0);
    let mut met = [0; 19];
    let mut k = 0;
    while passed + failed < n {
        let mut files = Vec::new();
        while files.len() < 500 {
            let mut rng = Rng::new(seed.wrapping_mul(1 << 44).wrapping_add(k));
            let most = rng.pick(&[3, 4, 6, 9, 24]);
            let m = generate::model(&mut rng, k as usize / 2 % FAMILIES.len(), most);
            k += 1;
            if house::fits(&m) {
                let explicit = rng.chance(30);
                files.push(match k % 8 {
                    0 => spoilt(&mut rng, m),
                    2 | 4 | 6 => damaged(&mut rng, &m),
                    _ => house::file(&m, explicit),
                });
            }
        }
        let (blob, expected) = together(&files);
        let printed = piped(program, blob);
        let (want, got) = (parts(&expected), parts(&printed));
        for i in 1..want.len() {
            met[refused(want[i].split_once('\n').map_or("", |x| x.1))] += 1;
            if got.get(i) == Some(&want[i]) {
                passed += 1;
            } else {
                failed += 1;
                eprintln!("{:02x?}\nexpected file {}got {:?}", files[i - 1], want[i], got.get(i));
            }
        }
        if got[0] != want[0] {
            failed += 1;
            eprintln!("before the first file: {:?}", got[0]);
        }
        if got.len() != want.len() {
            failed += 1;
            eprintln!("{} files were answered, of {}", got.len() - 1, want.len() - 1);
        }
    }
    let line: Vec<String> = OF_FILES.iter().map(|&k| format!("{k}: {}", met[k])).collect();
    println!("answered files: {}; refused files: {}", met[0], line.join(", "));
    for k in (1..19).filter(|k| OF_FILES.contains(k) != (met[*k] > 0)) {
        failed += 1;
        println!("refused with {k}: {}", if met[k] > 0 { "met, though no file can be" } else { "never met" });
    }
    (passed, failed)
}

fn piped(program: &str, input: Vec<u8>) -> String {
    use std::io::{Read, Write};
    use std::process::{Command, Stdio};
    let mut child = Command::new(program).stdin(Stdio::piped()).stdout(Stdio::piped()).spawn().expect("the program runs");
    let mut stdin = child.stdin.take().unwrap();
    let writer = std::thread::spawn(move || stdin.write_all(&input));
    let mut out = String::new();
    child.stdout.take().unwrap().read_to_string(&mut out).expect("text");
    writer.join().unwrap().ok();
    child.wait().ok();
    out
}

pub fn write(seed: u64, n: usize, folder: &str) {
    let mut files: Vec<Vec<u8>> = twelve().iter().map(|m| house::file(m, false)).collect();
    // house-size weeks
    for k in 0..8 {
        let mut rng = Rng::new(seed.wrapping_mul(1 << 42) + k);
        let (jobs, slots, machines) = rng.pick(&[(8, 5, 2), (9, 4, 2), (5, 5, 3), (12, 3, 2), (7, 7, 1)]);
        let mut m = generate::planner(&mut rng, jobs, slots, machines, k % 4 == 3);
        while !house::fits(&m) {
            // as many rows as the file takes
            let r = m.rows() - 1;
            m.starts.pop();
            let upto = m.starts[r];
            m.index.truncate(upto);
            m.coeff.truncate(upto);
            m.cmp.pop();
            m.rhs.pop();
        }
        files.push(house::file(&m, k % 2 == 1));
    }
    // each family in turn; a model is taken where something happens in it that few taken models have, or to fill up
    let mut cover = Cover::new();
    let mut k = 0;
    let mut fill = 0;
    while files.len() < n {
        let mut rng = Rng::new(seed.wrapping_mul(1 << 40).wrapping_add(k));
        let family = k as usize % FAMILIES.len();
        let most = rng.pick(&[3, 4, 6, 9]);
        let m = generate::model(&mut rng, family, most);
        k += 1;
        if !house::fits(&m) || m.terms() > 60 || refusal(&m, &Sizes::least(&m)) != 0 {
            continue;
        }
        let rare = cover.rare(4, || {
            reference(&m);
        });
        let due = fill < n / 2 && k as usize / FAMILIES.len() >= fill / FAMILIES.len();
        if rare || due || k > 200_000 {
            fill += (!rare) as usize;
            let explicit = rng.chance(20);
            files.push(house::file(&m, explicit));
        }
    }
    // damaged files, three for each refusal that a file can have and more
    let mut got = [0; 15];
    let mut k = 0;
    while files.len() < n + n / 5 && k < 1_000_000 {
        let mut rng = Rng::new(seed.wrapping_mul(1 << 43).wrapping_add(k));
        let m = generate::model(&mut rng, k as usize % FAMILIES.len(), 3);
        k += 1;
        if !house::fits(&m) || m.terms() > 30 {
            continue;
        }
        let b = damaged(&mut rng, &m);
        let number = match house::read(&b) {
            Err(n) => n,
            Ok(m) => refusal(&m, &Sizes::least(&m)),
        } as usize;
        if number != 0 && got[number] < n / 40 {
            got[number] += 1;
            files.push(b);
        }
    }
    let (blob, out) = together(&files);
    std::fs::create_dir_all(folder).expect("a folder to write to");
    std::fs::write(format!("{folder}/stdin"), &blob).expect("stdin");
    std::fs::write(format!("{folder}/stdout"), &out).expect("stdout");
    println!("{} files, {} bytes; expected text {} bytes; refusals {:?}", files.len(), blob.len(), out.len(), got);
    for e in cover.never() {
        println!("not in the sample: {e}");
    }
}
