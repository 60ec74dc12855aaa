// 01's model file and printed result, written from the paper: a second encoder and printer.
use crate::model::{Answer, Model, BOOLEAN};

// The upper bound that a file leaves out, by 02's W6: 1 of a Boolean, none of the others.
fn absent_upper(domain: u8) -> f64 {
    if domain == BOOLEAN { 1.0 } else { f64::INFINITY }
}

// The bytes of a model file. What equals its default is left out, unless `explicit`.
pub fn file(m: &Model, explicit: bool) -> Vec<u8> {
    let mut b = Vec::new();
    b.extend((m.vars() as u16).to_le_bytes());
    b.extend((m.rows() as u16).to_le_bytes());
    b.extend(m.feas.to_bits().to_le_bytes());
    b.extend(m.int_tol.to_bits().to_le_bytes());
    b.push(m.mode);
    for v in 0..m.vars() {
        let parts = [(m.obj[v], 0.0f64), (m.lower[v], 0.0), (m.upper[v], absent_upper(m.domain[v]))];
        let present = |k: usize| explicit || parts[k].0.to_bits() != parts[k].1.to_bits();
        let map = (0..3).map(|k| (present(k) as u8) << k).sum::<u8>() | m.domain[v] << 3;
        b.push(map);
        for k in (0..3).filter(|&k| present(k)) {
            b.extend(parts[k].0.to_bits().to_le_bytes());
        }
    }
    for r in 0..m.rows() {
        let present = explicit || m.rhs[r].to_bits() != 0;
        b.push(m.cmp[r] | (present as u8) << 2);
        if present {
            b.extend(m.rhs[r].to_bits().to_le_bytes());
        }
        let t = m.row_terms(r);
        b.extend((t.len() as u16).to_le_bytes());
        for (v, a) in t {
            b.extend((v as u16).to_le_bytes());
            b.extend(a.to_bits().to_le_bytes());
        }
    }
    b
}

pub fn fits(m: &Model) -> bool {
    m.vars() <= 128 && m.rows() <= 128 && m.terms() <= 512
}

fn hex(x: f64) -> String {
    format!("{:016x}", if x.is_nan() { 0x7ff8_0000_0000_0000 } else { x.to_bits() })
}

// The printed result.
pub fn printed(a: &Answer) -> String {
    let counts = |c: &[usize; 5]| format!("counts {} {} {} {} {}\n", c[0], c[1], c[2], c[3], c[4]);
    match a {
        Answer::Infeasible(c) => format!("answer infeasible\n{}", counts(c)),
        Answer::Done(r) => {
            let mut s = format!("answer {}\n{}", if r.flag { "reduced" } else { "unchanged" }, counts(&r.counts));
            for v in 0..r.lower.len() {
                s += &format!("bound {v} {} {}\n", hex(r.lower[v]), hex(r.upper[v]));
            }
            for e in &r.emitted {
                if e.rewritten {
                    s += &format!("emit {} rewritten {}\n", e.row, hex(e.rhs));
                    for &(v, a) in &r.terms[e.from..e.upto] {
                        s += &format!("term {v} {}\n", hex(a));
                    }
                } else {
                    s += &format!("emit {} written\n", e.row);
                }
            }
            for k in &r.kept {
                s += &format!("validate {k}\n");
            }
            s
        }
    }
}

// A second reader, written from 01: the model, or the refusal 11 to 14.
pub fn read(bytes: &[u8]) -> Result<Model, u8> {
    let mut at = 0;
    let mut take = |n: usize| -> Result<Vec<u8>, u8> {
        let part = bytes.get(at..at + n).ok_or(11u8)?;
        at += n;
        Ok(part.to_vec())
    };
    let count = |b: Vec<u8>| u16::from_le_bytes([b[0], b[1]]) as usize;
    let float = |b: Vec<u8>| f64::from_bits(u64::from_le_bytes(b.try_into().unwrap()));
    let vars = count(take(2)?);
    if vars > 128 {
        return Err(14);
    }
    let rows = count(take(2)?);
    if rows > 128 {
        return Err(14);
    }
    let mut m = Model::new(0, float(take(8)?), float(take(8)?));
    m.mode = take(1)?[0];
    if m.mode > 2 {
        return Err(12);
    }
    for _ in 0..vars {
        let map = take(1)?[0];
        if map >> 5 != 0 || map >> 3 & 3 > 2 {
            return Err(12);
        }
        let mut part = |bit: u8, default: f64| if map >> bit & 1 == 1 { take(8).map(float) } else { Ok(default) };
        let (obj, lower, upper) = (part(0, 0.0)?, part(1, 0.0)?, part(2, absent_upper(map >> 3 & 3))?);
        m.var(map >> 3 & 3, lower, upper, obj);
    }
    for _ in 0..rows {
        let map = take(1)?[0];
        if map >> 3 != 0 || map & 3 > 2 {
            return Err(12);
        }
        let rhs = if map >> 2 & 1 == 1 { float(take(8)?) } else { 0.0 };
        let n = count(take(2)?);
        if m.terms() + n > 512 {
            return Err(14);
        }
        let mut t = Vec::new();
        for _ in 0..n {
            t.push((count(take(2)?), float(take(8)?)));
        }
        m.row(&t, map & 3, rhs);
    }
    if at < bytes.len() {
        return Err(13);
    }
    Ok(m)
}
