// A model as a call hands it in, and an answer as it comes back, both flat.

#[derive(Clone, Debug, Default)]
pub struct Model {
    pub obj: Vec<f64>,
    pub lower: Vec<f64>,
    pub upper: Vec<f64>,
    pub domain: Vec<u8>,
    pub starts: Vec<usize>,
    pub index: Vec<usize>,
    pub coeff: Vec<f64>,
    pub cmp: Vec<u8>,
    pub rhs: Vec<f64>,
    pub mode: u8,
    pub feas: f64,
    pub int_tol: f64,
}

pub const INTEGER: u8 = 0;
pub const REAL: u8 = 1;
pub const BOOLEAN: u8 = 2;
pub const EQ: u8 = 0;
pub const LE: u8 = 1;
pub const GE: u8 = 2;

impl Model {
    // No variables and no rows yet.
    pub fn new(mode: u8, feas: f64, int_tol: f64) -> Self {
        Model { starts: vec![0], mode, feas, int_tol, ..Model::default() }
    }
    pub fn vars(&self) -> usize {
        self.obj.len()
    }
    pub fn rows(&self) -> usize {
        self.rhs.len()
    }
    pub fn terms(&self) -> usize {
        self.index.len()
    }
    pub fn var(&mut self, domain: u8, lower: f64, upper: f64, obj: f64) -> usize {
        self.domain.push(domain);
        self.lower.push(lower);
        self.upper.push(upper);
        self.obj.push(obj);
        self.obj.len() - 1
    }
    // Terms with rising indices.
    pub fn row(&mut self, terms: &[(usize, f64)], cmp: u8, rhs: f64) {
        for &(v, a) in terms {
            self.index.push(v);
            self.coeff.push(a);
        }
        self.starts.push(self.index.len());
        self.cmp.push(cmp);
        self.rhs.push(rhs);
    }
    // The same, from terms in any order; of twins the first stays.
    pub fn row_of(&mut self, terms: &[(usize, f64)], cmp: u8, rhs: f64) {
        let mut t = terms.to_vec();
        t.sort_by_key(|x| x.0);
        t.dedup_by_key(|x| x.0);
        self.row(&t, cmp, rhs);
    }
    pub fn row_terms(&self, r: usize) -> Vec<(usize, f64)> {
        (self.starts[r]..self.starts[r + 1]).map(|t| (self.index[t], self.coeff[t])).collect()
    }
    // Whether presolve rounds the variable's bounds: in Mip, of every domain but Real.
    pub fn rounds(&self, v: usize) -> bool {
        self.mode > 0 && self.domain[v] != REAL
    }
    // 01's farm model: whole numbers throughout, within its limits.
    pub fn is_whole(&self) -> bool {
        let whole = |x: f64, most: f64| x.fract() == 0.0 && x.abs() <= most;
        self.mode > 0
            && self.domain.iter().all(|&d| d != REAL)
            && self.lower.iter().chain(&self.upper).all(|&x| whole(x, 1048576.0))
            && self.coeff.iter().all(|&x| whole(x, 32768.0))
            && self.rhs.iter().all(|&x| whole(x, 1099511627776.0))
            && self.starts.windows(2).all(|w| w[1] - w[0] <= 256)
            && self.feas <= 0.01
            && self.int_tol <= 0.01
    }
    // Of any size: no limit of the farm model is on the objective.
    pub fn whole_objective(&self) -> bool {
        self.obj.iter().all(|c| c.fract() == 0.0)
    }

    // The same numbers, bit for bit.
    pub fn same(&self, other: &Model) -> bool {
        let floats = |m: &Model| -> Vec<u64> { [&m.obj, &m.lower, &m.upper, &m.coeff, &m.rhs, &vec![m.feas, m.int_tol]].iter().flat_map(|x| x.iter().map(|x| x.to_bits())).collect() };
        floats(self) == floats(other) && self.domain == other.domain && self.starts == other.starts && self.index == other.index && self.cmp == other.cmp && self.mode == other.mode
    }

    // As text, floats by their bits with the decimal beside, for models that are saved.
    pub fn to_text(&self) -> String {
        let f = |x: f64| format!("{:016x} ({:e})", x.to_bits(), x);
        let mut s = format!("model mode {} feas {} int_tol {}\n", self.mode, f(self.feas), f(self.int_tol));
        for v in 0..self.vars() {
            s += &format!("var domain {} lower {} upper {} obj {}\n", self.domain[v], f(self.lower[v]), f(self.upper[v]), f(self.obj[v]));
        }
        for r in 0..self.rows() {
            s += &format!("row cmp {} rhs {}\n", self.cmp[r], f(self.rhs[r]));
            for (v, a) in self.row_terms(r) {
                s += &format!("term {} {}\n", v, f(a));
            }
        }
        s
    }
    // The last model of a text.
    pub fn from_text(text: &str) -> Self {
        let mut m = Model::new(0, 0.0, 0.0);
        let mut open = false;
        for line in text.lines() {
            let w: Vec<&str> = line.split_whitespace().filter(|w| !w.starts_with('(')).collect();
            let bits = |i: usize| f64::from_bits(u64::from_str_radix(w[i], 16).expect("16 hexadecimal digits"));
            let number = |i: usize| w[i].parse::<usize>().expect("a number");
            match w.first().copied() {
                Some("model") if w.len() == 7 => {
                    m = Model::new(number(2) as u8, bits(4), bits(6));
                    open = false;
                }
                Some("var") => {
                    m.var(number(2) as u8, bits(4), bits(6), bits(8));
                }
                Some("row") => {
                    m.cmp.push(number(2) as u8);
                    m.rhs.push(bits(4));
                    m.starts.push(m.index.len());
                    open = true;
                }
                Some("term") if open => {
                    m.index.push(number(1));
                    m.coeff.push(bits(2));
                    *m.starts.last_mut().unwrap() += 1;
                }
                _ => {}
            }
        }
        m
    }
}

#[derive(Clone, Debug)]
pub struct Emit {
    pub row: usize,
    pub rewritten: bool,
    pub rhs: f64,
    pub from: usize,
    pub upto: usize,
}

#[derive(Clone, Debug)]
pub struct Reduced {
    pub counts: [usize; 5],
    pub lower: Vec<f64>,
    pub upper: Vec<f64>,
    pub emitted: Vec<Emit>,
    pub terms: Vec<(usize, f64)>,
    pub kept: Vec<usize>,
    pub flag: bool,
}

#[derive(Clone, Debug)]
pub enum Answer {
    Infeasible([usize; 5]),
    Done(Reduced),
}

impl Answer {
    pub fn counts(&self) -> &[usize; 5] {
        match self {
            Answer::Infeasible(counts) => counts,
            Answer::Done(r) => &r.counts,
        }
    }
}
