// Families of whole numbers throughout, as 01's farm model has them.
use super::parts::{comparison, density, reach, some_terms};
use super::Rng;
use crate::model::{Model, BOOLEAN, INTEGER};

// Whole numbers throughout, right sides near what the rows reach.
pub fn whole(rng: &mut Rng, most: usize) -> Model {
    let n = 1 + rng.below(most);
    let (feas, int_tol) = (rng.pick(&[1e-6, 1e-6, 0.01, 0.0]), rng.pick(&[1e-9, 0.01, 0.0]));
    let mut m = Model::new(rng.pick(&[1, 1, 1, 2]), feas, int_tol);
    for _ in 0..n {
        let (d, l) = (rng.pick(&[INTEGER, BOOLEAN]), rng.whole(-4, 3));
        let obj = rng.whole(-3, 3);
        match (d, rng.chance(80)) {
            (BOOLEAN, true) => m.var(d, 0.0, 1.0, obj),
            _ => {
                let h = l + rng.whole(0, 9);
                m.var(d, l, h, obj)
            }
        };
    }
    for _ in 0..rng.below(most + 1) {
        let p = density(rng, n);
        let t = some_terms(rng, n, p, |r| r.whole(-6, 6));
        let (lo, hi) = reach(&m, &t);
        let b = if rng.chance(50) { rng.whole(-12, 24) } else { (if rng.chance(50) { lo } else { hi }) + rng.whole(-2, 2) };
        let op = comparison(rng);
        m.row(&t, op, b);
    }
    m
}

// The limits of 01's farm model: bounds to 1,048,576, coefficients to 32,768, right sides to 1,099,511,627,776, 256 terms.
pub fn limits(rng: &mut Rng, most: usize) -> Model {
    let n = if most > 40 { 256 } else { 1 + rng.below(most) };
    let mut m = Model::new(rng.pick(&[1, 1, 2]), rng.pick(&[1e-6, 0.01, 0.0]), rng.pick(&[1e-9, 0.01, 0.0]));
    for _ in 0..n {
        let l = rng.pick(&[-1048576.0, -1048576.0, 0.0, 1048575.0, -3.0]);
        let h = f64::max(l, rng.pick(&[1048576.0, 1048576.0, 1.0, -1048575.0]));
        let (d, obj) = (rng.pick(&[INTEGER, INTEGER, BOOLEAN]), rng.whole(-32768, 32768));
        m.var(d, l, h, obj);
    }
    for _ in 0..1 + rng.below(most.min(12)) {
        let p = if rng.chance(30) { 100 } else { density(rng, n) };
        let t = some_terms(rng, n, p, |r| if r.chance(60) { r.pick(&[32768.0, -32768.0, 32767.0, 1.0, -1.0, 0.0]) } else { r.whole(-32768, 32768) });
        let (lo, hi) = reach(&m, &t);
        let b = match rng.below(5) {
            0 => rng.pick(&[1099511627776.0, -1099511627776.0]),
            1 => lo + rng.whole(-1, 1),
            2 => hi + rng.whole(-1, 1),
            3 => ((lo + hi) / 2.0).floor(),
            _ => rng.whole(-1000000, 1000000),
        };
        let op = comparison(rng);
        m.row(&t, op, b.clamp(-1099511627776.0, 1099511627776.0));
    }
    m
}
