// A model in the types of the reference's crates.
use crate::model::Model;

#[macro_export]
macro_rules! input {
    ($to:ident, $m:expr) => {{
        let m: &$crate::model::Model = $m;
        $to::Input {
            obj: m.obj.clone(),
            lower: m.lower.clone(),
            upper: m.upper.clone(),
            domains: m.domain.iter().map(|&d| [$to::VarDomain::Integer, $to::VarDomain::Real, $to::VarDomain::Boolean][d as usize]).collect(),
            rows: (0..m.rows())
                .map(|r| {
                    let span = m.starts[r]..m.starts[r + 1];
                    let op = [$to::ComparisonOp::Eq, $to::ComparisonOp::Le, $to::ComparisonOp::Ge][m.cmp[r] as usize];
                    ($to::CsVec::new(m.index[span.clone()].to_vec(), m.coeff[span].to_vec()), op, m.rhs[r])
                })
                .collect(),
            mip: m.mode != 0,
            dual: m.mode == 2,
            feas: m.feas,
            int_tol: m.int_tol,
        }
    }};
}

pub fn plain_input(m: &Model) -> plain::Input {
    input!(plain, m)
}
