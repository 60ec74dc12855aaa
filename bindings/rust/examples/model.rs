//! Presolves 3u + w <= 10, u yes or no, w a whole number from 0 to 8, and prints the reduced model; then what is infeasible and
//! what is refused. `cargo run --example model` prints what examples/model.out, beside this file, holds.
use presolve::{Comparison, Domain, Model, Presolved};

fn show(name: &str, model: &Model) {
    match model.presolve() {
        Err(refusal) => println!("{name}: {refusal}"),
        Ok(Presolved::Infeasible(counts)) => println!("{name}: infeasible, {} passes", counts.passes),
        Ok(Presolved::Done(found)) => {
            println!("{name}: {}", if found.reduced { "reduced" } else { "unchanged" });
            for (v, (lower, upper)) in found.lower.iter().zip(&found.upper).enumerate() {
                println!("  variable {v} from {} to {upper}", lower + 0.0);
            }
            for row in &found.rows {
                let mark = if row.rewritten { ", rewritten" } else { "" };
                println!("  row {}{mark}: {:?}, right side {}", row.number, row.terms, row.rhs);
            }
            for row in &found.kept {
                println!("  row {row} is to be checked as it was written");
            }
        }
    }
}

fn main() {
    let mut model = Model::default();
    let u = model.variable(Domain::Boolean, 0.0, 1.0, 0.0);
    let w = model.variable(Domain::Integer, 0.0, 8.0, 0.0);
    model.row(&[(u, 3.0), (w, 1.0)], Comparison::Le, 10.0);
    show("3u + w <= 10", &model);

    let mut none = model.clone();
    none.cmp[0] = Comparison::Ge;
    none.rhs[0] = 12.0;
    show("3u + w >= 12", &none);

    let mut wrong = model.clone();
    wrong.int_tol = 0.51;
    show("int_tol 0.51", &wrong);
    wrong.lower.pop();
    show("and a lower bound too few", &wrong);
    show("nothing at all", &Model::default());

    for plan in [[1.0, 7.0], [1.0, 8.0], [1.0, 9.0], [0.5, 8.0], [f64::NAN, 8.0]] {
        match model.check(&plan) {
            Err(refusal) => println!("{plan:?}: {refusal}"),
            Ok(check) => println!("{plan:?}: {:?}, excursion {}", check.verdict, check.excursion),
        }
    }
}
