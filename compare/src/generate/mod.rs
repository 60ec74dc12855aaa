// Random models by family, from a seed: the same seed gives the same models.
mod binaries;
mod edges;
pub mod fixings;
mod numbers;
mod overflows;
mod parts;
mod planner;
mod rng;
mod waves;
mod whole;

pub use planner::planner;
pub use rng::Rng;

use crate::model::Model;

pub const FAMILIES: [&str; 19] = [
    "farm", "farm limits", "lp", "mixed", "binary", "big-m", "big-m wild", "dual", "wild", "zeros", "chain", "planner", "sliver", "edge", "rounds", "long", "last fold",
    "given back", "overflow",
];

// A model of the family with at most so many variables and rows.
pub fn model(rng: &mut Rng, family: usize, most: usize) -> Model {
    match FAMILIES[family] {
        "farm" => whole::whole(rng, most),
        "farm limits" => whole::limits(rng, most),
        "lp" => numbers::numbers(rng, most, 0, false),
        "mixed" => {
            let k = parts::mode(rng);
            numbers::numbers(rng, most, k, false)
        }
        "binary" => binaries::binary(rng, most),
        "big-m" => binaries::big_m(rng, most, false),
        "big-m wild" => binaries::big_m(rng, most, true),
        "dual" => waves::dual(rng, most),
        "wild" => {
            let k = parts::mode(rng);
            numbers::numbers(rng, most, k, true)
        }
        "zeros" => numbers::zeros(rng, most),
        "chain" => waves::chain(rng, most),
        "planner" => {
            let (jobs, slots, machines) = (1 + rng.below(most.min(6)), 1 + rng.below(5), 1 + rng.below(3));
            let booked = rng.chance(40);
            planner(rng, jobs, slots, machines, booked)
        }
        "sliver" => edges::sliver(rng, most),
        "edge" => edges::edge(rng, most),
        "rounds" => waves::rounds(rng, most),
        "long" => binaries::long_rows(rng),
        "last fold" => waves::last_fold(rng),
        "given back" => overflows::given_back(rng, most),
        "overflow" => overflows::overflow(rng, most),
        _ => unreachable!(),
    }
}
