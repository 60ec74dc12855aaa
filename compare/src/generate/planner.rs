// Planner weeks.
use super::Rng;
use crate::model::{Model, BOOLEAN, EQ, GE, INTEGER, LE};

// A week: which job uses which machine in which slot, machines open or not, minutes to spare.
pub fn planner(rng: &mut Rng, jobs: usize, slots: usize, machines: usize, booked: bool) -> Model {
    let mut m = Model::new(rng.pick(&[1, 1, 1, 2]), 1e-6, 1e-9);
    let x = |j: usize, s: usize, k: usize| (j * slots + s) * machines + k;
    for _ in 0..jobs * slots * machines {
        // a machine that is out of use, a visit that is booked
        let (l, h) = match rng.below(50) {
            0 => (0.0, 0.0),
            1 if booked => (1.0, 1.0),
            _ => (0.0, 1.0),
        };
        let obj = rng.whole(1, 9);
        m.var(BOOLEAN, l, h, obj);
    }
    let open: Vec<usize> = (0..slots * machines).map(|_| m.var(BOOLEAN, 0.0, 1.0, 5.0)).collect();
    let spare: Vec<usize> = (0..slots).map(|_| m.var(INTEGER, 0.0, 30.0, 1.0)).collect();
    let minutes: Vec<f64> = (0..jobs).map(|_| rng.whole(6, 14)).collect();
    for j in 0..jobs {
        let visits = rng.whole(1, slots.min(3) as i64);
        let all: Vec<(usize, f64)> = (0..slots * machines).map(|i| (x(j, i / machines, i % machines), 1.0)).collect();
        m.row(&all, if rng.chance(70) { EQ } else { GE }, visits);
        for s in 0..slots {
            let one: Vec<(usize, f64)> = (0..machines).map(|k| (x(j, s, k), 1.0)).collect();
            if machines > 1 {
                m.row(&one, LE, 1.0);
            }
            if s + 1 < slots && rng.chance(60) {
                // a rest between two visits
                let mut two = one.clone();
                two.extend((0..machines).map(|k| (x(j, s + 1, k), 1.0)));
                m.row(&two, LE, 1.0);
            }
        }
    }
    for s in 0..slots {
        for k in 0..machines {
            // minutes of a machine in a slot, none unless it is open
            let mut load: Vec<(usize, f64)> = (0..jobs).map(|j| (x(j, s, k), minutes[j])).collect();
            load.push((open[s * machines + k], -rng.pick(&[60.0, 120.0, 1000.0])));
            m.row(&load, LE, 0.0);
            // at most so many minutes, some to spare
            let mut cap: Vec<(usize, f64)> = (0..jobs).map(|j| (x(j, s, k), minutes[j])).collect();
            cap.push((spare[s], 1.0));
            m.row(&cap, LE, rng.pick(&[30.0, 45.0, 60.0]));
        }
        let staff: Vec<(usize, f64)> = (0..machines).map(|k| (open[s * machines + k], 1.0)).collect();
        m.row(&staff, LE, rng.whole(1, machines as i64));
    }
    m
}
