//! Tests: whose outcomes lie within whose, on random kernels of a few accesses, by search over every schedule.

use reference::litmus::assembler::assemble;
use reference::random::Random;
use reference::slow::machines::Machine;
use reference::slow::{outcomes, straight_outcomes};

const KERNELS: u64 = 3000;

/// Two lanes of two or three accesses to three locations, at times within a lock; every store has a value of its own.
fn kernel(seed: u64) -> Vec<u8> {
    let mut random = Random::new(seed);
    let mut value = 0;
    let mut access = |random: &mut Random, number: usize| {
        let location = random.pick(&["x", "y", "z"]);
        value += 1;
        let access = if random.once_in(3) { format!("r{number}={location}") } else { format!("{location}={value}") };
        if random.once_in(6) { format!("lock l; {access}; unlock l") } else { access }
    };
    let mut lane = |random: &mut Random| {
        let count = 2 + random.below(2);
        (0..count).map(|number| access(random, number)).collect::<Vec<_>>().join("; ")
    };
    let lanes = format!("{} ‖ {}", lane(&mut random), lane(&mut random));
    assemble("x y z", &lanes).unwrap().file(random.below(8) as u16)
}

/// SC within tso within pso within source, for finished runs; each is smaller than the next in some kernel.
#[test]
fn straight_within_tso_within_pso_within_source() {
    let mut smaller = [0; 3];
    for seed in 0..KERNELS {
        let file = kernel(seed);
        let [source, tso, pso] = Machine::ALL.map(|machine| outcomes(machine, &file).unwrap());
        let sets = [straight_outcomes(&file).unwrap(), tso, pso, source];
        for (count, pair) in smaller.iter_mut().zip(sets.windows(2)) {
            assert!(pair[0].is_subset(&pair[1]), "kernel {seed}");
            *count += usize::from(pair[0].len() < pair[1].len());
        }
    }
    assert!(smaller.iter().all(|count| *count > 10), "{smaller:?}");
}
