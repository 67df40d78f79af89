//! Benchmark of lowering kernels of one kind of record, four lanes of 64: volatile accesses, locks, and SKIPs between.

use super::{KERNELS, each_level};
use reference::random::{Random, numbered};
use reference::slow::kernel::{LOAD, LOCK, SKIP, STORE, UNLOCK};
use reference::writer::{Draft, Step};

const LANE: usize = 64;

type Lane = fn(&mut Random) -> Vec<Step>;

pub fn worst(rounds: usize) {
    let kinds: [(&str, u16, Lane); 3] =
        [("all volatile", 0xffff, accesses), ("all locks", 0, locks), ("dense skips", 0x00ff, skips)];
    for (kind, mask, lane) in kinds {
        let files: Vec<Vec<u8>> = (0..KERNELS).map(|seed| kernel(seed as u64, mask, lane)).collect();
        each_level(rounds, &format!("256 records, {kind}"), &files);
    }
}

/// Records shuffled, 16 locations and four locks.
fn kernel(seed: u64, mask: u16, lane: Lane) -> Vec<u8> {
    let mut random = Random::new(seed);
    let lanes = (0..4).map(|_| lane(&mut random)).collect();
    numbered(&mut random, &Draft { locations: 16, locks: 4, mask, lanes })
}

fn accesses(random: &mut Random) -> Vec<Step> {
    (0..LANE).map(|_| access(random)).collect()
}

fn access(random: &mut Random) -> Step {
    let operation = random.pick(&[LOAD, STORE]);
    Step { operation, a: random.below(8) as u8, b: random.below(16) as u8, ..Step::default() }
}

/// Each lock is released at once.
fn locks(random: &mut Random) -> Vec<Step> {
    let taken = (0..LANE / 2).map(|_| random.below(4) as u8);
    taken.flat_map(|b| [LOCK, UNLOCK].map(|operation| Step { operation, b, ..Step::default() })).collect()
}

/// Behind each access a SKIP to anywhere later or to the end.
fn skips(random: &mut Random) -> Vec<Step> {
    let mut chain = accesses(random);
    for position in (1..LANE).step_by(2) {
        let target = Some(position + 1 + random.below(LANE - position));
        chain[position] = Step { operation: SKIP, a: random.below(8) as u8, target, ..Step::default() };
    }
    chain
}
