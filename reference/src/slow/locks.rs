//! Slow implementation: the rules of held sets, refusal 8 of paper 01 and refusal 12 of request 6 of paper 02.

use super::kernel::{Kernel, LOCK, Record, Refusal, UNLOCK, refuse};
use std::collections::{BTreeMap, BTreeSet};

type Held = BTreeSet<u8>;

pub fn lock_fault(kernel: &Kernel) -> Result<(), Refusal> {
    (0..kernel.header.lanes).try_for_each(|lane| lane_lock_fault(kernel, lane))
}

pub fn lane_lock_fault(kernel: &Kernel, lane: usize) -> Result<(), Refusal> {
    let mut arriving: BTreeMap<usize, BTreeSet<Held>> = BTreeMap::from([(0, BTreeSet::from([Held::new()]))]);
    for (position, number) in kernel.chains[lane].iter().enumerate() {
        let sets: Vec<&Held> = arriving[&position].iter().collect();
        let [held] = sets[..] else { return refuse(8, *number) };
        let Some(after) = held_after(kernel.at(lane, position), held) else { return refuse(8, *number) };
        for way in kernel.ways(lane, position) {
            arriving.entry(way).or_default().insert(after.clone());
        }
    }
    match kernel.chains[lane].last() {
        Some(last) if arriving[&kernel.length(lane)].iter().any(|held| !held.is_empty()) => refuse(8, *last),
        _ => Ok(()),
    }
}

/// "LOCK needs its lock outside the set, UNLOCK inside."
fn held_after(record: Record, held: &Held) -> Option<Held> {
    let lock = Held::from([record.b]);
    match record.operation {
        LOCK => (!held.contains(&record.b)).then(|| held | &lock),
        UNLOCK => held.contains(&record.b).then(|| held - &lock),
        _ => Some(held.clone()),
    }
}

/// "lanes in order and then chain order"
pub fn lock_order(kernel: &Kernel) -> Result<(), Refusal> {
    (0..kernel.header.lanes).try_for_each(|lane| lane_lock_order(kernel, lane))
}

/// "LOCK of b is accepted only where each lock in the held set has a number below b." The lane has passed check 8.
pub fn lane_lock_order(kernel: &Kernel, lane: usize) -> Result<(), Refusal> {
    for (position, number) in kernel.chains[lane].iter().enumerate() {
        let Record { operation, b, .. } = kernel.at(lane, position);
        if operation == LOCK && !held_set(kernel, lane, position).iter().all(|held| *held < b) {
            return refuse(12, *number);
        }
    }
    Ok(())
}

/// "The held set of a record is the locks taken and not released on the way to it." By check 8 it is the same by every
/// way, and one way goes by each next.
fn held_set(kernel: &Kernel, lane: usize, position: usize) -> Held {
    let mut held = Held::new();
    for Record { operation, b, .. } in (0..position).map(|before| kernel.at(lane, before)) {
        match operation {
            LOCK => held.insert(b),
            UNLOCK => held.remove(&b),
            _ => false,
        };
    }
    held
}
