//! Slow implementation: the cookbook table of paper 01, and Placement as a search over paths.

use super::kernel::{Kernel, LOAD, LOCK, STORE, UNLOCK};
use std::collections::BTreeSet;

/// In the order in which several stand before one access.
#[derive(Clone, Copy, Debug, PartialEq, Eq, PartialOrd, Ord)]
pub enum Barrier {
    LL,
    LS,
    SS,
    SL,
}

pub const BARRIERS: [Barrier; 4] = [Barrier::LL, Barrier::LS, Barrier::SS, Barrier::SL];

#[derive(Clone, Copy, Debug, PartialEq, Eq)]
enum Class {
    PL,
    PS,
    VL,
    VS,
}

fn cell(first: Class, second: Class) -> Option<Barrier> {
    match (first, second) {
        (Class::PL, Class::VS) => Some(Barrier::LS),
        (Class::PS, Class::VS) => Some(Barrier::SS),
        (Class::VL, Class::PL) => Some(Barrier::LL),
        (Class::VL, Class::PS) => Some(Barrier::LS),
        (Class::VL, Class::VL) => Some(Barrier::LL),
        (Class::VL, Class::VS) => Some(Barrier::LS),
        (Class::VS, Class::VL) => Some(Barrier::SL),
        (Class::VS, Class::VS) => Some(Barrier::SS),
        _ => None,
    }
}

/// The class of the record there, if it is an access.
fn class(kernel: &Kernel, lane: usize, position: usize) -> Option<Class> {
    let record = kernel.at(lane, position);
    match (record.operation, kernel.volatile(record.b)) {
        (LOCK, _) | (LOAD, true) => Some(Class::VL),
        (UNLOCK, _) | (STORE, true) => Some(Class::VS),
        (LOAD, false) => Some(Class::PL),
        (STORE, false) => Some(Class::PS),
        _ => None,
    }
}

/// The barriers before each position of a lane. A barrier's place depends only on places before it.
pub fn placement(kernel: &Kernel, lane: usize) -> Vec<BTreeSet<Barrier>> {
    (0..kernel.length(lane)).fold(Vec::new(), |standing, second| {
        let here = BARRIERS.into_iter().filter(|barrier| stands(kernel, lane, *barrier, second, &standing)).collect();
        [standing, vec![here]].concat()
    })
}

/// "some path leads from an access i, whose cell with j is b, to j, and before no access strictly between .."
fn stands(kernel: &Kernel, lane: usize, barrier: Barrier, second: usize, standing: &[BTreeSet<Barrier>]) -> bool {
    let Some(later) = class(kernel, lane, second) else { return false };
    let asks = |first: &usize| class(kernel, lane, *first).and_then(|earlier| cell(earlier, later)) == Some(barrier);
    (0..second)
        .filter(asks)
        .any(|first| leads(kernel, lane, first, second, |between| standing[between].contains(&barrier)))
}

/// Whether a path leads from `first` to `second` that has nothing barred strictly between.
fn leads(kernel: &Kernel, lane: usize, first: usize, second: usize, barred: impl Fn(usize) -> bool) -> bool {
    let mut open = vec![first];
    let mut seen = BTreeSet::new();
    while let Some(position) = open.pop() {
        for way in kernel.ways(lane, position) {
            if way == second {
                return true;
            }
            if way < second && !barred(way) && seen.insert(way) {
                open.push(way);
            }
        }
    }
    false
}
