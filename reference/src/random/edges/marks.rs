//! Edges of the pso machine: marks at the ends of a full list and about its middle, between stores to one location and
//! before releases, and SS where nothing is pending.

use super::{Edge, Numbered, put, skip, small, step};
use crate::slow::kernel::{LOCK, STORE, UNLOCK};
use crate::writer::{Draft, Step};

/// The one volatile location of a full list.
const VOLATILE: u8 = 15;

pub fn edges() -> Vec<Edge> {
    [lists(), places()].into_iter().flatten().collect()
}

/// A lane of 64 stores. SS stands before each volatile one but the first, so that its mark is behind the entry before.
fn lists() -> Vec<Edge> {
    let full = |name: &str, volatile: fn(usize) -> bool| {
        Edge::new(name, 0, move |random| {
            let lanes = 1 + random.below(4);
            let mut draft = Draft { locations: 16, locks: 0, mask: 1 << VOLATILE, lanes: vec![vec![]; lanes] };
            let stores = (0..64).map(|at| step(STORE, 1, if volatile(at) { VOLATILE } else { at as u8 % VOLATILE }));
            draft.lanes[random.below(lanes)] = stores.collect();
            (Numbered::new(random, &draft).file, 0)
        })
    };
    vec![
        full("64 stores, no mark", |_| false),
        full("64 stores, a mark behind the first", |at| at == 1),
        full("64 stores, a mark behind the 31st", |at| at == 31),
        full("64 stores, a mark behind the 32nd", |at| at == 32),
        full("64 stores, a mark behind the 63rd", |at| at == 63),
        full("64 stores, marks behind the 31st, 32nd and 63rd", |at| matches!(at, 31 | 32 | 63)),
        full("64 stores, a mark behind each but the last", |_| true),
    ]
}

/// Location 0 is volatile, locations 1 and 2 are plain.
fn places() -> Vec<Edge> {
    let (lock, unlock, lock1, unlock1) = (step(LOCK, 0, 0), step(UNLOCK, 0, 0), step(LOCK, 0, 1), step(UNLOCK, 0, 1));
    let (volatile, plain, other) = (step(STORE, 1, 0), step(STORE, 2, 1), step(STORE, 3, 2));
    let among = |name: &str, steps: &[Step]| {
        let steps = steps.to_vec();
        Edge::new(name, 0, move |random| {
            let lanes = 1 + random.below(4);
            let mut draft = small(random, lanes);
            draft.locations = draft.locations.max(3);
            draft.mask = draft.mask & !6 | 1;
            put(random, &mut draft, &steps, false);
            (Numbered::new(random, &draft).file, 0)
        })
    };
    vec![
        among("a mark between stores to one location", &[plain, volatile, plain]),
        among("a mark behind stores to one location", &[plain, plain, other, volatile]),
        among("a plain store behind a marked one", &[plain, volatile, other]),
        among("a release behind a mark, a plain store behind it", &[lock, plain, unlock, other]),
        among("a mark between two releases", &[lock, lock1, unlock1, unlock]),
        among("SS behind a LOCK, nothing pending", &[plain, lock, unlock]),
        among("SS behind a SKIP over the stores", &[skip(3), plain, other, volatile]),
        among("SKIP to an SS", &[plain, skip(3), other, volatile]),
        among("marks one after another", &[plain, volatile, other, volatile, volatile]),
    ]
}
