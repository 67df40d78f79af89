//! Edges of chains: linkage, lengths, targets of SKIPs, held sets, full lists, MFENCE and LOCK.

use super::{Edge, Numbered, Place, put, skip, small, step, steps};
use crate::random::Random;
use crate::slow::kernel::{LOAD, LOCK, SET, SKIP, STORE, UNLOCK};
use crate::writer::{Draft, Step};

pub fn edges() -> Vec<Edge> {
    [linkage(), lengths(), skips(), locks(), lists(), fences()].into_iter().flatten().collect()
}

/// Two SETs in one lane, and a lane beside it.
fn beside(random: &mut Random, at_end: bool) -> (Draft, Numbered, Place, usize) {
    let lanes = 2 + random.below(3);
    let mut draft = small(random, lanes);
    let place = put(random, &mut draft, &[step(SET, 1, 0), step(SET, 2, 0)], at_end);
    let other = (place.lane + 1 + random.below(lanes - 1)) % lanes;
    let numbered = Numbered::new(random, &draft);
    (draft, numbered, place, other)
}

fn linkage() -> Vec<Edge> {
    vec![
        Edge::new("next is itself", 5, |random| {
            let (_, mut numbered, place, _) = beside(random, false);
            let own = numbered.number(place);
            numbered.link(place, 10, own);
            (numbered.file, own)
        }),
        Edge::new("next is the record before", 5, |random| {
            let (_, mut numbered, place, _) = beside(random, false);
            let own = numbered.number(place);
            numbered.link(Place { position: place.position + 1, ..place }, 10, own);
            (numbered.file, own)
        }),
        Edge::new("a lane's end leads into another lane", 5, |random| {
            let (_, mut numbered, place, other) = beside(random, true);
            let first = numbered.numbers[other][0];
            numbered.link(Place { position: place.position + 1, ..place }, 10, first);
            (numbered.file, first)
        }),
        Edge::new("two lanes with one head", 5, |random| {
            let (_, mut numbered, place, other) = beside(random, false);
            let first = numbered.numbers[other][0];
            numbered.head(place.lane, first);
            (numbered.file, first)
        }),
        Edge::new("a last record in no lane", 5, |random| {
            let (_, mut numbered, place, _) = beside(random, true);
            numbered.link(place, 10, 0);
            let left = numbered.number(Place { position: place.position + 1, ..place });
            (numbered.file, left)
        }),
    ]
}

/// A lane of so many SETs among others.
fn lengths() -> Vec<Edge> {
    let long = |name: &str, length: usize, refusal: u64| {
        Edge::new(name, refusal, move |random| {
            let lanes = 1 + random.below(4);
            let mut draft = small(random, lanes);
            let lane = random.below(lanes);
            draft.lanes[lane] = vec![Step { constant: 5, ..step(SET, 1, 0) }; length];
            let numbered = Numbered::new(random, &draft);
            let record = if refusal == 0 { 0 } else { numbered.numbers[lane][64] };
            (numbered.file, record)
        })
    };
    vec![long("a chain of 65", 65, 6), long("a chain of 64", 64, 0), long("an empty lane", 0, 0)]
}

fn skips() -> Vec<Edge> {
    let set = step(SET, 2, 0);
    vec![
        steps("SKIP to itself", 7, false, 0, &[skip(0)]),
        steps("SKIP to the record before", 7, false, 1, &[set, skip(0)]),
        steps("SKIP to the next record", 0, false, 0, &[skip(1), set]),
        steps("SKIP to the end", 0, false, 0, &[step(SKIP, 1, 0), set]),
        skip_into("SKIP into the next lane", 0, 1),
        skip_into("SKIP into the lane before", 1, 0),
    ]
}

/// A SKIP in lane `from` of two or more to some record of lane `to`.
fn skip_into(name: &str, from: usize, to: usize) -> Edge {
    Edge::new(name, 7, move |random| {
        let lanes = 2 + random.below(3);
        let mut draft = small(random, lanes);
        let place = Place { lane: from, position: draft.lanes[from].len() };
        draft.lanes[from].push(skip(place.position + 1));
        let mut numbered = Numbered::new(random, &draft);
        let target = random.pick(&numbered.numbers[to]);
        numbered.link(place, 8, target);
        let record = numbered.number(place);
        (numbered.file, record)
    })
}

fn locks() -> Vec<Edge> {
    let (lock, unlock, set) = (step(LOCK, 0, 0), step(UNLOCK, 0, 0), step(SET, 2, 0));
    let (lock1, unlock1) = (step(LOCK, 0, 1), step(UNLOCK, 0, 1));
    vec![
        steps("LOCK twice", 8, false, 1, &[lock, lock, unlock]),
        steps("UNLOCK not held", 8, false, 0, &[unlock]),
        steps("UNLOCK twice", 8, false, 2, &[lock, unlock, unlock]),
        steps("UNLOCK of another lock", 8, false, 1, &[lock, unlock1, unlock]),
        steps("a lock held at the end", 8, true, 0, &[lock]),
        steps("a lock held at the end by one way", 8, true, 1, &[skip(2), lock]),
        steps("a lock released by one way", 8, true, 2, &[lock, skip(3), unlock]),
        steps("ways that disagree", 8, false, 2, &[skip(2), lock, unlock]),
        steps("ways that disagree where no lock is named", 8, false, 2, &[skip(2), lock, set, unlock]),
        steps("LOCK and UNLOCK twice", 0, false, 0, &[lock, unlock, lock, unlock]),
        steps("locks released in the order taken", 0, false, 0, &[lock, lock1, unlock, unlock1]),
        steps("SKIP over LOCK and UNLOCK", 0, false, 0, &[skip(3), lock, unlock, set]),
        steps("ways that agree with a lock held", 0, false, 0, &[lock, skip(3), set, unlock]),
    ]
}

/// A lane of 64 stores, so that a list can be full; the last is to a location of its own.
fn lists() -> Vec<Edge> {
    let full = |name: &str, mask: u16, last: u8| {
        Edge::new(name, 0, move |random| {
            let lanes = 1 + random.below(4);
            let mut draft = Draft { locations: 2, locks: 0, mask, lanes: vec![vec![step(SET, 1, 0)]; lanes] };
            let stores = &mut draft.lanes[random.below(lanes)];
            *stores = vec![step(STORE, 1, 0); 63];
            stores.push(step(STORE, 1, last));
            (Numbered::new(random, &draft).file, 0)
        })
    };
    vec![
        full("64 stores, the last to its own location", 0, 1),
        full("64 stores to one location", 0, 0),
        full("64 stores, the last to a volatile location", 2, 1),
    ]
}

/// Volatile stores, volatile loads and releases about a LOCK, which has no MFENCE before it; location 0 is volatile.
fn fences() -> Vec<Edge> {
    let (lock, unlock, set) = (step(LOCK, 0, 0), step(UNLOCK, 0, 0), step(SET, 2, 0));
    let (store, load) = (step(STORE, 1, 0), step(LOAD, 2, 0));
    let among = |name: &str, steps: &[Step]| {
        let steps = steps.to_vec();
        Edge::new(name, 0, move |random| {
            let lanes = 1 + random.below(4);
            let mut draft = small(random, lanes);
            draft.mask |= 1;
            put(random, &mut draft, &steps, false);
            (Numbered::new(random, &draft).file, 0)
        })
    };
    vec![
        among("volatile store, LOCK", &[store, lock, unlock]),
        among("volatile store, LOCK, volatile load", &[store, lock, load, unlock]),
        among("LOCK, volatile store, volatile load", &[lock, store, load, unlock]),
        among("volatile store, SKIP to a LOCK", &[store, skip(3), load, lock, unlock]),
        among("volatile store, SKIP over a LOCK", &[store, skip(4), lock, unlock, load]),
        among("volatile store, LOCK, SKIP behind it", &[store, lock, unlock, skip(5), set, load]),
        among("UNLOCK, SKIP to a LOCK", &[lock, unlock, skip(4), set, lock, unlock]),
    ]
}
