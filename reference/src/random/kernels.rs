//! Random kernels that keep every rule: all operations and masks, locks nested upward, forward skips, shuffled records.

use super::Random;
use crate::slow::kernel::{ADD, LOAD, LOCK, SET, SKIP, STORE, UNLOCK};
use crate::writer::{Draft, Step};

/// A valid kernel file with its records in random places.
pub fn valid(random: &mut Random) -> Vec<u8> {
    let draft = draft(random);
    numbered(random, &draft)
}

/// The draft's file with random record numbers.
pub fn numbered(random: &mut Random, draft: &Draft) -> Vec<u8> {
    let mut numbers: Vec<usize> = (1..=draft.count()).collect();
    random.shuffle(&mut numbers);
    draft.file_numbered(&numbers)
}

pub fn draft(random: &mut Random) -> Draft {
    let lanes = 1 + random.below(4);
    let limit = random.pick(&[3, 8, 8, 20, 64]);
    let lengths: Vec<usize> = (0..lanes).map(|_| random.below(limit + 1)).collect();
    draft_of(random, &lengths)
}

/// What a kernel's lanes are made of.
struct Shape {
    locations: u8,
    locks: u8,
    /// Drawn from, so that what stands here often comes often.
    operations: &'static [u8],
    /// One record in so many becomes a SKIP, none when it is 0.
    skips: usize,
}

const MIXED: &[u8] = &[SET, ADD, LOAD, LOAD, LOAD, STORE, STORE, STORE, LOCK, UNLOCK];
const ACCESSES: &[u8] = &[SET, SET, LOAD, LOAD, STORE, STORE, STORE, LOCK];
const LOCKS: &[u8] = &[SET, LOAD, STORE, LOCK, LOCK, UNLOCK];
const NESTED: &[u8] = &[SET, LOAD, STORE, LOCK, LOCK, LOCK, LOCK, LOCK, LOCK, UNLOCK, UNLOCK];

/// A valid kernel whose lanes have exactly these lengths.
pub fn draft_of(random: &mut Random, lengths: &[usize]) -> Draft {
    let shape = Shape {
        locations: 1 + random.pick(&[1, 2, 3, 16]).min(random.below(16)) as u8,
        locks: random.below(5) as u8,
        operations: random.pick(&[MIXED, MIXED, ACCESSES, LOCKS]),
        skips: random.pick(&[0, 3, 3, 10]),
    };
    shaped(random, lengths, &shape)
}

/// A valid kernel of two to four lanes that nest two to four locks.
pub fn nested_draft(random: &mut Random) -> Draft {
    let lengths: Vec<usize> = (0..2 + random.below(3)).map(|_| 6 + random.below(15)).collect();
    let (locks, skips) = (2 + random.below(3) as u8, random.pick(&[0, 3, 10]));
    let shape = Shape { locations: 1 + random.below(3) as u8, locks, operations: NESTED, skips };
    shaped(random, &lengths, &shape)
}

fn shaped(random: &mut Random, lengths: &[usize], shape: &Shape) -> Draft {
    let Shape { locations, locks, .. } = *shape;
    let mask = random.draw() as u16 & (((1u32 << locations) - 1) as u16);
    let lanes = lengths.iter().map(|length| lane(random, *length, shape)).collect();
    Draft { locations, locks, mask, lanes }
}

fn lane(random: &mut Random, length: usize, shape: &Shape) -> Vec<Step> {
    let mut chain: Vec<Step> = Vec::new();
    let mut taken: Vec<u8> = Vec::new();
    while chain.len() < length {
        // every lock taken still needs a record to release it
        let room = length - chain.len() - taken.len();
        chain.extend(if room == 0 { Some(release(random, &mut taken)) } else { step(random, &mut taken, room, shape) });
    }
    if shape.skips > 0 {
        add_skips(random, &mut chain, shape.skips);
    }
    chain
}

fn release(random: &mut Random, taken: &mut Vec<u8>) -> Step {
    let lock = taken.swap_remove(random.below(taken.len()));
    Step { operation: UNLOCK, b: lock, ..Step::default() }
}

/// A step at random, if it may stand here; `room` records are left that no lock needs.
fn step(random: &mut Random, taken: &mut Vec<u8>, room: usize, shape: &Shape) -> Option<Step> {
    let a = random.below(8) as u8;
    let operation = random.pick(shape.operations);
    Some(match operation {
        SET => Step { operation, a, constant: constant(random), ..Step::default() },
        ADD => Step { operation, a, b: random.below(8) as u8, ..Step::default() },
        LOAD | STORE => Step { operation, a, b: random.below(shape.locations.into()) as u8, ..Step::default() },
        LOCK => {
            // above every lock that is held
            let lowest = taken.iter().max().map_or(0, |held| held + 1);
            let lock = (lowest..shape.locks).find(|_| random.once_in(2))?;
            if room < 2 {
                return None;
            }
            taken.push(lock);
            Step { operation, b: lock, ..Step::default() }
        }
        _ if taken.is_empty() => return None,
        _ => release(random, taken),
    })
}

fn constant(random: &mut Random) -> u32 {
    match random.below(3) {
        0 => random.below(3) as u32,
        1 => random.draw() as u32,
        _ => u32::MAX - random.below(2) as u32,
    }
}

/// Puts SKIPs in the place of records without a lock, each to a later place with the same held set.
fn add_skips(random: &mut Random, chain: &mut [Step], once_in: usize) {
    let sets = held_sets(chain);
    for position in 0..chain.len() {
        let locks = matches!(chain[position].operation, LOCK | UNLOCK);
        if locks || !random.once_in(once_in) {
            continue;
        }
        let near = chain.len().min(position + 1 + random.pick(&[2, 6, 64]));
        let places: Vec<usize> = (position + 1..=near).filter(|place| sets[*place] == sets[position]).collect();
        if !places.is_empty() {
            let target = Some(random.pick(&places));
            chain[position] = Step { operation: SKIP, a: random.below(8) as u8, target, ..Step::default() };
        }
    }
}

/// The held set before each record and at the end, a bit for each lock.
fn held_sets(chain: &[Step]) -> Vec<u8> {
    let mut sets = vec![0];
    for step in chain {
        let held = sets[sets.len() - 1];
        sets.push(if matches!(step.operation, LOCK | UNLOCK) { held ^ 1 << step.b } else { held });
    }
    sets
}
