//! Edges of a record's fields: an unused field that is 1, an operand at its limit, a link to record N + 1.

use super::{Edge, Numbered, Place, put, skip, small, step, steps};
use crate::random::Random;
use crate::slow::kernel::{ADD, LOAD, LOCK, SET, SKIP, STORE, UNLOCK};
use crate::writer::{Draft, Step};

const A: usize = 1;
const B: usize = 2;
const ZERO: usize = 3;
const TARGET: usize = 8;
const NEXT: usize = 10;

/// Operations by name, with the bytes of the fields that they do not use.
const OPERATIONS: [(u8, &str, &[usize]); 7] = [
    (SET, "SET", &[B, ZERO, TARGET]),
    (ADD, "ADD", &[ZERO, 4, 5, 6, 7, TARGET]),
    (LOAD, "LOAD", &[ZERO, 4, 5, 6, 7, TARGET]),
    (STORE, "STORE", &[ZERO, 4, 5, 6, 7, TARGET]),
    (LOCK, "LOCK", &[A, ZERO, 4, 5, 6, 7, TARGET]),
    (UNLOCK, "UNLOCK", &[A, ZERO, 4, 5, 6, 7, TARGET]),
    (SKIP, "SKIP", &[B, ZERO, 4, 5, 6, 7]),
];

pub fn edges() -> Vec<Edge> {
    let mut edges = Vec::new();
    for (operation, name, unused) in OPERATIONS {
        let unused = unused.iter();
        edges.extend(unused.map(|byte| field(&format!("{name} byte {byte} is 1"), operation, *byte, 4, |_| 1)));
        for code in [0, 8] {
            edges.push(field(&format!("{name} becomes operation {code}"), operation, 0, 4, move |_| code));
        }
        edges.push(linked(&format!("{name} next N + 1"), operation, NEXT));
    }
    for (operation, name) in [(SET, "SET"), (ADD, "ADD"), (LOAD, "LOAD"), (STORE, "STORE"), (SKIP, "SKIP")] {
        edges.push(field(&format!("{name} a 8"), operation, A, 4, |_| 8));
        edges.push(field(&format!("{name} a 7"), operation, A, 0, |_| 7));
    }
    for (operation, name) in [(LOAD, "LOAD"), (STORE, "STORE")] {
        edges.push(field(&format!("{name} b L"), operation, B, 4, |draft| draft.locations));
        edges.push(field(&format!("{name} b L - 1"), operation, B, 0, |draft| draft.locations - 1));
    }
    for code in [0, 8, 15] {
        edges.push(steps(&format!("operation {code}, all else zero"), 4, false, 0, &[step(code, 0, 0)]));
    }
    edges.push(field("ADD b 8", ADD, B, 4, |_| 8));
    edges.push(field("ADD b 7", ADD, B, 0, |_| 7));
    edges.push(field("LOCK b K", LOCK, B, 4, |draft| draft.locks));
    edges.push(field("UNLOCK b K", UNLOCK, B, 4, |draft| draft.locks));
    edges.push(linked("SKIP target N + 1", SKIP, TARGET));
    edges.push(Edge::new("SKIP target and next N", 0, |random| {
        let lanes = 1 + random.below(4);
        let mut draft = small(random, lanes);
        let Place { lane, position } = put(random, &mut draft, &[skip(1), step(SET, 2, 0)], false);
        let target = Place { lane, position: position + 1 };
        (Numbered::highest_at(random, &draft, target).file, 0)
    }));
    edges
}

/// A lawful record of the operation, in a valid kernel; LOCK and UNLOCK come together.
fn lawful(random: &mut Random, operation: u8) -> (Draft, Place) {
    let lanes = 1 + random.below(4);
    let mut draft = small(random, lanes);
    let locks = [step(LOCK, 0, 1), step(UNLOCK, 0, 1)];
    let alone = match operation {
        SET => Step { constant: random.draw() as u32, ..step(SET, 1, 0) },
        SKIP => skip(1),
        _ => step(operation, 1, 0),
    };
    let steps = if matches!(operation, LOCK | UNLOCK) { &locks[..] } else { &[alone] };
    let mut place = put(random, &mut draft, steps, false);
    place.position += usize::from(operation == UNLOCK);
    (draft, place)
}

/// One byte of a lawful record gets a value that may depend on the header.
fn field(name: &str, operation: u8, byte: usize, refusal: u64, value: impl Fn(&Draft) -> u8 + 'static) -> Edge {
    Edge::new(name, refusal, move |random| {
        let (draft, place) = lawful(random, operation);
        let mut numbered = Numbered::new(random, &draft);
        numbered.byte(place, byte, value(&draft));
        let record = if refusal == 0 { 0 } else { numbered.number(place) };
        (numbered.file, record)
    })
}

/// A target or next of N + 1.
fn linked(name: &str, operation: u8, byte: usize) -> Edge {
    Edge::new(name, 4, move |random| {
        let (draft, place) = lawful(random, operation);
        let mut numbered = Numbered::new(random, &draft);
        numbered.link(place, byte, draft.count() + 1);
        let record = numbered.number(place);
        (numbered.file, record)
    })
}
