//! Edges of the header and of the file's length.

use super::{Edge, Numbered, Place, put, small, step};
use crate::random::Random;
use crate::slow::kernel::{LOAD, LOCK, SET, STORE, UNLOCK};
use crate::writer::{Draft, Step};

pub fn edges() -> Vec<Edge> {
    [sizes(), masks(), counts(), heads(), lengths()].into_iter().flatten().collect()
}

/// A small valid kernel, changed before it is written; its file is then changed.
fn edge(
    name: &str,
    refusal: u64,
    lanes: std::ops::RangeInclusive<usize>,
    change: fn(&mut Random, &mut Draft),
    then: fn(&mut Vec<u8>),
) -> Edge {
    Edge::new(name, refusal, move |random| {
        let lanes = lanes.start() + random.below(lanes.end() - lanes.start() + 1);
        let mut draft = small(random, lanes);
        change(random, &mut draft);
        let mut file = Numbered::new(random, &draft).file;
        then(&mut file);
        (file, 0)
    })
}

fn as_it_is(_: &mut Random, _: &mut Draft) {}

fn sets(draft: &mut Draft, count: usize) {
    draft.lanes = vec![vec![Step { constant: 5, ..step(SET, 1, 0) }; count]];
}

fn sizes() -> Vec<Edge> {
    let no_location = |_: &mut Random, draft: &mut Draft| {
        sets(draft, 2);
        (draft.locations, draft.mask) = (0, 0);
    };
    let last_location = |random: &mut Random, draft: &mut Draft| {
        put(random, draft, &[step(STORE, 1, 15), step(LOAD, 1, 15)], false);
        (draft.locations, draft.mask) = (16, draft.mask | 1 << 15);
    };
    let last_lock = |random: &mut Random, draft: &mut Draft| {
        put(random, draft, &[step(LOCK, 0, 3), step(UNLOCK, 0, 3)], false);
        draft.locks = 4;
    };
    let one_location = |_: &mut Random, draft: &mut Draft| {
        sets(draft, 2);
        (draft.locations, draft.locks, draft.mask) = (1, 0, 1);
    };
    vec![
        edge("T 0", 2, 1..=1, |_, draft| sets(draft, 0), |file| file[0] = 0),
        edge("T 5", 2, 4..=4, as_it_is, |file| file[0] = 5),
        edge("T 4", 0, 4..=4, as_it_is, |_| ()),
        edge("T 1", 0, 1..=1, as_it_is, |_| ()),
        edge("L 0", 2, 1..=1, no_location, |_| ()),
        edge("L 17", 2, 1..=4, |_, draft| draft.locations = 17, |_| ()),
        edge("L 16 with its last location", 0, 1..=4, last_location, |_| ()),
        edge("L 1, K 0", 0, 1..=4, one_location, |_| ()),
        edge("K 5", 2, 1..=4, |_, draft| draft.locks = 5, |_| ()),
        edge("K 4 with its last lock", 0, 1..=4, last_lock, |_| ()),
        edge("header byte 3 is 1", 2, 1..=4, as_it_is, |file| file[3] = 1),
    ]
}

/// A kernel of SETs, where any mask may stand, with a bit of the mask chosen by L.
fn masks() -> Vec<Edge> {
    fn bit(name: &str, refusal: u64, highest: usize, bit: fn(u8) -> u8) -> Edge {
        Edge::new(name, refusal, move |random| {
            let mut draft = small(random, 2);
            sets(&mut draft, 3);
            draft.locations = 1 + random.below(highest) as u8;
            draft.mask = 1 << bit(draft.locations);
            (draft.file(), 0)
        })
    }
    vec![
        bit("mask bit L", 2, 15, |locations| locations),
        bit("mask bit L - 1", 0, 16, |locations| locations - 1),
        bit("mask bit 15 above L", 2, 15, |_| 15),
    ]
}

fn counts() -> Vec<Edge> {
    let full = |_: &mut Random, draft: &mut Draft| {
        sets(draft, 64);
        draft.lanes = vec![draft.lanes[0].clone(); 4];
    };
    let over = |random: &mut Random, draft: &mut Draft| {
        sets(draft, 64);
        draft.lanes = vec![draft.lanes[0].clone(); 4];
        draft.lanes[random.below(4)].push(step(SET, 1, 0));
    };
    vec![
        edge("N 256", 0, 1..=1, full, |_| ()),
        edge("N 256 and a byte more", 3, 1..=1, full, |file| file.push(0)),
        edge("N 257 with its length", 2, 1..=1, over, |_| ()),
        edge("N 0", 0, 1..=1, |_, draft| draft.lanes = vec![Vec::new(); 3], |_| ()),
    ]
}

fn heads() -> Vec<Edge> {
    vec![
        Edge::new("a head N + 1", 2, |random| {
            let lanes = 1 + random.below(4);
            let draft = small(random, lanes);
            let mut numbered = Numbered::new(random, &draft);
            numbered.head(random.below(lanes), draft.count() + 1);
            (numbered.file, 0)
        }),
        Edge::new("a head N", 0, |random| {
            let lanes = 1 + random.below(4);
            let draft = small(random, lanes);
            let place = Place { lane: random.below(lanes), position: 0 };
            (Numbered::highest_at(random, &draft, place).file, 0)
        }),
        Edge::new("a head 1 in lane T", 2, |random| headed_from(random, |lanes| lanes)),
        Edge::new("a head 1 in lane 3, above T", 2, |random| headed_from(random, |_| 3)),
    ]
}

fn headed_from(random: &mut Random, lane: fn(usize) -> usize) -> (Vec<u8>, usize) {
    let lanes = 1 + random.below(3);
    let draft = small(random, lanes);
    let mut numbered = Numbered::new(random, &draft);
    numbered.head(lane(lanes), 1);
    (numbered.file, 0)
}

fn lengths() -> Vec<Edge> {
    vec![
        edge("a byte short", 3, 1..=4, as_it_is, |file| file.truncate(file.len() - 1)),
        edge("a byte long", 3, 1..=4, as_it_is, |file| file.push(0)),
        edge("a record short", 3, 1..=4, as_it_is, |file| file.truncate(file.len() - 12)),
        edge("a record long", 3, 1..=4, as_it_is, |file| file.extend([0; 12])),
        edge("15 bytes", 1, 1..=4, as_it_is, |file| file.truncate(15)),
        edge("16 bytes with records", 3, 1..=4, as_it_is, |file| file.truncate(16)),
        edge("no bytes", 1, 1..=4, as_it_is, Vec::clear),
    ]
}
