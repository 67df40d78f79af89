//! Edges of upward locks, refusal 12: which locks of the held set count, which LOCK is named, and 8 before it.

use super::{Edge, Numbered, Place, put_into, skip, small, step};
use crate::random::Random;
use crate::slow::kernel::{LOCK, SET, UNLOCK};
use crate::writer::Step;

pub fn edges() -> Vec<Edge> {
    [upward(), downward(), several(), after_8()].into_iter().flatten().collect()
}

fn upward() -> Vec<Edge> {
    let keeps = |name: &str, words: &'static str| anywhere(name, 0, 0, words);
    vec![
        keeps("locks 0, 1", "+0 +1 -1 -0"),
        keeps("locks 2, 3", "+2 +3 -2 -3"),
        keeps("locks 0, 3", "+0 +3 -0 -3"),
        keeps("locks 0, 1, 2, 3", "+0 +1 +2 +3 -3 -2 -1 -0"),
        keeps("lock 1 released, lock 0", "+1 -1 +0 -0"),
        keeps("locks 0, 2, 2 released, lock 1", "+0 +2 -2 +1 -1 -0"),
        keeps("locks 0, 1, 0 released, lock 2", "+0 +1 -0 +2 -1 -2"),
        keeps("SKIP over lock 1, lock 0", ">3 +1 -1 +0 -0"),
        keeps("lock 0, SKIP over lock 2, lock 1", "+0 >4 +2 -2 +1 -1 -0"),
        keeps("lock 0, SKIP to lock 1", "+0 >3 . +1 -1 -0"),
    ]
}

/// In a lane that keeps the order so far the held locks rise as they were taken: the highest is the newest held, though
/// not the newest taken.
fn downward() -> Vec<Edge> {
    let breaks = |name: &str, named: usize, words: &'static str| anywhere(name, 12, named, words);
    vec![
        breaks("locks 1, 0", 1, "+1 +0 -0 -1"),
        breaks("locks 3, 2", 1, "+3 +2 -3 -2"),
        breaks("locks 3, 0", 1, "+3 +0 -3 -0"),
        breaks("locks 0, 2, 1", 2, "+0 +2 +1 -1 -2 -0"),
        breaks("locks 1, 2, 0", 2, "+1 +2 +0 -0 -1 -2"),
        breaks("locks 0, 1, 3, 2", 3, "+0 +1 +3 +2 -0 -1 -2 -3"),
        breaks("locks 1, 2, 2 released, lock 0", 3, "+1 +2 -2 +0 -0 -1"),
        breaks("locks 0, 1, 0 released, lock 0", 3, "+0 +1 -0 +0 -0 -1"),
        breaks("lock 1, SKIP over lock 0", 2, "+1 >4 +0 -0 -1"),
        breaks("lock 1, SKIP to lock 0", 3, "+1 >3 . +0 -0 -1"),
    ]
}

fn several() -> Vec<Edge> {
    vec![
        anywhere("locks 3, 2, 1", 12, 1, "+3 +2 +1 -1 -2 -3"),
        anywhere("locks 1, 0, released, 3, 2", 12, 1, "+1 +0 -0 -1 +3 +2 -2 -3"),
        in_lanes("locks 1, 0 in lane 3 alone", 12, (0, 1), &[(3, "+1 +0 -0 -1")]),
        in_lanes("locks 1, 0 in lanes 1 and 2", 12, (0, 1), &[(1, "+1 +0 -0 -1"), (2, "+1 +0 -0 -1")]),
        in_lanes(
            "locks 1, 0 later in lane 0 than in lane 1",
            12,
            (0, 4),
            &[(0, ". . . +1 +0 -0 -1"), (1, "+1 +0 -0 -1")],
        ),
    ]
}

fn after_8() -> Vec<Edge> {
    vec![
        in_lanes("locks 1, 0 in lane 0, UNLOCK not held in lane 1", 8, (1, 0), &[(0, "+1 +0 -0 -1"), (1, "-0")]),
        in_lanes("UNLOCK not held in lane 0, locks 1, 0 in lane 1", 8, (0, 0), &[(0, "-0"), (1, "+1 +0 -0 -1")]),
        in_lanes("locks 1, 0 in lane 2, a lock held at the end of lane 3", 8, (1, 0), &[(2, "+1 +0 -0 -1"), (3, "+0")]),
        anywhere("locks 1, 0, UNLOCK twice", 8, 4, "+1 +0 -0 -1 -1"),
        anywhere("locks 1, 0, 1 held at the end", 8, 2, "+1 +0 -0"),
        anywhere("locks 1, 0, ways that disagree", 8, 6, "+1 +0 -0 -1 >6 +0 -0"),
        anywhere("locks 0, 1, 0", 8, 2, "+0 +1 +0 -1 -0"),
    ]
}

/// `+1` is LOCK 1, `-1` UNLOCK 1, `>3` a SKIP to step 3, `.` a SET.
fn steps_of(words: &str) -> Vec<Step> {
    let number = |word: &str| word[1..].parse().expect("a number follows the sign");
    let step_of = |word: &str| match &word[..1] {
        "+" => step(LOCK, 0, number(word)),
        "-" => step(UNLOCK, 0, number(word)),
        ">" => skip(number(word).into()),
        _ => step(SET, 2, 0),
    };
    words.split_whitespace().map(step_of).collect()
}

/// Steps in some lane of a valid kernel; the refusal names one of them.
fn anywhere(name: &str, refusal: u64, named: usize, words: &'static str) -> Edge {
    Edge::new(name, refusal, move |random| {
        let lane = random.below(4);
        made(random, refusal, (0, named), &[(lane, words)])
    })
}

/// Steps in these lanes; the refusal names one of them, by the row that it stands in and its place there.
fn in_lanes(name: &str, refusal: u64, named: (usize, usize), rows: &[(usize, &'static str)]) -> Edge {
    let rows = rows.to_vec();
    Edge::new(name, refusal, move |random| made(random, refusal, named, &rows))
}

fn made(random: &mut Random, refusal: u64, named: (usize, usize), rows: &[(usize, &str)]) -> (Vec<u8>, usize) {
    let fewest = rows.iter().map(|(lane, _)| lane + 1).max().unwrap_or(1);
    let lanes = fewest + random.below(5 - fewest);
    let mut draft = small(random, lanes);
    draft.locks = 4;
    let mut put_row = |(lane, words): &(usize, &str)| {
        let open = words.matches('+').count() > words.matches('-').count();
        put_into(random, &mut draft, *lane, &steps_of(words), open)
    };
    let places: Vec<Place> = rows.iter().map(&mut put_row).collect();
    let place = Place { position: places[named.0].position + named.1, ..places[named.0] };
    // a refusal goes by the chain and not by the records' numbers
    let highest = random.once_in(2);
    let numbered = if highest { Numbered::highest_at(random, &draft, place) } else { Numbered::new(random, &draft) };
    let record = if refusal == 0 { 0 } else { numbered.number(place) };
    (numbered.file, record)
}
