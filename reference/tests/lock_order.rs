//! Tests: request 6 of paper 02, "LOCK of b is accepted only where each lock in the held set has a number below b":
//! answers and runs written by hand, on every call of both implementations.

use reference::litmus::assembler::assemble;
use reference::slow::machines::Machine;
use reference::slow::{self, STATE};
use reference::{Lower, Run, fast};

const LOWERS: [Lower; 8] = [
    |file, sheet| slow::lower(1, file, sheet),
    |file, sheet| slow::lower(2, file, sheet),
    |file, sheet| slow::lower(3, file, sheet),
    slow::page,
    fast::lower1,
    fast::lower2,
    fast::lower3,
    fast::page,
];

const SOURCE: [Run; 2] = [|file, moves, state| slow::run(Machine::Source, file, moves, state), fast::run_source];
const TSO: [Run; 2] = [|file, moves, state| slow::run(Machine::Tso, file, moves, state), fast::run_tso];
const PSO: [Run; 2] = [|file, moves, state| slow::run(Machine::Pso, file, moves, state), fast::run_pso];

/// The records are numbered from 1, lane after lane.
fn kernel(lanes: &str) -> Vec<u8> {
    assemble("x", lanes).unwrap().file(0)
}

/// Every call refuses, also where 9 and 10 would be true: the buffer short, a lane or a choice that there is not, an
/// odd byte. Nothing is written.
fn refused(file: &[u8], number: u64, record: u64) {
    let answer = (number << 32) + record;
    for lower in LOWERS {
        for room in [0, 15, 4096] {
            let mut out = vec![77; room];
            assert_eq!(lower(file, &mut out), answer);
            assert_eq!(out, vec![77; room]);
        }
    }
    for run in [SOURCE, TSO, PSO].concat() {
        for moves in [&[][..], &[0, 0], &[4, 0], &[0, 0, 0, 65], &[0]] {
            for room in [0, STATE - 1, STATE, STATE + 1] {
                let mut state = vec![77; room];
                assert_eq!(run(file, moves, &mut state), answer);
                assert_eq!(state, vec![77; room]);
            }
        }
    }
    let text = format!("refused {number} record {record}\n").into_bytes();
    assert_eq!([slow::listing(file), slow::page_listing(file)], [text.clone(), text]);
}

/// Every call succeeds: bytes of the sheets of levels 1 to 3 and of the pages, then of the state.
fn accepted(file: &[u8], bytes: [u64; 4]) {
    for (lower, bytes) in LOWERS.into_iter().zip(bytes.into_iter().cycle()) {
        assert_eq!(lower(file, &mut [0; 4096]), bytes);
    }
    for run in [SOURCE, TSO, PSO].concat() {
        assert_eq!(run(file, &[0, 0], &mut [0; STATE]), STATE as u64);
    }
    assert!(slow::listing(file).starts_with(b"lanes") && slow::page_listing(file).starts_with(b"page"));
}

/// So many instructions at each level; the level 2 ones fill one page.
fn bytes([one, two, three]: [u64; 3]) -> [u64; 4] {
    [16 + 8 * one, 16 + 8 * two, 16 + 8 * three, 33 * (1 + two)]
}

#[test]
fn upward_passes() {
    // LOCK, LL LOCK, LS UNLOCK, SS UNLOCK
    accepted(&kernel("lock l0; lock l1; unlock l1; unlock l0"), bytes([7, 4, 5]));
    accepted(&kernel("lock l0; lock l1; unlock l0; unlock l1"), bytes([7, 4, 5]));
    accepted(&kernel("lock l0; lock l3; unlock l3; unlock l0"), bytes([7, 4, 5]));
    // LL before three of the LOCKs, LS before the first UNLOCK, SS before the others
    let all = "lock l0; lock l1; lock l2; lock l3; unlock l1; unlock l3; unlock l0; unlock l2";
    accepted(&kernel(all), bytes([8 + 3 + 1 + 3, 8, 8 + 3]));
}

#[test]
fn downward_is_refused_at_the_second_lock() {
    refused(&kernel("lock l1; lock l0; unlock l0; unlock l1"), 12, 2);
    refused(&kernel("lock l3; lock l2; unlock l3; unlock l2"), 12, 2);
    refused(&kernel("r0=1; lock l3; x=r0; lock l0; x=r0; unlock l0; unlock l3"), 12, 4);
}

#[test]
fn each_lock_of_the_held_set_counts() {
    refused(&kernel("lock l0; lock l2; lock l1; unlock l1; unlock l2; unlock l0"), 12, 3);
    refused(&kernel("lock l1; lock l2; lock l0; unlock l0; unlock l1; unlock l2"), 12, 3);
    refused(&kernel("lock l0; lock l1; lock l3; lock l2; unlock l0; unlock l1; unlock l2; unlock l3"), 12, 4);
}

/// The lock taken last is not what counts once it is released.
#[test]
fn a_released_lock_does_not_count() {
    // LOCK, LS UNLOCK, LL SL LOCK, LS SS UNLOCK; no SL before the LOCK at levels 2 and 3
    accepted(&kernel("lock l1; unlock l1; lock l0; unlock l0"), bytes([9, 4, 5]));
    // LOCK, LL LOCK, LS UNLOCK, LL SL LOCK, LS SS UNLOCK, SS UNLOCK
    accepted(&kernel("lock l0; lock l2; unlock l2; lock l1; unlock l1; unlock l0"), bytes([13, 6, 8]));
    refused(&kernel("lock l1; lock l2; unlock l2; lock l0; unlock l0; unlock l1"), 12, 4);
    refused(&kernel("lock l0; lock l1; unlock l0; lock l0; unlock l0; unlock l1"), 12, 4);
}

#[test]
fn skips_about_the_locks() {
    // the pair that is skipped holds nothing where lock 0 is taken; SKIP, LOCK, LS UNLOCK, LL SL LOCK, LS SS UNLOCK
    accepted(&kernel("skip r0 D; lock l1; unlock l1; D:; lock l0; unlock l0"), bytes([10, 5, 6]));
    // a LOCK that a SKIP leads over, and one that it leads to
    refused(&kernel("lock l1; skip r0 D; lock l0; unlock l0; D:; unlock l1"), 12, 3);
    refused(&kernel("lock l1; skip r0 D; r1=1; D:; lock l0; unlock l0; unlock l1"), 12, 4);
}

const DOWN: &str = "lock l1; lock l0; unlock l0; unlock l1";
const UP: &str = "lock l0; lock l1; unlock l1; unlock l0";

#[test]
fn lanes_in_order() {
    refused(&kernel(&format!("{UP} ‖ {UP} ‖ {UP} ‖ {DOWN}")), 12, 14);
    refused(&kernel(&format!("{UP} ‖ {DOWN} ‖ {DOWN}")), 12, 6);
    refused(&kernel(&format!("r0=1; r0=2; {DOWN} ‖ {DOWN}")), 12, 4);
    refused(&kernel(&format!("{DOWN}; {DOWN} ‖ {UP}")), 12, 2);
}

/// Record 5 is the first in the chain, record 1 the lowest: 6 LOCK 2, 5 LOCK 1, 1 LOCK 0, then 2, 3 and 4.
#[test]
fn chain_order_and_not_record_order() {
    let header = [1, 1, 3, 0, 0, 0, 6, 0, 6, 0, 0, 0, 0, 0, 0, 0];
    let record = |operation: u8, lock: u8, next: u8| [operation, 0, lock, 0, 0, 0, 0, 0, 0, 0, next, 0];
    let records =
        [record(5, 0, 2), record(6, 0, 3), record(6, 1, 4), record(6, 2, 0), record(5, 1, 1), record(5, 2, 5)];
    refused(&[header.to_vec(), records.concat()].concat(), 12, 5);
}

#[test]
fn held_sets_come_first() {
    // in a later lane
    refused(&kernel(&format!("{DOWN} ‖ unlock l0")), 8, 5);
    refused(&kernel(&format!("{DOWN} ‖ {UP} ‖ {UP} ‖ lock l0; r0=1")), 8, 14);
    refused(&kernel(&format!("{DOWN} ‖ skip r0 D; lock l0; D:; unlock l0")), 8, 7);
    // in the same lane, later, and at its end
    refused(&kernel(&format!("{DOWN}; unlock l1")), 8, 5);
    refused(&kernel("lock l1; lock l0; unlock l0"), 8, 3);
    // in an earlier lane
    refused(&kernel(&format!("unlock l0 ‖ {DOWN}")), 8, 1);
    // at the LOCK itself: lock 0 is in the set, and lock 1 above it
    refused(&kernel("lock l0; lock l1; lock l0; unlock l0; unlock l1"), 8, 3);
    refused(&kernel("lock l0; lock l0; unlock l0; unlock l0"), 8, 2);
}

#[test]
fn the_checks_before_8_come_first() {
    let mut stray = kernel(&format!("skip r0 D; {DOWN}; D:; r0=1"));
    stray[16 + 8] = 1;
    refused(&stray, 7, 1);
    let mut field = kernel(DOWN);
    field[16 + 12 * 3 + 3] = 1;
    refused(&field, 4, 4);
    refused(&kernel(&format!("{DOWN}; {}", "r0=1;".repeat(61))), 6, 65);
}

/// What the rule says of a lane of LOCKs and UNLOCKs alone: number and record, zeros where it passes.
fn answer_of(lane: &[(bool, u8)]) -> (u64, u64) {
    let mut held: Vec<u8> = Vec::new();
    let mut falling = None;
    for (number, (takes, lock)) in (1..).zip(lane) {
        if *takes == held.contains(lock) {
            return (8, number);
        }
        if *takes && held.iter().any(|other| other > lock) {
            falling = falling.or(Some(number));
        }
        held.retain(|other| other != lock);
        held.extend(takes.then_some(lock));
    }
    if held.is_empty() { falling.map_or((0, 0), |number| (12, number)) } else { (8, lane.len() as u64) }
}

/// Each row of up to six LOCKs and UNLOCKs of three locks. Rows that keep the rule of held sets are walks along edges
/// of a cube, back to where they start: 1, 3, 21 and 183 of length 0, 2, 4 and 6. Of these 1, 3, 15 and 81 go upward.
#[test]
fn every_short_lane() {
    let operations = [(true, 0), (true, 1), (true, 2), (false, 0), (false, 1), (false, 2)];
    let mut lanes: Vec<Vec<(bool, u8)>> = vec![vec![]];
    let mut met = [0; 13];
    while let Some(lane) = lanes.pop() {
        let words = |(takes, lock): &(bool, u8)| format!("{} l{lock}; ", if *takes { "lock" } else { "unlock" });
        let (number, record) = answer_of(&lane);
        let file = kernel(&lane.iter().map(words).collect::<String>());
        for lower in [LOWERS[1], LOWERS[5]] {
            let answer = lower(&file, &mut [0; 4096]);
            let named = if answer >> 32 == 0 { 0 } else { answer & 0xffff_ffff };
            assert_eq!((answer >> 32, named), (number, record), "{lane:?}");
        }
        met[number as usize] += 1;
        if lane.len() < 6 {
            lanes.extend(operations.iter().map(|operation| [&lane[..], &[*operation]].concat()));
        }
    }
    assert_eq!((met[0], met[12]), (100, 208 - 100));
}

/// Lane 1 waits for lock 0 while lane 0 holds it, alone and with lock 1; then both go to their ends.
#[test]
fn a_run_nested_upward() {
    let file = kernel("lock l0; lock l1; x=1; unlock l1; unlock l0 ‖ lock l0; lock l1; x=2; unlock l0; unlock l1");
    // SS stands before each UNLOCK at level 3
    for (runs, length) in [(SOURCE, 6), (TSO, 6), (PSO, 8)] {
        let taken = [[0, 0], [1, 0], [0, 0], [1, 0]].concat();
        let ended = [[0, 0].repeat(length - 2), [0, 1].repeat(3), [1, 0].repeat(length), [1, 1].repeat(3)].concat();
        for run in runs {
            let mut state = [3; STATE];
            run(&file, &taken, &mut state);
            assert_eq!((state[0], &state[4..8], state[8], state[16]), (0, &[1, 1, 0, 0][..], 2, 2));
            run(&file, &[&taken[..], &ended].concat(), &mut state);
            assert_eq!((state[0], &state[4..8], state[24]), (1, &[0, 0, 0, 0][..], 2));
            assert_eq!((usize::from(state[8]), state[16]), (2 * length + 6, 2));
        }
    }
}
