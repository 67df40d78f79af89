//! Tests: request 1 of paper 02, "level 2 writes no MFENCE directly before a LOCK", by sheets and runs written by hand.

use reference::litmus::assembler::assemble;
use reference::slow::machines::Machine;
use reference::slow::{self, STATE};
use reference::{Lower, Run, fast};

/// Level 1 and level 2 of both implementations.
const LEVELS: [[Lower; 2]; 2] = [
    [|file, sheet| slow::lower(1, file, sheet), fast::lower1],
    [|file, sheet| slow::lower(2, file, sheet), fast::lower2],
];
const SOURCE: [Run; 2] = [|file, moves, state| slow::run(Machine::Source, file, moves, state), fast::run_source];
const TSO: [Run; 2] = [|file, moves, state| slow::run(Machine::Tso, file, moves, state), fast::run_tso];

const NAMES: [&str; 16] =
    ["", "SET", "ADD", "LOAD", "STORE", "LOCK", "UNLOCK", "SKIP", "", "", "", "LL", "LS", "SS", "SL", "MFENCE"];

/// A kernel whose location x is volatile and whose location y is plain.
fn kernel(lanes: &str) -> Vec<u8> {
    assemble("x y", lanes).unwrap().file(1)
}

/// The lane at a level: names of its instructions, a SKIP with its position behind it.
fn lane(level: usize, text: &str) -> String {
    let file = kernel(text);
    let [slow, fast] = LEVELS[level - 1].map(|lower| {
        let mut sheet = vec![0; 8192];
        let written = lower(&file, &mut sheet) as usize;
        assert!(written < 8192, "refused");
        assert_eq!(usize::from(sheet[8]), (written - 16) / 8, "the lane's count");
        sheet.truncate(written);
        sheet
    });
    assert_eq!(slow, fast);
    let name = |instruction: &[u8]| match NAMES[usize::from(instruction[0])] {
        "SKIP" => format!("SKIP {}", instruction[4]),
        name => name.to_string(),
    };
    slow[16..].chunks(8).map(name).collect::<Vec<_>>().join(", ")
}

#[track_caller]
fn levels(text: &str, first: &str, second: &str) {
    assert_eq!(lane(1, text), first);
    assert_eq!(lane(2, text), second);
}

#[test]
fn a_lock_behind_an_unlock() {
    levels(
        "lock l; unlock l; lock l; unlock l",
        "LOCK, LS, UNLOCK, LL, SL, LOCK, LS, SS, UNLOCK",
        "LOCK, UNLOCK, LOCK, UNLOCK",
    );
}

#[test]
fn a_lock_behind_a_volatile_store() {
    levels("x=r0; lock l; unlock l", "STORE, SL, LOCK, LS, SS, UNLOCK", "STORE, LOCK, UNLOCK");
    // a plain store between the two changes nothing
    levels("x=r0; y=r0; lock l; unlock l", "STORE, STORE, SL, LOCK, LS, SS, UNLOCK", "STORE, STORE, LOCK, UNLOCK");
}

/// SL before the LOCK parts the store from the load as well, so that nothing stands before the load either.
#[test]
fn a_volatile_load_behind_the_lock() {
    levels("x=r0; lock l; r1=x; unlock l", "STORE, SL, LOCK, LL, LOAD, LS, SS, UNLOCK", "STORE, LOCK, LOAD, UNLOCK");
    levels(
        "lock l; unlock l; lock l; r1=x; unlock l",
        "LOCK, LS, UNLOCK, LL, SL, LOCK, LL, LOAD, LS, SS, UNLOCK",
        "LOCK, UNLOCK, LOCK, LOAD, UNLOCK",
    );
}

#[test]
fn what_stands_before_a_volatile_load_stays() {
    levels(
        "lock l; x=r0; r1=x; unlock l",
        "LOCK, LS, STORE, LL, SL, LOAD, LS, SS, UNLOCK",
        "LOCK, STORE, MFENCE, LOAD, UNLOCK",
    );
    levels("lock l; unlock l; r1=x", "LOCK, LS, UNLOCK, LL, SL, LOAD", "LOCK, UNLOCK, MFENCE, LOAD");
    // the load's MFENCE serves the way through it alone, and the LOCK has none on either
    levels(
        "x=r0; skip r0 D; r1=x; D:; lock l; unlock l; r1=x",
        "STORE, SKIP 4, SL, LOAD, LL, SL, LOCK, LS, SS, UNLOCK, LL, SL, LOAD",
        "STORE, SKIP 4, MFENCE, LOAD, LOCK, UNLOCK, MFENCE, LOAD",
    );
}

#[test]
fn a_skip_to_the_lock_lands_on_it() {
    levels(
        "x=r0; skip r0 D; r1=x; D:; lock l; unlock l",
        "STORE, SKIP 4, SL, LOAD, LL, SL, LOCK, LS, SS, UNLOCK",
        "STORE, SKIP 4, MFENCE, LOAD, LOCK, UNLOCK",
    );
    levels(
        "lock l; unlock l; skip r0 D; r1=1; D:; lock l; unlock l",
        "LOCK, LS, UNLOCK, SKIP 5, SET, LL, SL, LOCK, LS, SS, UNLOCK",
        "LOCK, UNLOCK, SKIP 4, SET, LOCK, UNLOCK",
    );
}

#[test]
fn a_skip_over_the_lock_or_behind_it_counts_what_is_written() {
    levels(
        "x=r0; skip r0 D; lock l; unlock l; D:; r1=x",
        "STORE, SKIP 7, SL, LOCK, LS, SS, UNLOCK, LL, SL, LOAD",
        "STORE, SKIP 4, LOCK, UNLOCK, MFENCE, LOAD",
    );
    levels(
        "x=r0; lock l; unlock l; skip r0 D; r0=1; D:; r1=x",
        "STORE, SL, LOCK, LS, SS, UNLOCK, SKIP 8, SET, LL, SL, LOAD",
        "STORE, LOCK, UNLOCK, SKIP 5, SET, MFENCE, LOAD",
    );
    levels(
        "x=r0; skip r0 end; lock l; unlock l",
        "STORE, SKIP 7, SL, LOCK, LS, SS, UNLOCK",
        "STORE, SKIP 4, LOCK, UNLOCK",
    );
}

#[test]
fn the_sheet_is_shorter_by_it() {
    let file = kernel("lock l; unlock l; lock l; unlock l ‖ x=1; r1=x");
    let header = [2, 2, 1, 2, 0, 0, 0, 0, 4, 0, 4, 0, 0, 0, 0, 0];
    let lanes = [
        [5, 0, 0, 0, 0, 0, 0, 0],
        [6, 0, 0, 0, 0, 0, 0, 0],
        [5, 0, 0, 0, 0, 0, 0, 0],
        [6, 0, 0, 0, 0, 0, 0, 0],
        [1, 7, 0, 0, 1, 0, 0, 0],
        [4, 7, 0, 0, 0, 0, 0, 0],
        [15, 0, 0, 0, 0, 0, 0, 0],
        [3, 1, 0, 0, 0, 0, 0, 0],
    ];
    for lower in LEVELS[1] {
        let mut sheet = vec![9; 90];
        assert_eq!(lower(&file, &mut sheet), 80);
        assert_eq!(sheet, [header.to_vec(), lanes.concat(), vec![9; 10]].concat());
        assert_eq!(lower(&file, &mut sheet[..79]), 9 << 32);
    }
}

/// Lock words, moves done and waited, lane 0's position and number of pending entries.
fn end(runs: [Run; 2], file: &[u8], moves: &[[u8; 2]]) -> ([u8; 2], [u8; 2], [u8; 2]) {
    let [slow, fast] = runs.map(|run| {
        let mut state = vec![3; STATE];
        assert_eq!(run(file, &moves.concat(), &mut state), STATE as u64);
        state
    });
    assert_eq!(slow, fast);
    ([slow[4], slow[5]], [slow[8], slow[16]], [slow[88], slow[90]])
}

/// LOCK drains the list by itself: the tso machine goes through the same states as the source machine.
#[test]
fn the_lock_waits_for_the_own_release() {
    let file = kernel("lock l; unlock l; lock l1; unlock l1");
    for runs in [SOURCE, TSO] {
        assert_eq!(end(runs, &file, &[[0, 0]; 3]), ([1, 0], [2, 1], [2, 1]));
        let commits = [[0, 0], [0, 0], [0, 0], [0, 1], [0, 0]];
        assert_eq!(end(runs, &file, &commits), ([0, 1], [4, 1], [3, 0]));
    }
}

#[test]
fn a_run_that_skips_to_the_lock() {
    let file = kernel("x=5; skip r0 D; r1=x; D:; lock l; unlock l");
    // SET, STORE, SKIP, a LOCK that waits, the commit, the LOCK
    let moves = [[0, 0], [0, 0], [0, 0], [0, 0], [0, 1], [0, 0]];
    assert_eq!(end(TSO, &file, &moves[..4]), ([0, 0], [3, 1], [5, 1]));
    assert_eq!(end(TSO, &file, &moves), ([1, 0], [5, 1], [6, 0]));
    // the chain has no MFENCE before the LOAD
    assert_eq!(end(SOURCE, &file, &moves[..4]), ([0, 0], [3, 1], [4, 1]));
    assert_eq!(end(SOURCE, &file, &moves), ([1, 0], [5, 1], [5, 0]));
}
