//! Tests: level 3 of request 4 of paper 02, "keeps SS as well as the store-load barrier", by sheets written by hand.

use reference::litmus::assembler::assemble;
use reference::{Lower, fast, slow};

const LEVEL3: [Lower; 2] = [|file, sheet| slow::lower(3, file, sheet), fast::lower3];

const NAMES: [&str; 16] =
    ["", "SET", "ADD", "LOAD", "STORE", "LOCK", "UNLOCK", "SKIP", "", "", "", "LL", "LS", "SS", "SL", "MFENCE"];

/// A kernel whose location x is volatile and whose location y is plain.
fn kernel(lanes: &str) -> Vec<u8> {
    assemble("x y", lanes).unwrap().file(1)
}

/// The lane at level 3: names of its instructions, a SKIP with its position behind it.
#[track_caller]
fn writes(text: &str, expected: &str) {
    let file = kernel(text);
    let [slow, fast] = LEVEL3.map(|lower| {
        let mut sheet = vec![0; 8192];
        let written = lower(&file, &mut sheet) as usize;
        assert!(written < 8192, "refused");
        assert_eq!(usize::from(sheet[8]), (written - 16) / 8, "the lane's count");
        sheet.truncate(written);
        sheet
    });
    assert_eq!(slow, fast);
    let name = |instruction: &[u8]| match NAMES[usize::from(instruction[0])] {
        "SKIP" => format!("SKIP {}", instruction[4]),
        name => name.to_string(),
    };
    assert_eq!(slow[16..].chunks(8).map(name).collect::<Vec<_>>().join(", "), expected);
}

#[test]
fn pairs_of_accesses() {
    writes("y=r0; x=r0", "STORE, SS, STORE");
    writes("x=r0; x=r0", "STORE, SS, STORE");
    writes("x=r0; r1=x", "STORE, SL, LOAD");
    writes("x=r0; x=r0; r1=x", "STORE, SS, STORE, SL, LOAD");
    writes("x=r0; r1=x; r1=x", "STORE, SL, LOAD, LOAD");
    // LL and LS go, and cells without a barrier have none
    writes("r0=x; r1=y; r1=x", "LOAD, LOAD, LOAD");
    writes("r0=x; y=r0; r1=y", "LOAD, STORE, LOAD");
    writes("x=r0; y=r0; r1=y", "STORE, STORE, LOAD");
}

/// The bench examples of paper 01, less LL and LS.
#[test]
fn locks() {
    writes("lock l; y=r0; unlock l", "LOCK, STORE, SS, UNLOCK");
    writes("lock l; unlock l; lock l; unlock l", "LOCK, UNLOCK, LOCK, SS, UNLOCK");
}

/// "Job 1's rule serves levels 2 and 3"
#[test]
fn no_store_load_barrier_before_a_lock() {
    writes("x=r0; lock l; unlock l", "STORE, LOCK, SS, UNLOCK");
    writes("x=r0; y=r0; lock l; unlock l", "STORE, STORE, LOCK, SS, UNLOCK");
    // it stands for the load behind the LOCK as well
    writes("x=r0; lock l; r1=x; unlock l", "STORE, LOCK, LOAD, SS, UNLOCK");
    // and stays where a volatile load follows
    writes("lock l; x=r0; r1=x; unlock l", "LOCK, STORE, SL, LOAD, SS, UNLOCK");
    writes("lock l; unlock l; r1=x", "LOCK, UNLOCK, SL, LOAD");
}

#[test]
fn skips_count_what_is_written() {
    writes("x=r0; skip r0 D; r1=x; D:; x=r0", "STORE, SKIP 4, SL, LOAD, SS, STORE");
    writes("x=r0; skip r0 D; lock l; unlock l; D:; r1=x", "STORE, SKIP 5, LOCK, SS, UNLOCK, SL, LOAD");
    writes("x=r0; skip r0 D; r1=x; D:; lock l; unlock l", "STORE, SKIP 4, SL, LOAD, LOCK, SS, UNLOCK");
    writes("y=r0; skip r0 end; x=r0", "STORE, SKIP 4, SS, STORE");
    writes("skip r0 D; y=r0; D:; x=r0", "SKIP 2, STORE, SS, STORE");
}

#[test]
fn the_sheet() {
    let file = kernel("y=1; x=2 ‖ x=3; r1=x; r2=y");
    let header = [2, 2, 0, 3, 0, 0, 0, 0, 5, 0, 5, 0, 0, 0, 0, 0];
    let lanes = [
        [1, 7, 0, 0, 1, 0, 0, 0],
        [4, 7, 1, 0, 0, 0, 0, 0],
        [1, 7, 0, 0, 2, 0, 0, 0],
        [13, 0, 0, 0, 0, 0, 0, 0],
        [4, 7, 0, 0, 0, 0, 0, 0],
        [1, 7, 0, 0, 3, 0, 0, 0],
        [4, 7, 0, 0, 0, 0, 0, 0],
        [14, 0, 0, 0, 0, 0, 0, 0],
        [3, 1, 0, 0, 0, 0, 0, 0],
        [3, 2, 1, 0, 0, 0, 0, 0],
    ];
    for lower in LEVEL3 {
        let mut sheet = vec![9; 110];
        assert_eq!(lower(&file, &mut sheet), 96);
        assert_eq!(sheet, [header.to_vec(), lanes.concat(), vec![9; 14]].concat());
        assert_eq!(lower(&file, &mut sheet[..95]), 9 << 32);
    }
}

#[test]
fn refusals() {
    let twice = assemble("x", "lock l; lock l").unwrap().file(0);
    for lower in LEVEL3 {
        let mut sheet = vec![9; 100];
        assert_eq!(lower(&twice, &mut sheet), (8 << 32) + 2);
        assert_eq!(lower(&twice[..15], &mut sheet), 1 << 32);
        assert_eq!(sheet, vec![9; 100]);
    }
}

/// The largest: a lane of 64 volatile stores has SS before each but the first.
#[test]
fn the_longest_lane() {
    let lane = "x=r0; ".repeat(64);
    writes(&lane, &["STORE"; 64].join(", SS, "));
}
