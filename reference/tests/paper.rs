//! Tests: the bench examples of paper 01, bytes and numbers as it prints them, on both implementations.

use reference::litmus::assembler::assemble;
use reference::{Lower, fast, slow};

/// Level 1 and level 2 of both implementations.
const LEVELS: [[Lower; 2]; 2] = [
    [|file, sheet| slow::lower(1, file, sheet), fast::lower1],
    [|file, sheet| slow::lower(2, file, sheet), fast::lower2],
];

/// Two lanes, two locations; lane 0 is SET 0 to 1, STORE 0 to location 0, LOAD 1 from location 1, lane 1 the mirror.
fn store_buffering(mask: u8) -> Vec<u8> {
    let header = [2, 2, 0, 0, mask, 0, 6, 0, 1, 0, 4, 0, 0, 0, 0, 0];
    let records = [
        [1, 0, 0, 0, 1, 0, 0, 0, 0, 0, 2, 0],
        [4, 0, 0, 0, 0, 0, 0, 0, 0, 0, 3, 0],
        [3, 1, 1, 0, 0, 0, 0, 0, 0, 0, 0, 0],
        [1, 0, 0, 0, 1, 0, 0, 0, 0, 0, 5, 0],
        [4, 0, 1, 0, 0, 0, 0, 0, 0, 0, 6, 0],
        [3, 1, 0, 0, 0, 0, 0, 0, 0, 0, 0, 0],
    ];
    [header.to_vec(), records.concat()].concat()
}

fn refused(number: u64, record: u64) -> u64 {
    (number << 32) + record
}

/// Both implementations, both levels, one answer.
fn answers(file: &[u8], room: usize, answer: u64) {
    for lower in LEVELS.concat() {
        let mut sheet = vec![77; room];
        assert_eq!(lower(file, &mut sheet), answer);
        assert!(answer < 1 << 32 || sheet.iter().all(|byte| *byte == 77));
    }
}

/// Operations of lane 0's part of the sheet.
fn operations(level: usize, locations: &str, volatile: &str, lane: &str) -> Vec<u8> {
    let assembled = assemble(locations, lane).unwrap();
    let file = assembled.file(assembled.mask(volatile).unwrap());
    let [slow, fast] = LEVELS[level - 1].map(|lower| {
        let mut sheet = vec![0; 8192];
        let written = lower(&file, &mut sheet) as usize;
        assert!(written < 8192, "refused");
        sheet[16..written].chunks(8).map(|instruction| instruction[0]).collect::<Vec<_>>()
    });
    assert_eq!(slow, fast);
    slow
}

const LL: u8 = 11;
const LS: u8 = 12;
const SS: u8 = 13;
const SL: u8 = 14;
const MFENCE: u8 = 15;
const LOAD: u8 = 3;
const STORE: u8 = 4;
const LOCK: u8 = 5;
const UNLOCK: u8 = 6;
const SKIP: u8 = 7;

#[test]
fn listing_of_store_buffering() {
    let text = "lanes 2 locations 2 volatile 2 locks 0
0 0 SET 0 1
0 1 STORE 0 0
0 2 MFENCE
0 3 LOAD 1 1
1 0 SET 0 1
1 1 STORE 0 1
1 2 MFENCE
1 3 LOAD 1 0
";
    assert_eq!(String::from_utf8(slow::listing(&store_buffering(3))).unwrap(), text);
}

#[test]
fn listing_of_a_refusal() {
    let mut file = store_buffering(3);
    file[16 + 24 + 10] = 3;
    assert_eq!(slow::listing(&file), b"refused 5 record 3\n");
}

#[test]
fn listing_reads_3089_bytes() {
    let long = |count: usize| [vec![1, 1, 0, 0, 0, 0, 0, 1, 1, 0, 0, 0, 0, 0, 0, 0], vec![0; count]].concat();
    // 256 records of operation 0 are a bad record at 3,088 bytes and a bad length at any more
    assert_eq!(slow::listing(&long(3072)), b"refused 4 record 1\n");
    assert_eq!(slow::listing(&long(3073)), b"refused 3 record 0\n");
    assert_eq!(slow::listing(&long(9000)), b"refused 3 record 0\n");
}

#[test]
fn the_assembler_writes_the_same_file() {
    let assembled = assemble("x y", "r0=1; x=r0; r1=y ‖ r0=1; y=r0; r1=x").unwrap();
    assert_eq!(assembled.file(3), store_buffering(3));
}

#[test]
fn store_buffering_with_mask_3() {
    answers(&store_buffering(3), 80, 80);
    answers(&store_buffering(3), 79, refused(9, 0));
    let header = [2, 2, 0, 2, 0, 0, 0, 0, 4, 0, 4, 0, 0, 0, 0, 0];
    let lanes = [
        [1, 0, 0, 0, 1, 0, 0, 0],
        [4, 0, 0, 0, 0, 0, 0, 0],
        [15, 0, 0, 0, 0, 0, 0, 0],
        [3, 1, 1, 0, 0, 0, 0, 0],
        [1, 0, 0, 0, 1, 0, 0, 0],
        [4, 0, 1, 0, 0, 0, 0, 0],
        [15, 0, 0, 0, 0, 0, 0, 0],
        [3, 1, 0, 0, 0, 0, 0, 0],
    ];
    for lower in LEVELS[1] {
        let mut sheet = vec![9; 90];
        assert_eq!(lower(&store_buffering(3), &mut sheet), 80);
        assert_eq!(sheet, [header.to_vec(), lanes.concat(), vec![9; 10]].concat());
    }
}

#[test]
fn store_buffering_with_mask_1_has_no_barrier() {
    answers(&store_buffering(1), 100, 16 + 8 * 6);
}

#[test]
fn pairs_of_accesses() {
    assert_eq!(operations(1, "x y", "{y}", "x=r0; y=r0"), [STORE, SS, STORE]);
    assert_eq!(operations(2, "x y", "{y}", "x=r0; y=r0"), [STORE, STORE]);
    assert_eq!(operations(1, "x y", "{x}", "r0=x; r1=y"), [LOAD, LL, LOAD]);
    assert_eq!(operations(1, "x", "{x}", "x=r0; r0=x; r0=x"), [STORE, SL, LOAD, LL, LOAD]);
    assert_eq!(operations(1, "x", "{x}", "x=r0; x=r0; r0=x"), [STORE, SS, STORE, SL, LOAD]);
}

#[test]
fn a_skip_over_a_volatile_load() {
    let lane = "x=r0; skip r0 D; r0=x; D:; r0=x";
    assert_eq!(operations(1, "x", "{x}", lane), [STORE, SKIP, SL, LOAD, LL, SL, LOAD]);
    assert_eq!(operations(2, "x", "{x}", lane), [STORE, SKIP, MFENCE, LOAD, MFENCE, LOAD]);
}

#[test]
fn locks() {
    assert_eq!(operations(1, "x", "{}", "lock l; x=r0; unlock l"), [LOCK, LS, STORE, SS, UNLOCK]);
    let twice = "lock l; unlock l; lock l; unlock l";
    assert_eq!(operations(1, "x", "{}", twice), [LOCK, LS, UNLOCK, LL, SL, LOCK, LS, SS, UNLOCK]);
}

#[test]
fn a_skip_lands_on_its_targets_first_barrier() {
    let assembled = assemble("x", "x=r0; skip r0 D; r0=x; D:; r0=x").unwrap();
    let file = assembled.file(1);
    for (lowers, position) in LEVELS.iter().zip([4, 4]) {
        for lower in lowers {
            let mut sheet = vec![0; 200];
            lower(&file, &mut sheet);
            assert_eq!(sheet[16 + 8..16 + 16], [7, 0, 0, 0, position, 0, 0, 0]);
        }
    }
}

#[test]
fn no_records() {
    answers(&[1, 1, 0, 0, 0, 0, 0, 0, 0, 0, 0, 0, 0, 0, 0, 0], 16, 16);
}

/// One lane of SETs chained in order.
fn sets(count: usize) -> Vec<u8> {
    assemble("x", &"r0=1;".repeat(count)).unwrap().file(0)
}

#[test]
fn lengths_of_a_lane() {
    answers(&sets(64), 16 + 8 * 64, 16 + 8 * 64);
    answers(&sets(65), 4096, refused(6, 65));
}

#[test]
fn refusals_of_the_bench() {
    let mut chained_to_itself = sets(1);
    chained_to_itself[16 + 10] = 1;
    answers(&chained_to_itself, 100, refused(5, 1));
    answers(&store_buffering(3)[..15], 100, refused(1, 0));
    answers(&[vec![5], store_buffering(3)[1..].to_vec()].concat(), 100, refused(2, 0));
    answers(&assemble("x", "lock l; lock l").unwrap().file(0), 100, refused(8, 2));
    assert_eq!(sets(9).len(), 124);
    answers(&sets(9)[..123], 100, refused(3, 0));
}
