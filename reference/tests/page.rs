//! Tests: request 3 of paper 02, the page form of the level 2 sheet, lines written by hand, on both implementations.

use reference::litmus::assembler::assemble;
use reference::slow::kernel::{ADD, LOAD, LOCK, SET, SKIP, STORE, UNLOCK};
use reference::slow::page::line;
use reference::slow::sheets::Instruction;
use reference::writer::{Draft, Step};
use reference::{Lower, fast, slow};

const PAGE: [Lower; 2] = [slow::page, fast::page];

const SIXTEEN: &str = "x0 x1 x2 x3 x4 x5 x6 x7 x8 x9 x10 x11 x12 x13 x14 x15";

fn kernel(locations: &str, volatile: &str, lanes: &str) -> Vec<u8> {
    let assembled = assemble(locations, lanes).unwrap();
    assembled.file(assembled.mask(volatile).unwrap())
}

/// Lanes of so many SETs each.
fn sets(lengths: &[usize]) -> Vec<u8> {
    let lanes: Vec<String> = lengths.iter().map(|length| "r1=5;".repeat(*length)).collect();
    kernel("x", "{}", &lanes.join("‖"))
}

/// The lines, which both implementations have to give, each of 32 characters and a newline.
fn lines(file: &[u8]) -> Vec<String> {
    let [slow, fast] = PAGE.map(|page| {
        let mut out = vec![b'~'; 17_300];
        let written = page(file, &mut out);
        assert!(written < 17_300, "refused {} record {}", written >> 32, written as u32);
        let rest = out.split_off(written as usize);
        assert!(rest.iter().all(|byte| *byte == b'~'), "a byte behind the result");
        String::from_utf8(out).unwrap()
    });
    assert_eq!(slow, fast);
    assert!(slow.len().is_multiple_of(33) && slow.ends_with('\n'));
    let lines: Vec<String> = slow.split_terminator('\n').map(str::to_string).collect();
    assert!(lines.iter().all(|line| line.len() == 32));
    lines
}

#[test]
fn each_instruction() {
    let lane = "r7=4294967295; r0=0; r7+=r6; x15=r7; r5=x15; lock l3; unlock l3; skip r7 end";
    let expected = [
        // 345678901234567890123456789012
        "page                           1",
        "0   0 SET    7    4294967295   1",
        "0   1 SET    0             0   2",
        "0   2 ADD    7  6              3",
        "0   3 STORE  7 15              4",
        "0   4 MFENCE                    ",
        "0   5 LOAD   5 15              5",
        "0   6 LOCK      3              6",
        "0   7 UNLOCK    3              7",
        "0   8 SKIP   7             9   8",
    ];
    assert_eq!(lines(&kernel(SIXTEEN, "{x15}", lane)), expected);
}

#[test]
fn store_buffering() {
    let expected = [
        "page                           1",
        "0   0 SET    0             1   1",
        "0   1 STORE  0  0              2",
        "0   2 MFENCE                    ",
        "0   3 LOAD   1  1              3",
        "1   0 SET    0             1   4",
        "1   1 STORE  0  1              5",
        "1   2 MFENCE                    ",
        "1   3 LOAD   1  0              6",
    ];
    let file = kernel("x y", "{x y}", "r0=1; x=r0; r1=y ‖ r0=1; y=r0; r1=x");
    assert_eq!(lines(&file), expected);
    assert_eq!(slow::page_listing(&file), (expected.join("\n") + "\n").into_bytes());
}

/// Fields as wide as they are, positions that no kernel reaches among them.
#[test]
fn the_widest_lines() {
    let wide = |operation: u8| Instruction { operation, a: 7, b: 15, word: u32::MAX, record: 256, origin: 63 };
    assert_eq!(line(3, 127, wide(SET)), "3 127 SET    7    4294967295 256\n");
    assert_eq!(line(3, 127, wide(ADD)), "3 127 ADD    7 15            256\n");
    assert_eq!(line(3, 127, wide(LOAD)), "3 127 LOAD   7 15            256\n");
    assert_eq!(line(3, 127, wide(STORE)), "3 127 STORE  7 15            256\n");
    assert_eq!(line(3, 127, wide(LOCK)), "3 127 LOCK     15            256\n");
    assert_eq!(line(3, 127, wide(UNLOCK)), "3 127 UNLOCK   15            256\n");
    assert_eq!(line(3, 127, Instruction { word: 128, ..wide(SKIP) }), "3 127 SKIP   7           128 256\n");
    assert_eq!(line(3, 127, wide(15)), "3 127 MFENCE                    \n");
}

#[test]
fn each_length_of_a_constant() {
    for digits in 1..=10 {
        let constant = &"1234567890"[..digits];
        let expected = format!("0   0 SET    1    {constant:>10}   1");
        assert_eq!(lines(&kernel("x", "{}", &format!("r1={constant}")))[1], expected);
    }
    assert_eq!(lines(&kernel("x", "{}", "r1=100"))[1], "0   0 SET    1           100   1");
    assert_eq!(lines(&kernel("x", "{}", "r1=1000000000"))[1], "0   0 SET    1    1000000000   1");
}

#[test]
fn without_instructions_a_heading_alone() {
    for lanes in ["", "‖ ‖ ‖"] {
        assert_eq!(lines(&kernel("x", "{}", lanes)), ["page                           1"]);
        assert_eq!(PAGE.map(|page| page(&kernel("x", "{}", lanes), &mut [0; 33])), [33; 2]);
    }
}

/// Which lines are headings, and how many lines there are.
fn headings(file: &[u8]) -> (Vec<usize>, usize) {
    let lines = lines(file);
    let places: Vec<usize> = (0..lines.len()).filter(|at| lines[*at].starts_with('p')).collect();
    for (place, number) in places.iter().zip(["  1", "  2", "  3", "  4", "  5", "  6", "  7"]) {
        assert_eq!(lines[*place], format!("page                         {number}"));
    }
    (places, lines.len())
}

#[test]
fn fifty_five_lines_a_page() {
    assert_eq!(headings(&sets(&[1])), (vec![0], 2));
    assert_eq!(headings(&sets(&[54])), (vec![0], 55));
    assert_eq!(headings(&sets(&[55])), (vec![0], 56));
    assert_eq!(headings(&sets(&[56])), (vec![0, 56], 58));
    assert_eq!(headings(&sets(&[64, 46])), (vec![0, 56], 112));
    assert_eq!(headings(&sets(&[64, 47])), (vec![0, 56, 112], 114));
    assert_eq!(headings(&sets(&[64, 64, 64, 64])), (vec![0, 56, 112, 168, 224], 261));
    // MFENCE is a line like the others: 54 records, 55 instructions
    let fenced = "x=r0; r0=x;".to_string() + &"r1=5;".repeat(52);
    assert_eq!(headings(&kernel("x", "{x}", &fenced)), (vec![0], 56));
    assert_eq!(headings(&kernel("x", "{x}", &(fenced + "r1=5"))), (vec![0, 56], 58));
}

/// The most that a kernel reaches, volatile stores and loads in turn: 64 records and 32 MFENCEs a lane, 384 in all
/// (`mfences_are_at_most_half_the_records`).
#[test]
fn the_most_instructions() {
    let lane = "x15=r7; r7=x15;".repeat(32);
    let file = kernel(SIXTEEN, "{x15}", &vec![lane; 4].join("‖"));
    assert_eq!(headings(&file), (vec![0, 56, 112, 168, 224, 280, 336], 391));
    let lines = lines(&file);
    assert_eq!(
        lines[1..4],
        ["0   0 STORE  7 15              1", "0   1 MFENCE                    ", "0   2 LOAD   7 15              2"]
    );
    assert_eq!(lines[390], "3  95 LOAD   7 15            256");
    assert_eq!(PAGE.map(|page| page(&file, &mut [0; 12_903])), [12_903; 2]);
    assert_eq!(PAGE.map(|page| page(&file, &mut [0; 12_902])), [9 << 32; 2]);
}

/// Every lane of up to six volatile stores, volatile loads and SKIPs. No path goes on from a load with MFENCE to
/// another, so that each has a store or a SKIP of its own. UNLOCK is a store here; LOCK and the rest have no MFENCE.
#[test]
fn mfences_are_at_most_half_the_records() {
    for length in 0..=6 {
        let most = lanes_of(length).into_iter().map(|lane| {
            let draft = Draft { locations: 1, locks: 0, mask: 1, lanes: vec![lane] };
            let mut sheet = [0; 200];
            (fast::lower2(&draft.file(), &mut sheet) as usize - 16) / 8 - length
        });
        assert_eq!(most.max(), Some(length / 2));
    }
}

fn lanes_of(length: usize) -> Vec<Vec<Step>> {
    (0..length).fold(vec![vec![]], |lanes, position| {
        let accesses = [STORE, LOAD].map(|operation| Step { operation, ..Step::default() });
        let skips = (position + 1..=length).map(|to| Step { operation: SKIP, target: Some(to), ..Step::default() });
        let steps: Vec<Step> = accesses.into_iter().chain(skips).collect();
        lanes.iter().flat_map(|lane| steps.iter().map(move |step| [&lane[..], &[*step]].concat())).collect()
    })
}

#[test]
fn lanes_run_on() {
    let lines = lines(&sets(&[40, 0, 20]));
    assert_eq!(lines.len(), 62);
    assert_eq!(lines[40..42], ["0  39 SET    1             5  40", "2   0 SET    1             5  41"]);
    let break_in_lane_2 =
        ["2  14 SET    1             5  55", "page                           2", "2  15 SET    1             5  56"];
    assert_eq!(lines[55..58], break_in_lane_2);
}

#[test]
fn a_lock_has_no_mfence() {
    let expected =
        ["0   0 STORE  0  0              1", "0   1 LOCK      0              2", "0   2 UNLOCK    0              3"];
    assert_eq!(lines(&kernel("x", "{x}", "x=r0; lock l; unlock l"))[1..], expected);
}

/// Six instructions stand before the target's MFENCE at level 2, eight before its barriers at level 1, five records.
#[test]
fn a_skip_has_its_position_at_level_2() {
    let lines = lines(&kernel("x y", "{x}", "x=r0; r1=x; skip r2 D; y=r0; x=r0; D:; r1=x; skip r3 end; r4=9"));
    let expected = [
        "0   0 STORE  0  0              1",
        "0   1 MFENCE                    ",
        "0   2 LOAD   1  0              2",
        "0   3 SKIP   2             6   3",
        "0   4 STORE  0  1              4",
        "0   5 STORE  0  0              5",
        "0   6 MFENCE                    ",
        "0   7 LOAD   1  0              6",
        "0   8 SKIP   3            10   7",
        "0   9 SET    4             9   8",
    ];
    assert_eq!(lines[1..], expected);
}

#[test]
fn a_record_has_the_number_of_its_place_in_the_file() {
    let set = |a: u8| Step { operation: SET, a, constant: u32::from(a) * 100, ..Step::default() };
    let draft = Draft { locations: 1, locks: 0, mask: 0, lanes: vec![vec![set(1), set(2), set(3)], vec![set(4)]] };
    let expected = [
        "page                           1",
        "0   0 SET    1           100   3",
        "0   1 SET    2           200   1",
        "0   2 SET    3           300   4",
        "1   0 SET    4           400   2",
    ];
    assert_eq!(lines(&draft.file_numbered(&[3, 1, 4, 2])), expected);
}

/// Both implementations refuse and write nothing.
fn refused(file: &[u8], room: usize, number: u64, record: u64) {
    for page in PAGE {
        let mut out = vec![77; room];
        assert_eq!(page(file, &mut out), (number << 32) + record);
        assert!(out.iter().all(|byte| *byte == 77));
    }
}

#[test]
fn refusals() {
    refused(&sets(&[]), 0, 9, 0);
    refused(&sets(&[]), 32, 9, 0);
    refused(&sets(&[55]), 56 * 33 - 1, 9, 0);
    refused(&sets(&[56]), 58 * 33 - 1, 9, 0);
    // the file's refusals come first
    let file = sets(&[3, 2]);
    let changed = |at: usize, byte: u8| [&file[..at], &[byte], &file[at + 1..]].concat();
    for room in [0, 32, 198, 300] {
        refused(&file[..15], room, 1, 0);
        refused(&changed(0, 5), room, 2, 0);
        refused(&file[..file.len() - 1], room, 3, 0);
        refused(&changed(16 + 12 * 3 + 1, 8), room, 4, 4);
        refused(&changed(16 + 12 * 2 + 10, 3), room, 5, 3);
        refused(&sets(&[65]), room, 6, 65);
        refused(&kernel("x", "{}", "r0=1; lock l; lock l; unlock l"), room, 8, 3);
    }
    let mut to_itself = kernel("x", "{}", "r0=1; skip r0 end");
    to_itself[16 + 12 + 8] = 2;
    refused(&to_itself, 300, 7, 2);
}

#[test]
fn what_the_program_prints() {
    let mut file = kernel("x y", "{x y}", "r0=1; x=r0; r1=y ‖ r0=1; y=r0; r1=x");
    file[16 + 24 + 10] = 3;
    assert_eq!(slow::page_listing(&file), b"refused 5 record 3\n");
    assert_eq!(slow::page_listing(b""), b"refused 1 record 0\n");
    // the last of 3,089 bytes is read, and none behind it
    let full = sets(&[64, 64, 64, 64]);
    assert_eq!(slow::page_listing(&full).len(), 261 * 33);
    assert_eq!(slow::page_listing(&[&full[..], &[0]].concat()), b"refused 3 record 0\n");
    assert_eq!(slow::page_listing(&[&full[..], &[0; 9000]].concat()), b"refused 3 record 0\n");
}
