//! Tests: the third machine of request 4 of paper 02, by runs written by hand from its sentences.

use reference::litmus::assembler::assemble;
use reference::slow::machines::Machine;
use reference::slow::pending::{Entry, Item, Pending};
use reference::slow::{self, STATE};
use reference::{Run, fast};

const PSO: [Run; 2] = [|file, moves, state| slow::run(Machine::Pso, file, moves, state), fast::run_pso];

/// Location v is volatile, the others are plain: v is 0, x is 1, y is 2, z is 3.
fn kernel(lanes: &str) -> Vec<u8> {
    assemble("v x y z", lanes).unwrap().file(1)
}

const INSTRUCTION: [u8; 2] = [0, 0];

/// The state record after so many instructions of lane 0 and then commits of its list, by both implementations.
fn end(lanes: &str, instructions: usize, choices: &[u8]) -> Vec<u8> {
    let commits = choices.iter().map(|choice| [0, *choice]);
    state(lanes, &[INSTRUCTION].repeat(instructions).into_iter().chain(commits).collect::<Vec<_>>())
}

fn state(lanes: &str, moves: &[[u8; 2]]) -> Vec<u8> {
    let [slow, fast] = PSO.map(|run| {
        let mut state = vec![3; STATE];
        assert_eq!(run(&kernel(lanes), &moves.concat(), &mut state), STATE as u64);
        state
    });
    assert_eq!(slow, fast);
    slow
}

/// Moves done and waited.
fn counts(state: &[u8]) -> (u8, u8) {
    (state[8], state[16])
}

/// Memory of v, x, y and z.
fn memory(state: &[u8]) -> [u8; 4] {
    [0, 1, 2, 3].map(|location| state[24 + 4 * location])
}

/// Of each pending entry of lane 0: kind, location or lock, byte 2, value.
fn pending(state: &[u8]) -> Vec<[u8; 4]> {
    let entries = state[124..].chunks(8).take(usize::from(state[90]));
    entries.map(|entry| [entry[0], entry[1], entry[2], entry[4]]).collect()
}

#[test]
fn an_entry_commits_past_older_ones_of_other_locations() {
    let end = end("x=1; y=2; z=3", 6, &[3, 2]);
    assert_eq!((counts(&end), memory(&end)), ((8, 0), [0, 0, 2, 3]));
    assert_eq!(pending(&end), [[1, 1, 0, 1]]);
}

#[test]
fn not_past_an_older_entry_of_its_own_location() {
    let lane = "x=1; y=2; x=3";
    assert_eq!(counts(&end(lane, 6, &[3])), (6, 1));
    // y first, then the older x, then the newer one
    let all = end(lane, 6, &[2, 2, 1, 1]);
    assert_eq!((counts(&all), memory(&all), all[0]), ((9, 1), [0, 3, 2, 0], 1));
}

/// Level 3 has SS before the volatile store: the list is x, mark, v.
#[test]
fn not_past_a_mark() {
    let lane = "x=1; v=2";
    let held = end(lane, 5, &[2]);
    assert_eq!((counts(&held), memory(&held)), ((5, 1), [0; 4]));
    assert_eq!(pending(&held), [[1, 1, 1, 1], [1, 0, 0, 2]]);
    // "a mark that becomes the oldest vanishes"
    let oldest = end(lane, 5, &[1]);
    assert_eq!((memory(&oldest), pending(&oldest)), ([0, 1, 0, 0], vec![[1, 0, 0, 2]]));
    let all = end(lane, 5, &[1, 1]);
    assert_eq!((counts(&all), memory(&all), all[0]), ((7, 0), [2, 1, 0, 0], 1));
}

/// x, y, mark, v: the mark stays behind what is left of the entries before it.
#[test]
fn a_mark_stays_until_all_before_it_have_committed() {
    let lane = "x=1; y=2; v=3";
    assert_eq!(pending(&end(lane, 7, &[])), [[1, 1, 0, 1], [1, 2, 1, 2], [1, 0, 0, 3]]);
    assert_eq!(counts(&end(lane, 7, &[3])), (7, 1));
    let second = end(lane, 7, &[2, 2]);
    assert_eq!((counts(&second), pending(&second)), ((8, 1), vec![[1, 1, 1, 1], [1, 0, 0, 3]]));
    let first = end(lane, 7, &[1, 2]);
    assert_eq!((counts(&first), pending(&first)), ((8, 1), vec![[1, 2, 1, 2], [1, 0, 0, 3]]));
    let both = end(lane, 7, &[2, 1, 1]);
    assert_eq!((counts(&both), memory(&both), both[0]), ((10, 0), [3, 1, 2, 0], 1));
}

/// x, mark, v, z: z has the location of no older entry, but the mark is older.
#[test]
fn a_mark_holds_plain_stores_back_too() {
    let lane = "x=1; v=2; z=3";
    assert_eq!(counts(&end(lane, 7, &[3])), (7, 1));
    // once the mark has vanished, z may go past v
    let past = end(lane, 7, &[1, 2]);
    assert_eq!((counts(&past), memory(&past), pending(&past)), ((9, 0), [0, 1, 0, 3], vec![[1, 0, 0, 2]]));
}

/// "A move's choice counts entries and not marks": x, mark, v, mark, v has three.
#[test]
fn choices_count_entries() {
    let lane = "x=1; v=2; v=3";
    let marks = end(lane, 8, &[4, 3, 2]);
    assert_eq!((counts(&marks), pending(&marks)), ((8, 3), vec![[1, 1, 1, 1], [1, 0, 1, 2], [1, 0, 0, 3]]));
    let one = end(lane, 8, &[1, 2]);
    assert_eq!((counts(&one), pending(&one)), ((9, 1), vec![[1, 0, 1, 2], [1, 0, 0, 3]]));
    let all = end(lane, 8, &[1, 1, 1]);
    assert_eq!((counts(&all), memory(&all), all[0]), ((11, 0), [3, 1, 0, 0], 1));
}

/// "An SS mark with nothing pending before it .. leaves no mark"
#[test]
fn ss_with_nothing_pending() {
    // SET, STORE, the commit, then SET, SS and STORE
    let committed = [[0, 0], [0, 0], [0, 1], [0, 0], [0, 0], [0, 0]];
    let store = state("x=1; v=2; y=3", &[&committed[..], &[[0, 0], [0, 0], [0, 2]]].concat());
    assert_eq!((counts(&store), memory(&store), pending(&store)), ((9, 0), [0, 1, 3, 0], vec![[1, 0, 0, 2]]));
    // SS behind a LOCK, before the UNLOCK
    let release = state("x=1; lock l; unlock l", &committed);
    assert_eq!((counts(&release), release[4], pending(&release)), ((6, 0), 1, vec![[2, 0, 0, 0]]));
    let freed = state("x=1; lock l; unlock l", &[&committed[..], &[[0, 1]]].concat());
    assert_eq!((counts(&freed), freed[4], freed[0]), ((7, 0), 0, 1));
}

/// ".. or right after another mark": lowering puts a store behind each SS, so that only the list itself can show it.
#[test]
fn ss_right_after_a_mark() {
    let (one, two) = (Entry::Store { location: 1, value: 1 }, Entry::Release { lock: 0 });
    let mut list = Pending::default();
    list.mark();
    list.append(one);
    list.mark();
    list.mark();
    list.append(two);
    list.mark();
    assert_eq!(list.nth(1), Some((&[Item::Entry(one), Item::Mark][..], two)));
    assert_eq!((list.marked(), list.count()), (vec![(one, true), (two, true)], 2));
    list.remove(0);
    assert_eq!((list.nth(0), list.marked()), (Some((&[][..], two)), vec![(two, true)]));
    list.remove(0);
    assert_eq!(list, Pending::default());
}

/// "SS" itself never waits; SL and LOCK "need an empty list, LOCK also a free lock".
#[test]
fn barriers_and_lock() {
    // SET, STORE, SL
    assert_eq!(counts(&end("v=1; r1=v", 3, &[])), (2, 1));
    let drained = state("v=1; r1=v", &[[0, 0], [0, 0], [0, 1], [0, 0], [0, 0]]);
    assert_eq!((counts(&drained), drained[92 + 4], drained[0]), ((5, 0), 1, 1));
    assert_eq!(counts(&end("x=1; lock l; unlock l", 3, &[])), (2, 1));
    let held = state("lock l; unlock l ‖ lock l; unlock l", &[[0, 0], [1, 0], [0, 0], [1, 0], [0, 1], [1, 0]]);
    assert_eq!((counts(&held), held[4]), ((4, 2), 2));
    assert_eq!(counts(&end("x=1; v=2", 4, &[])), (4, 0));
}

#[test]
fn loads_take_the_newest_own_value_else_memory() {
    let end = end("x=5; x=6; r1=x; r2=y", 6, &[]);
    assert_eq!((counts(&end), end[92 + 4], end[92 + 8], memory(&end)), ((6, 0), 6, 0, [0; 4]));
    // a mark between them changes nothing
    let marked = self::end("x=5; v=6; x=7; r1=x", 8, &[]);
    assert_eq!((counts(&marked), marked[92 + 4]), ((8, 0), 7));
}

/// LOCK, SET, STORE, SS, UNLOCK, SET, STORE: the list is x, mark, release, z.
#[test]
fn the_state_record() {
    let lane = "lock l; x=5; unlock l; z=6";
    let mut expected = vec![0; STATE];
    (expected[4], expected[8], expected[16]) = (1, 7, 2);
    expected[88..92].copy_from_slice(&[7, 0, 3, 0]);
    expected[92 + 28] = 6;
    expected[124..132].copy_from_slice(&[1, 1, 1, 0, 5, 0, 0, 0]);
    expected[132..140].copy_from_slice(&[2, 0, 0, 0, 0, 0, 0, 0]);
    expected[140..148].copy_from_slice(&[1, 3, 0, 0, 6, 0, 0, 0]);
    assert_eq!(end(lane, 7, &[2, 3]), expected);
    // behind the vanished mark z goes past the release, and the lock is held until that commits
    let past = end(lane, 7, &[1, 2]);
    assert_eq!((memory(&past), past[4], pending(&past)), ([0, 5, 0, 6], 1, vec![[2, 0, 0, 0]]));
    assert_eq!(end(lane, 7, &[1, 2, 1])[4], 0);
}

/// Lists of 64: 63 plain stores in turn and a volatile one, which has SS before it.
#[test]
fn a_mark_behind_the_63rd_of_64() {
    let lane = "x=r0; y=r0; z=r0; ".repeat(21) + "v=r0";
    let held = end(&lane, 65, &[64]);
    assert_eq!((counts(&held), held[90]), ((65, 1), 64));
    let marks: Vec<u8> = pending(&held).iter().map(|entry| entry[2]).collect();
    assert_eq!(marks, [vec![0; 62], vec![1, 0]].concat());
    // each in its order, the mark with the last of them
    let drained = end(&lane, 65, &[1; 64]);
    assert_eq!((counts(&drained), drained[0]), ((129, 0), 1));
    // without the volatile store the 64th is a plain one to a location of its own
    let plain = end(&("x=r0; ".repeat(63) + "y=r0"), 64, &[64]);
    assert_eq!((counts(&plain), plain[90]), ((65, 0), 63));
}

/// Marks about the middle of a list of 64, behind the 31st and the 32nd entry.
#[test]
fn marks_behind_the_31st_and_32nd() {
    let lane = "x=r0; ".repeat(30) + "y=r0; v=r0; v=r0; " + &"z=r0; ".repeat(31);
    let marks = |state: &[u8]| (0..).zip(pending(state)).filter(|(_, entry)| entry[2] == 1).map(|(at, _)| at).collect();
    let full = end(&lane, 66, &[33, 32]);
    assert_eq!((counts(&full), marks(&full)), ((66, 2), vec![30, 31]));
    // the 31st, to y, commits first, and its mark stands behind the 30th
    let past = end(&lane, 66, &[31, 31]);
    assert_eq!((counts(&past), marks(&past)), ((67, 1), vec![29, 30]));
    let last = end(&lane, 66, &[vec![31], vec![1; 30], vec![2]].concat());
    assert_eq!((counts(&last), marks(&last)), ((97, 1), vec![0]));
}

/// "A move's choice .. up to 64"
#[test]
fn refusals_of_a_run() {
    let file = kernel("x=1 ‖ x=1");
    let answers = |file: &[u8], moves: &[u8], room: usize, number: u64| {
        for run in PSO {
            let mut state = vec![3; room];
            assert_eq!(run(file, moves, &mut state), number << 32);
            assert_eq!(state, vec![3; room]);
        }
    };
    answers(&file, &[0, 0, 1, 65], STATE, 10);
    answers(&file, &[0, 65, 1, 0], STATE, 10);
    answers(&file, &[0, 0, 2, 0], STATE, 10);
    answers(&file, &[0, 0, 0], STATE, 10);
    answers(&file, &[0, 65], STATE - 1, 9);
    answers(&file[..15], &[9], 0, 1);
    assert_eq!(counts(&end("x=1", 2, &[64, 2, 1, 64])), (3, 3));
}

/// Source document 002, section 4.3.1: the computation that justifies example 1.3, and that of example 2.40.
#[test]
fn the_computations_of_document_002() {
    let moves = [[0, 0], [0, 0], [0, 0], [0, 0], [0, 2], [1, 0], [1, 0], [0, 1]];
    let read = |end: &[u8]| (end[92 + 548], end[92 + 548 + 4]);
    let example = state("x=1; y=1 ‖ r0=y; r1=x", &moves);
    assert_eq!((counts(&example), read(&example), example[0]), ((8, 0), (1, 0), 1));
    // with SS, the write of q has to wait for the one of p
    let barred = [[0, 0], [0, 0], [0, 0], [0, 0], [0, 0], [0, 2], [0, 1], [0, 1], [1, 0], [1, 0]];
    let example = state("x=1; v=1 ‖ r0=v; r1=x", &barred);
    assert_eq!((counts(&example), read(&example), example[0]), ((9, 1), (1, 1), 1));
}

/// The other machines have no mark to show.
#[test]
fn no_mark_on_the_other_machines() {
    let file = kernel("x=1; v=2; v=3; x=4");
    for machine in [Machine::Source, Machine::Tso] {
        let mut state = vec![3; STATE];
        slow::run(machine, &file, &[0, 0].repeat(8), &mut state);
        assert_eq!(pending(&state), [[1, 1, 0, 1], [1, 0, 0, 2], [1, 0, 0, 3], [1, 1, 0, 4]]);
    }
}
