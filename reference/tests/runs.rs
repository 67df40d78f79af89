//! Tests: runs written by hand from paper 01's machine sentences, its examples of outcomes, and request 2 of paper 02,
//! "a run is finished when every lane stands at its end and nothing is pending".

use reference::litmus::assembler::assemble;
use reference::slow::machines::{Machine, Program};
use reference::slow::{self, STATE};
use reference::{Run, fast};

const SOURCE: [Run; 2] = [|file, moves, state| slow::run(Machine::Source, file, moves, state), fast::run_source];
const TSO: [Run; 2] = [|file, moves, state| slow::run(Machine::Tso, file, moves, state), fast::run_tso];
const PSO: [Run; 2] = [|file, moves, state| slow::run(Machine::Pso, file, moves, state), fast::run_pso];

fn kernel(locations: &str, volatile: &str, lanes: &str) -> Vec<u8> {
    let assembled = assemble(locations, lanes).unwrap();
    assembled.file(assembled.mask(volatile).unwrap())
}

/// The state record after a schedule, which both implementations have to give.
fn state(runs: [Run; 2], file: &[u8], moves: &[[u8; 2]]) -> Vec<u8> {
    let [slow, fast] = runs.map(|run| {
        let mut state = vec![3; STATE];
        assert_eq!(run(file, &moves.concat(), &mut state), STATE as u64);
        state
    });
    assert_eq!(slow, fast);
    slow
}

/// Moves done and waited.
fn counts(state: &[u8]) -> (u8, u8) {
    (state[8], state[16])
}

fn register(state: &[u8], lane: usize, register: usize) -> u8 {
    state[88 + 548 * lane + 4 + 4 * register]
}

fn memory(state: &[u8], location: usize) -> u8 {
    state[24 + 4 * location]
}

#[test]
fn both_zero_in_store_buffering() {
    for (mask, possible) in [("{x y}", false), ("{x}", true)] {
        let file = kernel("x y", mask, "r0=1; x=r0; r1=y ‖ r0=1; y=r0; r1=x");
        for machine in Machine::ALL {
            let outcomes = slow::outcomes(machine, &file).unwrap();
            let zero = outcomes.iter().any(|outcome| outcome.registers.iter().all(|lane| lane[1] == 0));
            assert_eq!(zero, possible);
        }
    }
}

#[test]
fn the_state_record() {
    let file = kernel("x y", "{}", "r0=1; x=r0; r1=y ‖ lock l1; unlock l1");
    // lane 0 carries out all, lane 1 takes lock 1 and appends its release; one more move of each waits;
    // byte 0 is 0, for an entry of each is pending
    let state = state(TSO, &file, &[[0, 0], [0, 0], [1, 0], [1, 0], [0, 0], [0, 0], [1, 0]]);
    let mut expected = vec![0; STATE];
    expected[4..8].copy_from_slice(&[0, 2, 0, 0]);
    (expected[8], expected[16]) = (5, 2);
    expected[88..96].copy_from_slice(&[3, 0, 1, 0, 1, 0, 0, 0]);
    expected[124..132].copy_from_slice(&[1, 0, 0, 0, 1, 0, 0, 0]);
    expected[636..640].copy_from_slice(&[2, 0, 1, 0]);
    expected[672..680].copy_from_slice(&[2, 1, 0, 0, 0, 0, 0, 0]);
    assert_eq!(state, expected);
}

#[test]
fn a_volatile_load_waits_for_the_own_volatile_store() {
    let file = kernel("x", "{x}", "x=5; r1=x");
    let waits = state(SOURCE, &file, &[[0, 0], [0, 0], [0, 0]]);
    assert_eq!((counts(&waits), register(&waits, 0, 1)), ((2, 1), 0));
    let reads = state(SOURCE, &file, &[[0, 0], [0, 0], [0, 1], [0, 0]]);
    assert_eq!((counts(&reads), register(&reads, 0, 1), reads[0]), ((4, 0), 5, 1));
}

#[test]
fn a_plain_load_takes_the_newest_own_value() {
    let file = kernel("x", "{}", "x=5; x=6; r1=x");
    for runs in [SOURCE, TSO, PSO] {
        let end = state(runs, &file, &[[0, 0]; 5]);
        assert_eq!((counts(&end), register(&end, 0, 1), memory(&end, 0)), ((5, 0), 6, 0));
    }
}

#[test]
fn commits_of_the_house_machine() {
    let file = kernel("x y", "{}", "lock l; x=5; x=6; y=7; unlock l");
    let carried = [[0, 0]; 8];
    let after = |choice: u8| state(SOURCE, &file, &[&carried[..], &[[0, choice]]].concat());
    assert_eq!((counts(&after(1)), memory(&after(1), 0)), ((9, 0), 5));
    // an older own entry has its location
    assert_eq!(counts(&after(2)), (8, 1));
    assert_eq!((counts(&after(3)), memory(&after(3), 1)), ((9, 0), 7));
    // an UNLOCK commits only as the oldest; a choice beyond the list waits
    assert_eq!(counts(&after(4)), (8, 1));
    assert_eq!(counts(&after(64)), (8, 1));
}

#[test]
fn a_lock_is_handed_over_by_the_commit() {
    let file = kernel("x", "{}", "lock l; unlock l ‖ lock l; unlock l");
    for runs in [SOURCE, TSO, PSO] {
        let waits = state(runs, &file, &[[0, 0], [1, 0], [0, 0], [1, 0]]);
        assert_eq!((counts(&waits), waits[4]), ((2, 2), 1));
        let takes = state(runs, &file, &[[0, 0], [0, 0], [0, 1], [1, 0]]);
        assert_eq!((counts(&takes), takes[4]), ((4, 0), 2));
    }
}

#[test]
fn a_lock_and_the_own_list() {
    let file = kernel("x", "{}", "x=5; lock l; unlock l");
    let moves = [[0, 0]; 3];
    assert_eq!(counts(&state(SOURCE, &file, &moves)), (3, 0));
    assert_eq!(counts(&state(TSO, &file, &moves)), (2, 1));
}

#[test]
fn skips_and_sums() {
    let file = kernel("x", "{}", "r1=-1; r2=3; r1+=r2; skip r0 D; r3=9; D:; skip r1 end; r4=4");
    for runs in [SOURCE, TSO, PSO] {
        let end = state(runs, &file, &[[0, 0]; 7]);
        let registers: Vec<u8> = (0..5).map(|number| register(&end, 0, number)).collect();
        assert_eq!((counts(&end), registers, end[0]), ((6, 1), vec![0, 2, 3, 0, 4], 1));
    }
}

/// Byte 0 on the machines, which have to agree.
fn finished(file: &[u8], moves: &[[u8; 2]]) -> u8 {
    let [source, tso, pso] = [SOURCE, TSO, PSO].map(|runs| state(runs, file, moves)[0]);
    assert_eq!([source, source], [tso, pso]);
    source
}

#[test]
fn the_empty_run_of_an_empty_kernel_is_finished() {
    assert_eq!(finished(&kernel("x", "{}", ""), &[]), 1);
    assert_eq!(finished(&kernel("x", "{}", " ‖  ‖  ‖ "), &[]), 1);
}

#[test]
fn a_store_pending_at_the_end_is_not_finished_until_its_commit() {
    let file = kernel("x", "{}", "x=5; x=6");
    let moves = [[0, 0], [0, 0], [0, 0], [0, 0], [0, 1], [0, 1]];
    let ends = [4, 5, 6].map(|count| finished(&file, &moves[..count]));
    assert_eq!(ends, [0, 0, 1]);
    // memory as a viewer would draw it at each of the three
    let drawn = [4, 5, 6].map(|count| memory(&state(TSO, &file, &moves[..count]), 0));
    assert_eq!(drawn, [0, 5, 6]);
}

#[test]
fn not_finished_while_one_lane_alone_has_a_store_pending() {
    let file = kernel("x", "{}", "x=r0 ‖ x=r0 ‖ x=r0 ‖ x=r0");
    let (ended, committed) = ([[0, 0], [1, 0], [2, 0], [3, 0]], [[0, 1], [1, 1], [2, 1], [3, 1]]);
    for lane in 0..4 {
        let others = committed.iter().filter(|[own, _]| *own != lane);
        let moves: Vec<_> = ended.iter().chain(others).copied().collect();
        assert_eq!(finished(&file, &moves), 0);
        assert_eq!(finished(&file, &[&moves[..], &[[lane, 1]]].concat()), 1);
    }
}

#[test]
fn drained_but_not_at_its_end_is_not_finished() {
    assert_eq!(finished(&kernel("x", "{}", "r0=1"), &[]), 0);
    let file = kernel("x", "{}", "x=r0; r1=1 ‖ x=r0");
    let moves = [[0, 0], [1, 0], [0, 1], [1, 1], [0, 0]];
    assert_eq!((finished(&file, &moves[..4]), finished(&file, &moves)), (0, 1));
}

#[test]
fn a_pending_release_counts_as_pending() {
    let file = kernel("x", "{}", "lock l; unlock l");
    let moves = [[0, 0], [0, 0], [0, 1]];
    assert_eq!((finished(&file, &moves[..2]), finished(&file, &moves)), (0, 1));
}

/// The starred row with mask 1, by a schedule: both zero is possible.
#[test]
fn both_zero_in_store_buffering_finished_by_its_commits() {
    let file = kernel("x y", "{x}", "r0=1; x=r0; r1=y ‖ r0=1; y=r0; r1=x");
    let moves = [[0, 0], [0, 0], [0, 0], [1, 0], [1, 0], [1, 0], [0, 1], [1, 1]];
    for runs in [SOURCE, TSO, PSO] {
        for (count, finished) in [(6, 0), (7, 0), (8, 1)] {
            let end = state(runs, &file, &moves[..count]);
            assert_eq!((counts(&end), end[0]), ((count as u8, 0), finished));
            assert_eq!((register(&end, 0, 1), register(&end, 1, 1)), (0, 0));
        }
    }
}

#[test]
fn refusals_of_a_run() {
    let file = kernel("x", "{}", "r0=1 ‖ r0=1");
    let answers = |runs: [Run; 2], file: &[u8], moves: &[u8], room: usize, number: u64| {
        for run in runs {
            let mut state = vec![3; room];
            assert_eq!(run(file, moves, &mut state), number << 32);
            assert_eq!(state, vec![3; room]);
        }
    };
    answers(SOURCE, &file[..15], &[9], 0, 1);
    answers(SOURCE, &file, &[9], STATE - 1, 9);
    answers(TSO, &file, &[0, 0, 0], STATE, 10);
    answers(TSO, &file, &[0, 0, 2, 0], STATE, 10);
    answers(TSO, &file, &[0, 0, 1, 2], STATE, 10);
    answers(SOURCE, &file, &[0, 0, 1, 65], STATE, 10);
    assert_eq!(counts(&state(SOURCE, &file, &[[0, 64]])), (0, 1));
}

#[test]
fn the_row_of_loaded_values() {
    let file = kernel("x y", "{x y}", "x=1; r1=y ‖ r1=x");
    let kernel = slow::kernel::check(&file).unwrap();
    let run = Program::new(Machine::Tso, &kernel).run(&[0, 0, 0, 0, 0, 1, 1, 0, 0, 0, 0, 0]).unwrap();
    let row: Vec<_> = run.loaded.iter().map(|loaded| (loaded.lane, loaded.position, loaded.value)).collect();
    assert_eq!(row, [(1, 0, 1), (0, 2, 0)]);
}
