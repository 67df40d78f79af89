//! Benchmark of the three runs: the empty schedule, moves that are done, and moves that wait.

use super::table::{print_columns, print_row, time};
use super::{KERNELS, kernels};
use reference::litmus::assembler::assemble;
use reference::random::Random;
use reference::slow::kernel::check;
use reference::slow::machines::{Machine, Program, Turn};
use reference::slow::{STATE, run};
use reference::{Run, fast, library};
use std::hint::black_box;

const WAITS: usize = 10_000;

pub fn runs(rounds: usize) {
    for (machine, (library, fast)) in Machine::ALL.into_iter().zip(library::RUNS.into_iter().zip(fast::RUNS)) {
        let cases = Done::new(machine);
        let name = format!("{machine:?}, 256 records, empty schedule");
        print_row(&name, rounds, || cases.per_call(library), || cases.per_call(fast));
        let moves = cases.moves;
        let name = format!("{machine:?}, a move done, {moves} of them, without the empty schedule's time");
        print_row(&name, rounds, || cases.per_move(library), || cases.per_move(fast));
        for (what, case) in waits(machine) {
            let waits = [case];
            let per_wait = |run: Run| time(|| run_all(&waits, run)) / WAITS as f64;
            print_row(&format!("{machine:?}, {what}"), rounds, || per_wait(library), || per_wait(fast));
        }
    }
}

/// A move done on the pso machine against one on the tso machine, each on its own schedules, sampled in turns.
pub fn pso_to_tso(rounds: usize) {
    let (pso, tso) = (Done::new(Machine::Pso), Done::new(Machine::Tso));
    print_columns("pso", "tso");
    for (who, runs) in [("library", library::RUNS), ("fast", fast::RUNS)] {
        let per_move = |cases: &Done, machine: Machine| cases.per_move(runs[machine as usize]);
        let (left, right) = (|| per_move(&pso, Machine::Pso), || per_move(&tso, Machine::Tso));
        print_row(&format!("{who}, a move done"), rounds, left, right);
    }
}

/// Full kernels with schedules whose moves are all done.
struct Done {
    cases: Vec<Case>,
    /// The same kernels with the empty schedule.
    empty: Vec<Case>,
    moves: usize,
}

impl Done {
    fn new(machine: Machine) -> Self {
        let full = kernels(&[64, 64, 64, 64]);
        let cases: Vec<Case> = full.map(|file| done_case(machine, file)).take(KERNELS).collect();
        let empty = cases.iter().map(|(file, _)| (file.clone(), Vec::new())).collect();
        let moves = cases.iter().map(|(_, moves)| moves.len() / 2).sum();
        Done { cases, empty, moves }
    }

    fn per_call(&self, run: Run) -> f64 {
        time(|| run_all(&self.empty, run)) / self.empty.len() as f64
    }

    /// Without the time of the empty schedule.
    fn per_move(&self, run: Run) -> f64 {
        (time(|| run_all(&self.cases, run)) - time(|| run_all(&self.empty, run))) / self.moves as f64
    }
}

/// A kernel file and a schedule.
type Case = (Vec<u8>, Vec<u8>);

fn run_all(cases: &[Case], run: Run) {
    let mut state = [0; STATE];
    for (file, moves) in cases {
        black_box(run(black_box(file), black_box(moves), &mut state));
    }
}

/// A schedule whose moves are all done and that finishes, as every accepted kernel does.
fn done_case(machine: Machine, file: Vec<u8>) -> Case {
    let kernel = check(&file).expect("the generator's kernels are valid");
    let program = Program::new(machine, &kernel);
    let (mut state, mut moves) = (program.start(), Vec::new());
    let mut random = Random::new(1);
    let all: Vec<(usize, usize)> = (0..4).flat_map(|lane| (0..=3).map(move |choice| (lane, choice))).collect();
    loop {
        let mut tried: Vec<_> = all.iter().filter(|named| named.1 <= machine.highest_choice().into()).collect();
        random.shuffle(&mut tried);
        let next = tried.iter().find_map(|named| match program.turn(&state, named.0, named.1) {
            Turn::Done(next, _) => Some((next, named)),
            _ => None,
        });
        let Some((next, named)) = next else { break };
        state = next;
        moves.extend([named.0 as u8, named.1 as u8]);
    }
    assert!(program.finished(&state), "no move is permitted, and the run is not finished");
    (file, moves)
}

/// Moves that wait: of each machine, and on the pso machine also commits at the far end of a full list.
fn waits(machine: Machine) -> Vec<(&'static str, Case)> {
    let mut waits = vec![("a move that waits", wait_case(machine))];
    if machine == Machine::Pso {
        waits.push(("a commit that a mark holds back, 64th of a list", held_case("v=r0")));
        waits.push(("a commit that its location holds back, 64th of a list", held_case("y=r0")));
    }
    waits
}

/// Lane 1 waits for the lock, lane 2 for its store, lane 3 is at its end; lists end before the choice.
fn wait_case(machine: Machine) -> Case {
    let lanes = "lock l; unlock l ‖ lock l; unlock l ‖ x=1; r0=x ‖ ";
    let file = assemble("x", lanes).expect("the notation is kept").file(1);
    let start = [[0, 0], [2, 0], [2, 0]].concat();
    let waits = [[1, 0], [2, 0], [3, 0], [3, 1], [1, 1]];
    waiting(machine, file, start, &waits)
}

/// Stores of which the 63rd is to y; the last is held back by the mark before it, or by that one.
fn held_case(last: &str) -> Case {
    let lane = ["x=r0; ".repeat(62), "y=r0; ".to_string(), last.to_string()].concat();
    let file = assemble("x y v", &lane).expect("the notation is kept").file(4);
    let start = [0, 0].repeat(if last == "v=r0" { 65 } else { 64 });
    waiting(Machine::Pso, file, start, &[[0, 64]])
}

/// Moves that are done, then the others in turn, which all wait.
fn waiting(machine: Machine, file: Vec<u8>, start: Vec<u8>, waits: &[[u8; 2]]) -> Case {
    let done = start.len() / 2;
    let moves: Vec<u8> = start.into_iter().chain(waits.iter().cycle().take(WAITS).flatten().copied()).collect();
    let mut state = [0; STATE];
    run(machine, &file, &moves, &mut state);
    assert_eq!(state[8..24], [(done as u64).to_le_bytes(), (WAITS as u64).to_le_bytes()].concat());
    (file, moves)
}
