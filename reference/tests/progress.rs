//! Tests: what request 6 of paper 02 gives in return: on each machine an accepted kernel has a permitted move, of a
//! lane below T with choice 0 or 1, until the run is finished. Kernels that only the new check refuses come to a stop.

use reference::litmus::assembler::assemble;
use reference::random::{Cases, Random, nested_draft, turn};
use reference::slow::kernel::{Kernel, Refusal, check, check_to_8};
use reference::slow::machines::{Machine, Program, State, Turn};
use std::collections::BTreeSet;

fn done(program: &Program, state: &State, lane: usize, choice: usize) -> Option<State> {
    match program.turn(state, lane, choice) {
        Turn::Done(next, _) => Some(next),
        Turn::Waits => None,
        Turn::StrangeRelease(record) => panic!("strange release at record {record}"),
    }
}

/// What choices 0 and 1 lead to.
fn next_states(program: &Program, state: &State) -> Vec<State> {
    let moves = (0..state.lanes.len()).flat_map(|lane| [(lane, 0), (lane, 1)]);
    moves.filter_map(|(lane, choice)| done(program, state, lane, choice)).collect()
}

fn stuck(program: &Program, state: &State) -> bool {
    !program.finished(state) && next_states(program, state).is_empty()
}

fn file(volatile: &str, lanes: &str) -> Vec<u8> {
    let assembled = assemble("x y", lanes).unwrap();
    assembled.file(assembled.mask(volatile).unwrap())
}

/// Every state that a schedule can lead to.
fn reachable(machine: Machine, program: &Program) -> BTreeSet<State> {
    let (mut seen, mut open) = (BTreeSet::from([program.start()]), vec![program.start()]);
    while let Some(state) = open.pop() {
        for lane in 0..state.lanes.len() {
            let highest = state.lanes[lane].pending.count().min(machine.highest_choice().into());
            for next in (0..=highest).filter_map(|choice| done(program, &state, lane, choice)) {
                if seen.insert(next.clone()) {
                    open.push(next);
                }
            }
        }
    }
    seen
}

/// Of all reachable states: how many are stuck, and how many are finished.
fn ends(machine: Machine, kernel: &Kernel) -> (usize, usize) {
    let program = Program::new(machine, kernel);
    let states = reachable(machine, &program);
    let finished = states.iter().filter(|state| program.finished(state)).count();
    (states.iter().filter(|state| stuck(&program, state)).count(), finished)
}

/// Small kernels whose locks go upward.
const UPWARD: [&str; 8] = [
    "lock l0; lock l1; x=1; unlock l1; unlock l0 ‖ lock l0; lock l1; x=2; unlock l0; unlock l1",
    "lock l0; lock l1; unlock l0; x=1; unlock l1 ‖ lock l0; x=2; unlock l0; lock l1; r0=x; unlock l1",
    "x=1; lock l0; lock l2; unlock l0; unlock l2 ‖ lock l0; lock l1; lock l2; y=1; unlock l1; unlock l2; unlock l0",
    "lock l0; lock l1; unlock l1; unlock l0 ‖ lock l1; lock l2; unlock l2; unlock l1 \
        ‖ lock l0; lock l2; unlock l2; unlock l0",
    "lock l1; unlock l1; lock l0; unlock l0 ‖ lock l0; lock l1; unlock l1; unlock l0 ‖ lock l1; x=1; unlock l1",
    "r0=x; skip r0 D; lock l1; unlock l1; D:; lock l0; lock l1; y=1; unlock l0; unlock l1 \
        ‖ lock l0; lock l1; x=1; unlock l1; unlock l0",
    "lock l0; unlock l0 ‖ lock l0; unlock l0 ‖ lock l0; unlock l0 ‖ lock l0; unlock l0",
    "x=1; y=1; r0=x ‖ y=2; x=2; r0=y",
];

#[test]
fn in_every_state_of_small_kernels() {
    for lanes in UPWARD {
        for volatile in ["{}", "{x}", "{x y}"] {
            let kernel = check(&file(volatile, lanes)).unwrap();
            for machine in Machine::ALL {
                let (stuck, finished) = ends(machine, &kernel);
                assert!(stuck == 0 && finished > 0, "{lanes} {volatile} on {machine:?}: {stuck} stuck");
            }
        }
    }
}

/// Kernels that nest round, with the LOCK that is refused and a schedule to the stop.
const ROUND: [(&str, usize, &[[u8; 2]]); 3] = [
    ("lock l0; lock l1; unlock l1; unlock l0 ‖ lock l1; lock l0; unlock l0; unlock l1", 6, &[[0, 0], [1, 0]]),
    (
        "lock l0; lock l1; unlock l1; unlock l0 ‖ lock l1; lock l2; unlock l2; unlock l1 \
        ‖ lock l2; lock l0; unlock l0; unlock l2",
        10,
        &[[0, 0], [1, 0], [2, 0]],
    ),
    // lane 0 gives lock 0 back and keeps lock 1; lane 1 takes lock 0; no SS stands before the first UNLOCK
    (
        "lock l0; lock l1; unlock l0; lock l0; unlock l0; unlock l1 ‖ lock l0; lock l1; unlock l1; unlock l0",
        4,
        &[[0, 0], [0, 0], [0, 0], [0, 1], [1, 0]],
    ),
];

/// The machines driven past the new check: without it there would be no progress.
#[test]
fn kernels_that_nest_round_come_to_a_stop() {
    for (lanes, record, moves) in ROUND {
        let file = file("{}", lanes);
        assert_eq!(check(&file).err(), Some(Refusal { number: 12, record }));
        let kernel = check_to_8(&file).unwrap();
        for machine in Machine::ALL {
            let program = Program::new(machine, &kernel);
            let run = program.run(&moves.concat()).unwrap();
            assert_eq!((run.done, run.waited, run.finished), (moves.len() as u64, 0, false));
            assert!(stuck(&program, &run.state), "{lanes} on {machine:?}");
            let (stuck, finished) = ends(machine, &kernel);
            assert!(stuck > 0 && finished > 0, "{lanes} on {machine:?}: {stuck} stuck, {finished} finished");
        }
    }
}

/// A schedule of random moves, then of permitted ones until the run is finished; false if some prefix of it is stuck.
fn goes_on(random: &mut Random, machine: Machine, kernel: &Kernel) -> bool {
    let program = Program::new(machine, kernel);
    let mut state = program.start();
    for _ in 0..random.below(1 + 2 * kernel.records.len()) {
        if stuck(&program, &state) {
            return false;
        }
        let lane = random.below(state.lanes.len());
        let most = (state.lanes[lane].pending.count() + 1).min(machine.highest_choice().into());
        let choice = if random.once_in(2) { random.below(most + 1) } else { 0 };
        state = done(&program, &state, lane, choice).unwrap_or(state);
    }
    // every record, two barriers before it at most, its commit
    for _ in 0..4 * kernel.records.len() {
        let next = next_states(&program, &state);
        if next.is_empty() {
            break;
        }
        state = random.pick(&next.iter().collect::<Vec<_>>()).clone();
    }
    program.finished(&state)
}

/// Kernels of the cases, edges among them.
#[test]
fn after_every_prefix_of_random_schedules() {
    let cases = Cases::new(6);
    let mut accepted = 0;
    for number in 0..2000 {
        let mut case = cases.case(number);
        let Ok(kernel) = check(&case.file) else { continue };
        for machine in Machine::ALL {
            assert!(goes_on(&mut case.random, machine, &kernel), "case {number} on {machine:?}");
        }
        accepted += 1;
    }
    assert!(accepted > 1000, "{accepted} accepted");
}

/// Kernels full of nested locks; the same ones with other numbers for the locks of each lane, where only the new check
/// refuses them: of these some come to a stop on each machine.
#[test]
fn with_locks_upward_and_turned() {
    let mut random = Random::new(6);
    let (mut refused, mut stopped) = (0, [0; 3]);
    for number in 0..1000 {
        let mut draft = nested_draft(&mut random);
        let upward = check(&draft.file()).unwrap();
        for machine in Machine::ALL {
            assert!(goes_on(&mut random, machine, &upward), "kernel {number} on {machine:?}");
        }
        let locks = draft.locks;
        draft.lanes.iter_mut().for_each(|lane| turn(&mut random, lane, locks));
        let turned = check_to_8(&draft.file()).unwrap();
        if check(&draft.file()).is_err_and(|refusal| refusal.number == 12) {
            let goes_on = Machine::ALL.map(|machine| goes_on(&mut random, machine, &turned));
            stopped.iter_mut().zip(goes_on).for_each(|(count, goes_on)| *count += usize::from(!goes_on));
            refused += 1;
        }
    }
    assert!(refused > 500 && stopped.iter().all(|count| *count > 100), "{refused} refused, {stopped:?} stopped");
}
