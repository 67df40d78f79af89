//! Slow implementation: all outcomes of finished runs of a kernel, by search over every schedule.

use super::kernel::{Refusal, check};
use super::machines::{Machine, Program, State, Turn};
use std::collections::BTreeSet;

/// Registers of each lane and the memory values where a run is finished.
#[derive(Clone, Debug, PartialEq, Eq, PartialOrd, Ord)]
pub struct Outcome {
    pub registers: Vec<[u32; 8]>,
    pub memory: Vec<u32>,
}

/// Every outcome of any schedule on the machine.
pub fn outcomes(machine: Machine, file: &[u8]) -> Result<BTreeSet<Outcome>, Refusal> {
    let kernel = check(file)?;
    let program = Program::new(machine, &kernel);
    // a choice beyond the list waits
    let lane_moves = |state: &State, lane: usize| {
        let choices = state.lanes[lane].pending.count().min(machine.highest_choice().into());
        (0..=choices).filter_map(|choice| done(&program, state, lane, choice)).collect::<Vec<_>>()
    };
    Ok(search(&program, lane_moves))
}

/// Every outcome of source runs that go straight to memory.
pub fn straight_outcomes(file: &[u8]) -> Result<BTreeSet<Outcome>, Refusal> {
    let kernel = check(file)?;
    let program = Program::new(Machine::Source, &kernel);
    let lane_moves = |state: &State, lane: usize| {
        let next = done(&program, state, lane, 0);
        let commits = |next: State| match next.lanes[lane].pending.is_empty() {
            true => Some(next),
            false => done(&program, &next, lane, 1),
        };
        next.and_then(commits).into_iter().collect()
    };
    Ok(search(&program, lane_moves))
}

fn done(program: &Program, state: &State, lane: usize, choice: usize) -> Option<State> {
    match program.turn(state, lane, choice) {
        Turn::Done(next, _) => Some(next),
        _ => None,
    }
}

/// Visits each reachable state once.
fn search(program: &Program, lane_moves: impl Fn(&State, usize) -> Vec<State>) -> BTreeSet<Outcome> {
    let mut seen = BTreeSet::from([program.start()]);
    let mut open = vec![program.start()];
    let mut found = BTreeSet::new();
    while let Some(state) = open.pop() {
        if program.finished(&state) {
            let registers = state.lanes.iter().map(|lane| lane.registers).collect();
            found.insert(Outcome { registers, memory: state.memory.clone() });
        }
        for next in (0..state.lanes.len()).flat_map(|lane| lane_moves(&state, lane)) {
            if !seen.contains(&next) {
                seen.insert(next.clone());
                open.push(next);
            }
        }
    }
    found
}
