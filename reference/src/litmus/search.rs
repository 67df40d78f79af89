//! All outcomes of a kernel through the C interface alone: every schedule, cut off where a state was met before.

use crate::Run;
use crate::slow::STATE;
use crate::slow::machines::Machine;
use crate::slow::outcomes::Outcome;
use std::collections::{BTreeSet, HashSet, VecDeque};

/// Breadth-first over schedules. `file` is a kernel that is not refused. An outcome is where the state record itself
/// says finished.
pub fn search(machine: Machine, file: &[u8], run: Run) -> Result<BTreeSet<Outcome>, String> {
    let (lanes, locations) = (usize::from(file[0]), usize::from(file[1]));
    let highest = usize::from(machine.highest_choice());
    let mut seen = HashSet::new();
    let mut open = VecDeque::from([Vec::new()]);
    let mut found = BTreeSet::new();
    while let Some(moves) = open.pop_front() {
        let mut state = [0; STATE];
        let answer = run(file, &moves, &mut state);
        if answer != STATE as u64 {
            return Err(format!("answer {answer:#x} to schedule {moves:?}"));
        }
        if !seen.insert(key(&state, lanes)) {
            continue;
        }
        if state[0] == 1 {
            found.insert(outcome(&state, lanes, locations));
        }
        for lane in 0..lanes {
            // a choice beyond the list waits
            for choice in 0..=word(&state, 90 + 548 * lane).min(highest) {
                open.push_back([&moves[..], &[lane as u8, choice as u8]].concat());
            }
        }
    }
    Ok(found)
}

/// The state without the counts of moves and without entries that are not there.
fn key(state: &[u8; STATE], lanes: usize) -> Vec<u8> {
    let lane = |lane: usize| {
        let start = 88 + 548 * lane;
        &state[start..start + 36 + 8 * word(state, start + 2)]
    };
    let shared = [&state[4..8], &state[24..88]];
    shared.into_iter().chain((0..lanes).map(lane)).collect::<Vec<_>>().concat()
}

fn outcome(state: &[u8; STATE], lanes: usize, locations: usize) -> Outcome {
    let value = |at: usize| u32::from_le_bytes([state[at], state[at + 1], state[at + 2], state[at + 3]]);
    let registers = |lane: usize| std::array::from_fn(|register| value(92 + 548 * lane + 4 * register));
    let memory = (0..locations).map(|location| value(24 + 4 * location)).collect();
    Outcome { registers: (0..lanes).map(registers).collect(), memory }
}

fn word(state: &[u8; STATE], at: usize) -> usize {
    u16::from_le_bytes([state[at], state[at + 1]]).into()
}
