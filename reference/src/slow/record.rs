//! Slow implementation: a run as C asks for it, and the state record of 2,280 bytes.

use super::kernel::{Refusal, check, refuse};
use super::machines::{Lane, Machine, Program, Run};
use super::pending::Entry;

pub const STATE: usize = 2280;
const LANE: usize = 548;

/// The state record, or a refusal: the kernel's, then 9 if the output buffer is shorter, 10, 11.
pub fn ran(machine: Machine, file: &[u8], moves: &[u8], room: usize) -> Result<Vec<u8>, Refusal> {
    let kernel = check(file)?;
    if room < STATE {
        return refuse(9, 0);
    }
    // "The whole schedule is looked at for 10 before its first move."
    let lawful = |named: &[u8]| usize::from(named[0]) < kernel.header.lanes && named[1] <= machine.highest_choice();
    if !moves.len().is_multiple_of(2) || !moves.chunks(2).all(lawful) {
        return refuse(10, 0);
    }
    Program::new(machine, &kernel).run(moves).map(|run| record(&run))
}

fn record(run: &Run) -> Vec<u8> {
    let Run { state, done, waited, finished, .. } = run;
    let mut bytes = padded(vec![u8::from(*finished)], 4);
    bytes.extend(padded(state.locks.clone(), 4));
    bytes.extend(done.to_le_bytes());
    bytes.extend(waited.to_le_bytes());
    bytes.extend(padded(words(&state.memory), 64));
    bytes.extend(state.lanes.iter().flat_map(lane_record));
    padded(bytes, STATE)
}

fn lane_record(lane: &Lane) -> Vec<u8> {
    let mut bytes = (lane.position as u16).to_le_bytes().to_vec();
    bytes.extend((lane.pending.count() as u16).to_le_bytes());
    bytes.extend(words(&lane.registers));
    bytes.extend(lane.pending.marked().into_iter().flat_map(entry_record));
    padded(bytes, LANE)
}

/// Byte 2 is 1 where a mark stands directly behind the entry.
fn entry_record((entry, marked): (Entry, bool)) -> Vec<u8> {
    let (kind, place, value) = match entry {
        Entry::Store { location, value } => (1, location, value),
        Entry::Release { lock } => (2, lock, 0),
    };
    [vec![kind, place, marked.into(), 0], value.to_le_bytes().to_vec()].concat()
}

fn words(values: &[u32]) -> Vec<u8> {
    values.iter().flat_map(|value| value.to_le_bytes()).collect()
}

fn padded(mut bytes: Vec<u8>, length: usize) -> Vec<u8> {
    bytes.resize(length, 0);
    bytes
}
