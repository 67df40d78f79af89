//! Fast implementation: the three machines on schedules, over instructions written once, with the state in place.

use super::check::Kernel;
use super::flow::Plan;
use super::sheet::{Instruction, write_lanes};
use super::{ADD, LOAD, LOCK, Refusal, SET, SKIP, SS, STORE, UNLOCK};

/// The machines by the level that each carries out.
pub const SOURCE: usize = 0;
pub const TSO: usize = 2;
pub const PSO: usize = 3;

const STATE: usize = 2280;
const LANE: usize = 548;

/// A pending entry as in the state record without marks: kind, location or lock, two zero bytes, value.
type Entry = u64;

const STORED: u64 = 1;
const RELEASED: u64 = 2;

fn entry(kind: u64, place: u8, value: u32) -> Entry {
    kind | u64::from(place) << 8 | u64::from(value) << 32
}

/// The location or lock of an entry.
fn place(entry: Entry) -> u8 {
    (entry >> 8) as u8
}

fn is_store(entry: Entry) -> bool {
    entry as u8 == STORED as u8
}

/// A lane never appends more than its 64 records, so its list is `pending[first..last]` and does not wrap.
#[derive(Clone, Copy)]
struct Lane {
    position: usize,
    registers: [u32; 8],
    first: usize,
    last: usize,
    /// Pending entries that commit only as the oldest; counted for the source machine.
    ordered: usize,
    /// Bit i is set where a mark stands directly behind `pending[i]`; bits below `first` mean nothing. An entry that
    /// commits leaves those before it one place further on, so that its mark stands behind the last of them by itself.
    marks: u64,
    pending: [Entry; 64],
}

const START: Lane = Lane { position: 0, registers: [0; 8], first: 0, last: 0, ordered: 0, marks: 0, pending: [0; 64] };

struct Machine<'a, const LEVEL: usize> {
    parts: [&'a [Instruction]; 4],
    /// Locations whose stores commit only as the oldest and whose loads wait.
    mask: u16,
    lanes: [Lane; 4],
    memory: [u32; 16],
    locks: [u8; 4],
}

enum Turn {
    Done,
    Waits,
    StrangeRelease,
}

/// ROOM is at least the number of instructions of all lanes at this level.
pub fn run<const LEVEL: usize, const ROOM: usize>(
    file: &[u8],
    moves: &[u8],
    state: &mut [u8],
) -> Result<usize, Refusal> {
    let (mut kernel, mut plan) = (Kernel::blank(), Plan::blank());
    kernel.check(file)?;
    plan.lay::<LEVEL>(&kernel)?;
    let state = state.first_chunk_mut::<STATE>().ok_or(Refusal::new(9, 0))?;
    let (moves, odd) = moves.as_chunks::<2>();
    let highest = if LEVEL == TSO { 1 } else { 64 };
    let illegal = |named: &[u8; 2]| (named[0] >= kernel.head[0]) | (named[1] > highest);
    if !odd.is_empty() || moves.iter().fold(false, |found, named| found | illegal(named)) {
        return Err(Refusal::new(10, 0));
    }
    let mut code = [[0; 8]; ROOM];
    let parts = write_lanes::<LEVEL>(&kernel, &plan, &mut code);
    let mask = kernel.mask();
    let mut machine = Machine::<LEVEL> { parts, mask, lanes: [START; 4], memory: [0; 16], locks: [0; 4] };
    let mut done = 0;
    for [lane, choice] in moves {
        let lane = usize::from(lane & 3);
        match machine.turn(lane, *choice) {
            Turn::Done => done += 1,
            Turn::Waits => {}
            Turn::StrangeRelease => {
                let record = plan.record_at(&kernel, lane, machine.lanes[lane].position);
                return Err(Refusal::new(11, record));
            }
        }
    }
    machine.record(done, moves.len() as u64 - done, state);
    Ok(STATE)
}

impl<const LEVEL: usize> Machine<'_, LEVEL> {
    fn turn(&mut self, lane: usize, choice: u8) -> Turn {
        if choice > 0 { self.commit(lane, usize::from(choice) - 1) } else { self.carry_out(lane) }
    }

    fn carry_out(&mut self, lane: usize) -> Turn {
        let own = &mut self.lanes[lane];
        let Some(&[operation, a, b, _, c0, c1, c2, c3]) = self.parts[lane].get(own.position) else {
            return Turn::Waits;
        };
        let a = usize::from(a & 7);
        let word = u32::from_le_bytes([c0, c1, c2, c3]);
        let lock = &mut self.locks[usize::from(b & 3)];
        match operation {
            SET => own.registers[a] = word,
            ADD => own.registers[a] = own.registers[a].wrapping_add(own.registers[usize::from(b & 7)]),
            LOAD => {
                let memory = self.memory[usize::from(b & 15)];
                if LEVEL != SOURCE || !ordered(self.mask, b) {
                    own.registers[a] = own.newest(b).unwrap_or(memory);
                } else if own.ordered > 0 {
                    return Turn::Waits;
                } else {
                    own.registers[a] = memory;
                }
            }
            STORE => own.append(entry(STORED, b, own.registers[a]), ordered(self.mask, b)),
            LOCK if *lock != 0 || own.waits::<LEVEL>() => return Turn::Waits,
            LOCK => *lock = lane as u8 + 1,
            UNLOCK if *lock != lane as u8 + 1 => return Turn::StrangeRelease,
            UNLOCK => own.append(entry(RELEASED, b, 0), true),
            SKIP if own.registers[a] == 0 => {
                own.position = word as usize;
                return Turn::Done;
            }
            SKIP => {}
            SS if LEVEL == PSO => own.mark(),
            // only MFENCE or SL is left
            _ if own.first < own.last => return Turn::Waits,
            _ => {}
        }
        own.position += 1;
        Turn::Done
    }

    fn commit(&mut self, lane: usize, index: usize) -> Turn {
        let own = &mut self.lanes[lane];
        let Some(&entry) = own.pending[own.first..own.last].get(index) else { return Turn::Waits };
        let ordered = !is_store(entry) || ordered(self.mask, place(entry));
        if index > 0 {
            let older = &own.pending[own.first..own.first + index];
            // kind and place
            let same = |other: &Entry| *other as u16 == entry as u16;
            let waits = match LEVEL {
                SOURCE => ordered || older.iter().any(same),
                PSO => own.marked(index) || older.iter().any(same),
                _ => true,
            };
            if waits {
                return Turn::Waits;
            }
            own.pending.copy_within(own.first..own.first + index, own.first + 1);
        }
        own.first += 1;
        own.ordered -= usize::from(ordered);
        match is_store(entry) {
            true => self.memory[usize::from(place(entry) & 15)] = (entry >> 32) as u32,
            false => self.locks[usize::from(place(entry) & 3)] = 0,
        }
        Turn::Done
    }

    fn record(&self, done: u64, waited: u64, state: &mut [u8; STATE]) {
        state.fill(0);
        let stands = |lane: &Lane, part: &[Instruction]| lane.first == lane.last && lane.position == part.len();
        let finished = self.lanes.iter().zip(self.parts).all(|(lane, part)| stands(lane, part));
        state[0] = finished.into();
        state[4..8].copy_from_slice(&self.locks);
        state[8..16].copy_from_slice(&done.to_le_bytes());
        state[16..24].copy_from_slice(&waited.to_le_bytes());
        let (memory, lanes) = state[24..].split_at_mut(64);
        put_words(memory, &self.memory);
        for (lane, out) in self.lanes.iter().zip(lanes.chunks_exact_mut(LANE)) {
            lane.record(out);
        }
    }
}

fn ordered(mask: u16, location: u8) -> bool {
    mask >> (location & 15) & 1 == 1
}

fn put_words(out: &mut [u8], words: &[u32]) {
    for (field, word) in out.as_chunks_mut::<4>().0.iter_mut().zip(words) {
        *field = word.to_le_bytes();
    }
}

impl Lane {
    fn append(&mut self, entry: Entry, ordered: bool) {
        self.pending[self.last] = entry;
        self.last += 1;
        self.ordered += usize::from(ordered);
    }

    /// Leaves a mark behind the newest entry, if there is one.
    fn mark(&mut self) {
        if self.first < self.last {
            self.marks |= 1 << (self.last - 1);
        }
    }

    /// Whether a mark is older than the entry that has so many older ones, at least one.
    fn marked(&self, older: usize) -> bool {
        self.marks >> self.first & (1 << older) - 1 != 0
    }

    /// The newest own pending value of a location.
    fn newest(&self, location: u8) -> Option<u32> {
        let stored = |entry: &&Entry| is_store(**entry) && place(**entry) == location;
        self.pending[self.first..self.last].iter().rev().find(stored).map(|entry| (entry >> 32) as u32)
    }

    /// Whether the list holds back a LOCK.
    fn waits<const LEVEL: usize>(&self) -> bool {
        if LEVEL == SOURCE { self.ordered > 0 } else { self.first < self.last }
    }

    fn record(&self, out: &mut [u8]) {
        let pending = &self.pending[self.first..self.last];
        out[..2].copy_from_slice(&(self.position as u16).to_le_bytes());
        out[2..4].copy_from_slice(&(pending.len() as u16).to_le_bytes());
        put_words(&mut out[4..36], &self.registers);
        for ((field, entry), at) in out[36..].as_chunks_mut::<8>().0.iter_mut().zip(pending).zip(self.first..) {
            *field = (entry | (self.marks >> at & 1) << 16).to_le_bytes();
        }
    }
}
