//! Slow implementation: the two machines of paper 01 and the third of request 4 of paper 02, each move a function from
//! a state to the next, and when a run is finished, by request 2.

use super::kernel::{ADD, Kernel, LOAD, LOCK, Refusal, SET, SKIP, STORE, UNLOCK, refuse};
use super::pending::{Entry, Item, Pending};
use super::sheets::{Instruction, Level, MFENCE, SL, SS, instructions};

#[derive(Clone, Copy, Debug, PartialEq, Eq, PartialOrd, Ord)]
pub enum Machine {
    Source,
    Tso,
    Pso,
}

impl Machine {
    pub const ALL: [Machine; 3] = [Machine::Source, Machine::Tso, Machine::Pso];

    /// A move may not name a choice above this.
    pub fn highest_choice(self) -> u8 {
        match self {
            Machine::Source | Machine::Pso => 64,
            Machine::Tso => 1,
        }
    }

    /// What its lanes carry out.
    fn level(self) -> Level {
        match self {
            Machine::Source => Level::Chain,
            Machine::Tso => Level::Two,
            Machine::Pso => Level::Three,
        }
    }
}

#[derive(Clone, Debug, PartialEq, Eq, PartialOrd, Ord)]
pub struct Lane {
    pub position: usize,
    pub registers: [u32; 8],
    pub pending: Pending,
}

#[derive(Clone, Debug, PartialEq, Eq, PartialOrd, Ord)]
pub struct State {
    pub lanes: Vec<Lane>,
    pub memory: Vec<u32>,
    /// Lane + 1, or 0 when free.
    pub locks: Vec<u8>,
}

/// A LOAD done: the lane, the LOAD's position there with barriers not counted, the value its register took.
#[derive(Clone, Copy, Debug, PartialEq, Eq)]
pub struct Loaded {
    pub lane: usize,
    pub position: usize,
    pub value: u32,
}

pub enum Turn {
    Waits,
    Done(State, Option<Loaded>),
    StrangeRelease(usize),
}

/// A machine with what its lanes carry out: the chains (source), the level 2 sheet (tso) or the level 3 sheet (pso).
pub struct Program<'a> {
    machine: Machine,
    kernel: &'a Kernel,
    parts: Vec<Vec<Instruction>>,
}

pub struct Run {
    pub state: State,
    pub done: u64,
    pub waited: u64,
    pub finished: bool,
    /// The loaded values of the run, one row in the order of its moves.
    pub loaded: Vec<Loaded>,
}

impl<'a> Program<'a> {
    pub fn new(machine: Machine, kernel: &'a Kernel) -> Self {
        let parts = (0..kernel.header.lanes).map(|lane| instructions(kernel, lane, machine.level())).collect();
        Program { machine, kernel, parts }
    }

    pub fn start(&self) -> State {
        let lane = Lane { position: 0, registers: [0; 8], pending: Pending::default() };
        let header = &self.kernel.header;
        State { lanes: vec![lane; header.lanes], memory: vec![0; header.locations], locks: vec![0; header.locks] }
    }

    /// Paper 02: "A run is finished when every lane stands at its end and nothing is pending."
    pub fn finished(&self, state: &State) -> bool {
        let ended = state.lanes.iter().zip(&self.parts).all(|(lane, part)| lane.position == part.len());
        let drained = state.lanes.iter().all(|lane| lane.pending.is_empty());
        ended && drained
    }

    pub fn run(&self, moves: &[u8]) -> Result<Run, Refusal> {
        let state = self.start();
        let mut run = Run { state, done: 0, waited: 0, finished: false, loaded: Vec::new() };
        for named in moves.chunks(2) {
            match self.turn(&run.state, named[0].into(), named[1].into()) {
                Turn::Waits => run.waited += 1,
                Turn::StrangeRelease(record) => return refuse(11, record),
                Turn::Done(next, loaded) => {
                    run.state = next;
                    run.done += 1;
                    run.loaded.extend(loaded);
                }
            }
        }
        run.finished = self.finished(&run.state);
        Ok(run)
    }

    pub fn turn(&self, state: &State, lane: usize, choice: usize) -> Turn {
        match (choice, self.parts[lane].get(state.lanes[lane].position)) {
            (0, None) => Turn::Waits,
            (0, Some(next)) => self.carry_out(state, lane, next),
            (k, _) => self.commit(state, lane, k - 1),
        }
    }

    fn carry_out(&self, state: &State, lane: usize, next: &Instruction) -> Turn {
        let holder = lane as u8 + 1;
        if next.operation == UNLOCK && state.locks[usize::from(next.b)] != holder {
            return Turn::StrangeRelease(next.record);
        }
        if !self.permits(state, lane, next) {
            return Turn::Waits;
        }
        let mut after = state.clone();
        let own = &mut after.lanes[lane];
        let (a, b) = (usize::from(next.a), usize::from(next.b));
        own.position += 1;
        let mut loaded = None;
        match next.operation {
            SET => own.registers[a] = next.word,
            ADD => own.registers[a] = own.registers[a].wrapping_add(own.registers[b]),
            LOAD => {
                let value = self.seen(state, lane, next.b);
                own.registers[a] = value;
                loaded = Some(Loaded { lane, position: next.origin, value });
            }
            STORE => own.pending.append(Entry::Store { location: next.b, value: own.registers[a] }),
            UNLOCK => own.pending.append(Entry::Release { lock: next.b }),
            SS => own.pending.mark(),
            SKIP if own.registers[a] == 0 => own.position = next.word as usize,
            LOCK => after.locks[b] = holder,
            _ => {}
        }
        Turn::Done(after, loaded)
    }

    fn permits(&self, state: &State, lane: usize, next: &Instruction) -> bool {
        let pending = &state.lanes[lane].pending;
        let ordered = pending.entries().any(|entry| self.ordered(entry));
        let volatile = next.operation == LOAD && self.kernel.volatile(next.b);
        let locks = next.operation == LOCK;
        let list = match self.machine {
            Machine::Source => !(volatile || locks) || !ordered,
            Machine::Tso => !(next.operation == MFENCE || locks) || pending.is_empty(),
            // "the store-load barrier and LOCK need an empty list"
            Machine::Pso => !(next.operation == SL || locks) || pending.is_empty(),
        };
        list && (!locks || state.locks[usize::from(next.b)] == 0)
    }

    /// Whether an entry is a volatile store or an UNLOCK.
    fn ordered(&self, entry: Entry) -> bool {
        match entry {
            Entry::Store { location, .. } => self.kernel.volatile(location),
            Entry::Release { .. } => true,
        }
    }

    /// What a LOAD of the location takes.
    fn seen(&self, state: &State, lane: usize, from: u8) -> u32 {
        let memory = state.memory[usize::from(from)];
        if self.machine == Machine::Source && self.kernel.volatile(from) {
            return memory;
        }
        let own = state.lanes[lane].pending.entries().rev().find_map(|entry| match entry {
            Entry::Store { location, value } if location == from => Some(value),
            _ => None,
        });
        own.unwrap_or(memory)
    }

    fn commit(&self, state: &State, lane: usize, index: usize) -> Turn {
        let entry = match state.lanes[lane].pending.nth(index) {
            Some((older, entry)) if self.may_commit(older, entry) => entry,
            _ => return Turn::Waits,
        };
        let mut after = state.clone();
        after.lanes[lane].pending.remove(index);
        match entry {
            Entry::Store { location, value } => after.memory[usize::from(location)] = value,
            Entry::Release { lock } => after.locks[usize::from(lock)] = 0,
        }
        Turn::Done(after, None)
    }

    fn may_commit(&self, older: &[Item], entry: Entry) -> bool {
        let same = |item: &Item| matches!(item, Item::Entry(other) if other.same(entry));
        match self.machine {
            Machine::Source if !self.ordered(entry) => !older.iter().any(same),
            Machine::Source | Machine::Tso => older.is_empty(),
            // "when no older entry has the same location or lock and no SS mark is older"
            Machine::Pso => !older.iter().any(same) && !older.contains(&Item::Mark),
        }
    }
}
