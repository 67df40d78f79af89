//! Slow implementation: the instructions of a lane at each level, and the sheets of paper 01 as bytes, with requests 1
//! and 4 of paper 02.

use super::kernel::{Kernel, LOCK, SKIP};
use super::placement::{Barrier, placement};

pub const SS: u8 = 13;
pub const SL: u8 = 14;
pub const MFENCE: u8 = 15;

/// What a lane carries out: the chain itself (source machine) or a lane's part of a sheet.
#[derive(Clone, Copy, Debug, PartialEq, Eq)]
pub enum Level {
    Chain,
    One,
    Two,
    Three,
}

impl Level {
    /// The operation of a barrier at this level, if it is kept where it stands, directly before a record of operation
    /// `next`.
    fn code(self, barrier: Barrier, next: u8) -> Option<u8> {
        match (self, barrier) {
            // "From now on level 2 writes no MFENCE directly before a LOCK .. Level 1 keeps its SL."
            // "Job 1's rule serves levels 2 and 3"
            (Level::Two | Level::Three, Barrier::SL) if next == LOCK => None,
            (Level::Two, Barrier::SL) => Some(MFENCE),
            (Level::One, Barrier::LL) => Some(11),
            (Level::One, Barrier::LS) => Some(12),
            // "Level 3 writes 13 and 14 as level 1 does"
            (Level::One | Level::Three, Barrier::SS) => Some(SS),
            (Level::One | Level::Three, Barrier::SL) => Some(SL),
            _ => None,
        }
    }

    /// The level byte of its sheet.
    fn number(self) -> u8 {
        match self {
            Level::Chain => 0,
            Level::One => 1,
            Level::Two => 2,
            Level::Three => 3,
        }
    }
}

/// The record is the one it comes from, 0 for a barrier; `origin` is that record's position in the chain.
#[derive(Clone, Copy, Debug, PartialEq, Eq)]
pub struct Instruction {
    pub operation: u8,
    pub a: u8,
    pub b: u8,
    pub word: u32,
    pub record: usize,
    pub origin: usize,
}

pub fn instructions(kernel: &Kernel, lane: usize, level: Level) -> Vec<Instruction> {
    let operation = |position: usize| kernel.at(lane, position).operation;
    let codes: Vec<Vec<u8>> = placement(kernel, lane)
        .iter()
        .enumerate()
        .map(|(at, standing)| standing.iter().filter_map(|barrier| level.code(*barrier, operation(at))).collect())
        .collect();
    // "A SKIP lands on its target's first barrier.", of those that the level writes
    let lands = |position: usize| codes[..position].iter().map(|before| before.len() as u32 + 1).sum::<u32>();
    let group = |origin: usize| {
        let record = kernel.at(lane, origin);
        let barrier = |code: &u8| Instruction { operation: *code, a: 0, b: 0, word: 0, record: 0, origin };
        let skips = record.operation == SKIP;
        let word = if skips { lands(kernel.place(lane, record.target)) } else { record.constant };
        let number = kernel.chains[lane][origin];
        let own = Instruction { operation: record.operation, a: record.a, b: record.b, word, record: number, origin };
        codes[origin].iter().map(barrier).chain([own]).collect::<Vec<_>>()
    };
    (0..kernel.length(lane)).flat_map(group).collect()
}

pub fn sheet(kernel: &Kernel, level: Level) -> Vec<u8> {
    let header = &kernel.header;
    // "mask (zero at level 2)"; "Level 3 writes .. a zero mask"
    let mask = if matches!(level, Level::Two | Level::Three) { 0 } else { header.mask };
    let parts: Vec<Vec<Instruction>> = (0..header.lanes).map(|lane| instructions(kernel, lane, level)).collect();
    let count = |lane: usize| parts.get(lane).map_or(0, |part| part.len() as u16);
    let mut bytes = vec![header.lanes as u8, header.locations as u8, header.locks as u8, level.number()];
    bytes.extend(mask.to_le_bytes());
    bytes.extend([0, 0]);
    bytes.extend((0..4).flat_map(|lane| count(lane).to_le_bytes()));
    bytes.extend(parts.concat().iter().flat_map(instruction_bytes));
    bytes
}

fn instruction_bytes(instruction: &Instruction) -> Vec<u8> {
    let mut bytes = vec![instruction.operation, instruction.a, instruction.b, 0];
    bytes.extend(instruction.word.to_le_bytes());
    bytes
}
