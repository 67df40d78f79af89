//! Slow implementation: the text that `lanetext` prints for a kernel file on standard input.

use super::kernel::{ADD, Kernel, LOAD, LOCK, Refusal, SET, SKIP, STORE, UNLOCK, check};
use super::sheets::{Instruction, Level, MFENCE, instructions};

/// "Input past 3,089 bytes is not read."
const READ: usize = 3089;

pub fn listing(input: &[u8]) -> Vec<u8> {
    printed(input, |kernel| accepted(kernel).iter().map(|line| format!("{line}\n")).collect())
}

/// What a program prints for its input: the text of an accepted kernel, or the refusal.
pub fn printed(input: &[u8], text: impl Fn(&Kernel) -> String) -> Vec<u8> {
    let printed = match check(&input[..input.len().min(READ)]) {
        Ok(kernel) => text(&kernel),
        Err(Refusal { number, record }) => format!("refused {number} record {record}\n"),
    };
    printed.into_bytes()
}

fn accepted(kernel: &Kernel) -> Vec<String> {
    let header = &kernel.header;
    let ones = header.mask.count_ones();
    let first = format!("lanes {} locations {} volatile {ones} locks {}", header.lanes, header.locations, header.locks);
    let part = |lane: usize| {
        let line = move |(position, instruction)| format!("{lane} {position} {}", words(instruction));
        instructions(kernel, lane, Level::Two).into_iter().enumerate().map(line)
    };
    [first].into_iter().chain((0..header.lanes).flat_map(part)).collect()
}

fn words(instruction: Instruction) -> String {
    let Instruction { operation, a, b, word, .. } = instruction;
    match operation {
        SET => format!("SET {a} {word}"),
        ADD => format!("ADD {a} {b}"),
        LOAD => format!("LOAD {a} {b}"),
        STORE => format!("STORE {a} {b}"),
        LOCK => format!("LOCK {b}"),
        UNLOCK => format!("UNLOCK {b}"),
        SKIP => format!("SKIP {a} {word}"),
        MFENCE => "MFENCE".to_string(),
        other => unreachable!("level 2 has no operation {other}"),
    }
}
