//! Program: what `examples/translate.c` has to print, by slow. Arguments: kernel files.

use reference::slow::machines::Machine;
use reference::slow::{self, STATE};
use std::{env, fs, io};

const ROUNDS: usize = 16;

fn main() -> io::Result<()> {
    for path in env::args().skip(1) {
        println!("{path}");
        let kernel = fs::read(&path)?;
        for level in [1, 2, 3] {
            println!("{}", lowered(level, &kernel));
        }
        println!("{}", paged(&kernel));
        for (name, machine) in [("source", Machine::Source), ("tso", Machine::Tso), ("pso", Machine::Pso)] {
            println!("{}", ran(name, machine, &kernel));
        }
    }
    Ok(())
}

fn lowered(level: u8, kernel: &[u8]) -> String {
    let mut sheet = [0; 10_256];
    let answer = slow::lower(level, kernel, &mut sheet);
    if answer >> 32 != 0 {
        return refused(answer);
    }
    let counts: Vec<String> = (0..usize::from(sheet[0]))
        .map(|lane| u16::from_le_bytes([sheet[8 + 2 * lane], sheet[9 + 2 * lane]]).to_string())
        .collect();
    format!("level {level}, {answer} bytes, instructions {}", counts.join(" "))
}

fn paged(kernel: &[u8]) -> String {
    let mut page = [0; 20_000];
    let answer = slow::page(kernel, &mut page);
    if answer >> 32 != 0 {
        return refused(answer);
    }
    let pages = page[..answer as usize].split(|byte| *byte == b'\n').filter(|line| line.starts_with(b"page")).count();
    format!("page: {answer} bytes, {pages} pages")
}

fn ran(name: &str, machine: Machine, kernel: &[u8]) -> String {
    let lanes = kernel.first().copied().filter(|lanes| *lanes <= 4).unwrap_or(0);
    let round = (0..lanes).flat_map(|lane| [lane, 0, lane, 1]);
    let moves = round.collect::<Vec<u8>>().repeat(ROUNDS);
    let mut state = [0; STATE];
    let answer = slow::run(machine, kernel, &moves, &mut state);
    if answer >> 32 != 0 {
        return refused(answer);
    }
    let value = |at: usize| u32::from_le_bytes([state[at], state[at + 1], state[at + 2], state[at + 3]]);
    let values =
        |from: usize, count: usize| (0..count).map(|i| value(from + 4 * i).to_string()).collect::<Vec<_>>().join(" ");
    let finished = if state[0] == 1 { "finished" } else { "not finished" };
    let registers = |lane: usize| format!(", lane {lane} registers {}", values(92 + 548 * lane, 8));
    let registers: String = (0..usize::from(lanes)).map(registers).collect();
    let memory = values(24, usize::from(kernel[1]));
    format!("{name}: done {} waited {}, {finished}, memory {memory}{registers}", value(8), value(16))
}

fn refused(answer: u64) -> String {
    format!("refused {} record {}", answer >> 32, answer as u32)
}
