//! Program: a run of more than 2^32 moves, so that the upper half of a count is not zero. The numbers are arithmetic.
//! Argument: the machine, `tso` if none is named.

use reference::library::{run_pso, run_source, run_tso};
use reference::litmus::assembler::assemble;
use reference::slow::STATE;
use std::process::ExitCode;

/// Moves of lane 0, choice 0. The lane has three instructions, so that all but three moves find it at its end and wait.
const DONE: u64 = 3;
const WAITED: u64 = (1 << 32) + 5;

fn main() -> ExitCode {
    let kernel = assemble("x", "r0=1; r1=2; r2=3").expect("the lane keeps the notation").file(0);
    let Some(moves) = zeros(2 * (DONE + WAITED) as usize) else {
        println!("counts: no room for a schedule of {} moves", DONE + WAITED);
        return ExitCode::FAILURE;
    };
    let mut state = [0xa5; STATE];
    let run = match std::env::args().nth(1).as_deref() {
        Some("source") => run_source,
        Some("pso") => run_pso,
        _ => run_tso,
    };
    let answer = run(&kernel, moves, &mut state);
    let count = |at: usize| state[at..at + 8].iter().rev().fold(0, |value, byte| value << 8 | u64::from(*byte));
    let got = (answer, count(8), count(16), state[0]);
    if got != (STATE as u64, DONE, WAITED, 1) {
        println!("counts: DIFFERENCE in answer, done, waited, finished: {got:?} after {} moves", DONE + WAITED);
        return ExitCode::FAILURE;
    }
    println!("counts: {} moves, {DONE} done and {WAITED} waited as they must", DONE + WAITED);
    ExitCode::SUCCESS
}

unsafe extern "C" {
    fn mmap(place: *mut u8, length: usize, protection: i32, flags: i32, file: i32, offset: i64) -> *const u8;
}

/// So many zero bytes that only ever are read: the system has one page of zeros for them all, and no memory is used.
fn zeros(length: usize) -> Option<&'static [u8]> {
    const READ: i32 = 1;
    const PRIVATE: i32 = 2;
    const ANONYMOUS: i32 = 32;
    // SAFETY: a new mapping, which is never written and stands until the program ends
    unsafe {
        let start = mmap(std::ptr::null_mut(), length, READ, PRIVATE | ANONYMOUS, -1, 0);
        (start.addr() != usize::MAX).then(|| std::slice::from_raw_parts(start, length))
    }
}
