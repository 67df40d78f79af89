//! Fast implementation of paper 01 with requests 1 to 4 and 6 of paper 02, the yardstick of the benchmarks: no
//! allocation, one forward pass, state in place.

mod check;
mod flow;
mod machine;
mod page;
mod sheet;

use check::Kernel;
use flow::Plan;

pub const SET: u8 = 1;
pub const ADD: u8 = 2;
pub const LOAD: u8 = 3;
pub const STORE: u8 = 4;
pub const LOCK: u8 = 5;
pub const UNLOCK: u8 = 6;
pub const SKIP: u8 = 7;
pub const SS: u8 = 13;
pub const SL: u8 = 14;
pub const MFENCE: u8 = 15;

/// A refusal as C gets it: number × 2^32 + record.
pub struct Refusal(u64);

impl Refusal {
    const fn new(number: u64, record: usize) -> Self {
        Refusal(number << 32 | record as u64)
    }
}

/// Lowers a kernel file to the barrier sheet.
pub fn lower1(file: &[u8], sheet: &mut [u8]) -> u64 {
    answer(put_out::<1>(file, sheet, sheet::write::<1>))
}

/// Lowers a kernel file to the x86 sheet.
pub fn lower2(file: &[u8], sheet: &mut [u8]) -> u64 {
    answer(put_out::<2>(file, sheet, sheet::write::<2>))
}

/// Lowers a kernel file to the Sparc sheet.
pub fn lower3(file: &[u8], sheet: &mut [u8]) -> u64 {
    answer(put_out::<3>(file, sheet, sheet::write::<3>))
}

/// Writes the pages of the x86 sheet.
pub fn page(file: &[u8], page: &mut [u8]) -> u64 {
    answer(put_out::<2>(file, page, page::write))
}

/// Runs the source machine over the kernel's chains.
pub fn run_source(file: &[u8], moves: &[u8], state: &mut [u8]) -> u64 {
    answer(machine::run::<{ machine::SOURCE }, 256>(file, moves, state))
}

/// Runs the tso machine over the level 2 sheet: at most 63 of a lane's 64 records have an MFENCE before them.
pub fn run_tso(file: &[u8], moves: &[u8], state: &mut [u8]) -> u64 {
    answer(machine::run::<{ machine::TSO }, 508>(file, moves, state))
}

/// Runs the pso machine over the level 3 sheet: at most 63 of a lane's 64 records have a barrier before them, and none
/// has two, for SS stands before stores and SL before loads.
pub fn run_pso(file: &[u8], moves: &[u8], state: &mut [u8]) -> u64 {
    answer(machine::run::<{ machine::PSO }, 508>(file, moves, state))
}

/// The runs of the source, the tso and the pso machine.
pub const RUNS: [fn(&[u8], &[u8], &mut [u8]) -> u64; 3] = [run_source, run_tso, run_pso];

/// Checks a kernel file and lays it out; what is written of it is `write`'s.
fn put_out<const LEVEL: usize>(
    file: &[u8],
    out: &mut [u8],
    write: impl Fn(&Kernel, &Plan, &mut [u8]) -> Result<usize, Refusal>,
) -> Result<usize, Refusal> {
    let mut kernel = Kernel::blank();
    let mut plan = Plan::blank();
    kernel.check(file)?;
    plan.lay::<LEVEL>(&kernel)?;
    write(&kernel, &plan, out)
}

fn answer(result: Result<usize, Refusal>) -> u64 {
    match result {
        Ok(written) => written as u64,
        Err(Refusal(refused)) => refused,
    }
}
