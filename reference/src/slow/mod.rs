//! Slow implementation of paper 01 with requests 1 to 4 and 6 of paper 02: their sentences written down as directly as
//! they can be run, with no care for speed.

pub mod kernel;
pub mod listing;
pub mod locks;
pub mod machines;
pub mod outcomes;
pub mod page;
pub mod pending;
pub mod placement;
mod record;
pub mod sheets;

pub use listing::listing;
pub use outcomes::{outcomes, straight_outcomes};
pub use page::page_listing;
pub use record::STATE;

use kernel::{Refusal, check, refuse};
use machines::Machine;
use record::ran;
use sheets::{Level, sheet};

/// An answer to C: bytes written, or number × 2^32 + record.
pub fn answer(result: Result<usize, Refusal>) -> u64 {
    match result {
        Ok(written) => written as u64,
        Err(Refusal { number, record }) => (number << 32) + record as u64,
    }
}

/// Lowers a kernel file into the output buffer; level 1, 2 or 3.
pub fn lower(level: u8, file: &[u8], out: &mut [u8]) -> u64 {
    answer(put_into(out, &lowered(level, file)))
}

/// Writes the pages of a kernel file into the output buffer.
pub fn page(file: &[u8], out: &mut [u8]) -> u64 {
    answer(put_into(out, &paged(file)))
}

/// Runs a kernel file on a schedule and writes the end state into the output buffer.
pub fn run(machine: Machine, file: &[u8], moves: &[u8], out: &mut [u8]) -> u64 {
    let result = ran(machine, file, moves, out.len());
    answer(put_into(out, &result))
}

/// The sheet, or a refusal of the kernel: 1 to 8, 12.
pub fn lowered(level: u8, file: &[u8]) -> Result<Vec<u8>, Refusal> {
    let level = match level {
        1 => Level::One,
        2 => Level::Two,
        _ => Level::Three,
    };
    check(file).map(|kernel| sheet(&kernel, level))
}

/// The pages, or a refusal of the kernel: 1 to 8, 12.
pub fn paged(file: &[u8]) -> Result<Vec<u8>, Refusal> {
    check(file).map(|kernel| page::pages(&kernel).into_bytes())
}

/// A result goes to the front of the output buffer, unless that is refusal 9.
pub fn put_into(out: &mut [u8], result: &Result<Vec<u8>, Refusal>) -> Result<usize, Refusal> {
    let bytes = result.as_ref().map_err(|refusal| *refusal)?;
    if out.len() < bytes.len() {
        return refuse(9, 0);
    }
    out[..bytes.len()].copy_from_slice(bytes);
    Ok(bytes.len())
}
