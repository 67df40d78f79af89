//! Stand-in archive `liblanes.a`: the fast implementation, or the slow one, behind the C interface, in which faults are
//! planted.

#[cfg(not(feature = "slow"))]
#[allow(dead_code)]
#[path = "../../src/fast/mod.rs"]
mod calls;

#[cfg(feature = "slow")]
#[allow(dead_code, unused_imports)]
#[path = "../../src/slow/mod.rs"]
mod slow;

#[cfg(feature = "slow")]
mod calls {
    pub use super::slow::page;
    use super::slow::{lower, machines::Machine, run};

    pub fn lower1(file: &[u8], sheet: &mut [u8]) -> u64 {
        lower(1, file, sheet)
    }

    pub fn lower2(file: &[u8], sheet: &mut [u8]) -> u64 {
        lower(2, file, sheet)
    }

    pub fn lower3(file: &[u8], sheet: &mut [u8]) -> u64 {
        lower(3, file, sheet)
    }

    pub fn run_source(file: &[u8], moves: &[u8], state: &mut [u8]) -> u64 {
        run(Machine::Source, file, moves, state)
    }

    pub fn run_tso(file: &[u8], moves: &[u8], state: &mut [u8]) -> u64 {
        run(Machine::Tso, file, moves, state)
    }

    pub fn run_pso(file: &[u8], moves: &[u8], state: &mut [u8]) -> u64 {
        run(Machine::Pso, file, moves, state)
    }
}

use std::slice::{from_raw_parts, from_raw_parts_mut};

type Bytes = *const u8;

macro_rules! lower {
    ($name:ident, $lower:path) => {
        /// # Safety
        /// The pointers have the lengths given and are not NULL.
        #[unsafe(no_mangle)]
        pub unsafe extern "C" fn $name(kernel: Bytes, kl: usize, sheet: *mut u8, sl: usize) -> u64 {
            // SAFETY: the caller lends both
            unsafe { $lower(from_raw_parts(kernel, kl), from_raw_parts_mut(sheet, sl)) }
        }
    };
}

macro_rules! run {
    ($name:ident, $run:path) => {
        /// # Safety
        /// The pointers have the lengths given and are not NULL.
        #[unsafe(no_mangle)]
        pub unsafe extern "C" fn $name(k: Bytes, kl: usize, m: Bytes, ml: usize, state: *mut u8, sl: usize) -> u64 {
            // SAFETY: the caller lends all three
            unsafe { $run(from_raw_parts(k, kl), from_raw_parts(m, ml), from_raw_parts_mut(state, sl)) }
        }
    };
}

lower!(lanes_lower1, calls::lower1);
lower!(lanes_lower2, calls::lower2);
lower!(lanes_lower3, calls::lower3);
lower!(lanes_page, calls::page);
run!(lanes_run_source, calls::run_source);
run!(lanes_run_tso, calls::run_tso);
run!(lanes_run_pso, calls::run_pso);
