//! The library under test: the calls of its C interface, from the static archive `lanes`, behind safe slices.

type LowerCall = unsafe extern "C" fn(*const u8, usize, *mut u8, usize) -> u64;

unsafe extern "C" {
    fn lanes_lower1(kernel: *const u8, kernel_len: usize, sheet: *mut u8, sheet_len: usize) -> u64;
    fn lanes_lower2(kernel: *const u8, kernel_len: usize, sheet: *mut u8, sheet_len: usize) -> u64;
    fn lanes_lower3(kernel: *const u8, kernel_len: usize, sheet: *mut u8, sheet_len: usize) -> u64;
    fn lanes_page(kernel: *const u8, kernel_len: usize, page: *mut u8, page_len: usize) -> u64;
}

pub fn lower1(kernel: &[u8], sheet: &mut [u8]) -> u64 {
    lower(lanes_lower1, kernel, sheet)
}

pub fn lower2(kernel: &[u8], sheet: &mut [u8]) -> u64 {
    lower(lanes_lower2, kernel, sheet)
}

pub fn lower3(kernel: &[u8], sheet: &mut [u8]) -> u64 {
    lower(lanes_lower3, kernel, sheet)
}

pub fn page(kernel: &[u8], page: &mut [u8]) -> u64 {
    lower(lanes_page, kernel, page)
}

fn lower(call: LowerCall, kernel: &[u8], out: &mut [u8]) -> u64 {
    // SAFETY: both slices are borrowed for the call with their own lengths
    unsafe { call(kernel.as_ptr(), kernel.len(), out.as_mut_ptr(), out.len()) }
}

#[cfg(feature = "runs")]
mod runs {
    type Bytes = *const u8;
    type RunCall = unsafe extern "C" fn(Bytes, usize, Bytes, usize, *mut u8, usize) -> u64;

    unsafe extern "C" {
        fn lanes_run_source(kernel: Bytes, kl: usize, moves: Bytes, ml: usize, state: *mut u8, sl: usize) -> u64;
        fn lanes_run_tso(kernel: Bytes, kl: usize, moves: Bytes, ml: usize, state: *mut u8, sl: usize) -> u64;
        fn lanes_run_pso(kernel: Bytes, kl: usize, moves: Bytes, ml: usize, state: *mut u8, sl: usize) -> u64;
    }

    pub fn run_source(kernel: &[u8], moves: &[u8], state: &mut [u8]) -> u64 {
        run(lanes_run_source, kernel, moves, state)
    }

    pub fn run_tso(kernel: &[u8], moves: &[u8], state: &mut [u8]) -> u64 {
        run(lanes_run_tso, kernel, moves, state)
    }

    pub fn run_pso(kernel: &[u8], moves: &[u8], state: &mut [u8]) -> u64 {
        run(lanes_run_pso, kernel, moves, state)
    }

    fn run(call: RunCall, kernel: &[u8], moves: &[u8], state: &mut [u8]) -> u64 {
        let (k, m, s) = (kernel.as_ptr(), moves.as_ptr(), state.as_mut_ptr());
        // SAFETY: the three slices are borrowed for the call with their own lengths
        unsafe { call(k, kernel.len(), m, moves.len(), s, state.len()) }
    }
}

#[cfg(feature = "runs")]
pub use runs::{run_pso, run_source, run_tso};

/// The runs of the source, the tso and the pso machine.
#[cfg(feature = "runs")]
pub const RUNS: [crate::Run; 3] = [run_source, run_tso, run_pso];
