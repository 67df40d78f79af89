//! Reference for paper 01 with requests 1 to 4 and 6 of paper 02: a slow and a fast implementation, and what tests and
//! measures them and the library.

pub mod compare;
pub mod examples;
pub mod fast;
#[cfg(feature = "library")]
pub mod library;
pub mod litmus;
pub mod random;
pub mod slow;
pub mod writer;

/// A lowering call of the C interface, or that of the page: a kernel file and the output buffer.
pub type Lower = fn(&[u8], &mut [u8]) -> u64;
/// A run of the C interface: a kernel file, a schedule and the output buffer.
pub type Run = fn(&[u8], &[u8], &mut [u8]) -> u64;
