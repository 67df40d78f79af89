//! Litmus tests: the published shapes as kernels, and the outcomes they may have.

pub mod assembler;
pub mod rows;
pub mod search;
pub mod trial;
