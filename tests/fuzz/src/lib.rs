//! What the fuzzer gives and takes: all that the calls read in one input, and memory with
//! inaccessible pages around it.

pub mod guarded;
pub mod input;
