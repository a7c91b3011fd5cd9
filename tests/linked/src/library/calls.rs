//! The calls of include/calls.txt on slices, the only unsafe code of the tests. Each answers what it answers in C, and the numbers that it writes.

include!(concat!(env!("OUT_DIR"), "/calls.rs"));
