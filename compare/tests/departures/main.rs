//! Where rkyv gives something else than document 01, on the smallest input that shows it: a test for each row of docs/DIFFERENCES.md.
//!
//! Where rkyv's answer depends on the build, a test states the answer of the build that it runs in. The inputs have pointers of 32 bits.
#![cfg(not(any(feature = "pointer_width_16", feature = "pointer_width_64")))]

mod accepted;
mod builder;
mod here;
mod parts;
mod ranges;

use std::panic::{catch_unwind, AssertUnwindSafe};

/// Whether rkyv is built with debug assertions and overflow checks, as cargo builds without `--release`.
const DEBUG: bool = cfg!(debug_assertions);

/// An answer, or nothing where there is a panic instead.
fn unless_panic<T>(answer: impl FnOnce() -> T) -> Option<T> {
    catch_unwind(AssertUnwindSafe(answer)).ok()
}
