//! Comparison of the port with the original, bit for bit.
//!
//! `original` is the judge. Where its folder is missing (see the package `original`), the stored rows are what is left
//! to compare with, and each program here says so.

pub mod arithmetic;
pub mod bench;
#[cfg(original)]
pub mod call_rows;
#[cfg(original)]
pub mod calls;
pub mod crowded;
pub mod cuts;
pub mod numbers;
#[cfg(original)]
pub mod panics;
pub mod random;
pub mod reading;
pub mod rows;
pub mod runs;
pub mod torus;

/// Whether the original was there when this was built.
pub const HAS_ORIGINAL: bool = cfg!(original);

/// What a program says where the original is missing.
pub const NO_ORIGINAL: &str =
    "the original is not here, so nothing is compared with it: set RAMIKOHY_ORIGINAL to its folder";
