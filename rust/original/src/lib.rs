//! The original library, built from its own text for comparison: once for each value of its constant EPS.
//!
//! Nothing of it is kept here. `build.rs` reads the folder that RAMIKOHY_ORIGINAL names (by default `../shared/docs/src`
//! beside the project), and the files in `stand_ins/` take the place of what that folder lacks. Where there is no such
//! folder this crate is empty, and what compares says so.

#[cfg(original)]
include!(concat!(env!("OUT_DIR"), "/original.rs"));
