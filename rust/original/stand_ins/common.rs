//! Stands for the original's `common.rs`, which is not in the text given. EPS is set when this file is copied.

pub const EPS: f64 = @EPS@;
pub const INF: f64 = 1e9;
