//! Stands for the original's `axis.rs`, which is not in the text given.

#[derive(Debug, Clone, Copy, PartialEq, Eq, Default)]
pub enum Axis {
    #[default]
    None,
    X,
    Y,
    Z,
}
