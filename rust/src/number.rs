//! Floor, square root and absolute value.

use crate::{Refusal, lent};

/// The greatest whole number not above `x`. A magnitude of 2^53 or more, and NaN, are refused.
///
/// ```
/// use ramikohy::{Refusal, floor};
///
/// assert_eq!(floor(-0.5), Ok(-1));
/// assert_eq!(floor(9007199254740992.0), Err(Refusal::Number));
/// ```
pub fn floor(x: f64) -> Result<i64, Refusal> {
    let mut whole = 0;
    Refusal::check(lent::floor(x, &mut whole))?;
    Ok(whole)
}

/// The f64 nearest to the square root of `x`; -0 gives -0. NaN and what is below zero are refused.
///
/// ```
/// use ramikohy::{Refusal, sqrt};
///
/// assert_eq!(sqrt(2.0).unwrap().to_bits(), 0x3FF6A09E667F3BCD);
/// assert_eq!(sqrt(-1.0), Err(Refusal::Number));
/// ```
pub fn sqrt(x: f64) -> Result<f64, Refusal> {
    let mut root = 0.0;
    Refusal::check(lent::sqrt(x, &mut root))?;
    Ok(root)
}

/// `x` with its sign cleared.
///
/// ```
/// assert_eq!(ramikohy::abs(-0.0).to_bits(), 0);
/// ```
pub fn abs(x: f64) -> f64 {
    lent::abs(x)
}
