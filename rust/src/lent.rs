//! The functions of the archive with references in place of pointers: the caller's buffers are lent as they are.
//!
//! A status is 0 where the call was accepted, and the refusal's number otherwise; a refusal changes no buffer.
//!
//! ```
//! use ramikohy::lent;
//!
//! let mut root = -1.0;
//! assert_eq!(lent::sqrt(-4.0, &mut root), 4);
//! assert_eq!(root, -1.0);
//! assert_eq!(lent::sqrt(4.0, &mut root), 0);
//! assert_eq!(root, 2.0);
//! ```

use crate::c;

pub use crate::calls::chop::lent as chop;
pub use crate::calls::chop_adaptive::lent as chop_adaptive;
pub use crate::calls::contour::lent as contour;
pub use crate::calls::draw::lent as draw;
pub use crate::calls::read_sheet::lent as read_sheet;
pub use crate::calls::read_stl::lent as read_stl;
pub use crate::calls::section::lent as section;
pub use crate::calls::simplify::lent as simplify;
pub use crate::calls::splice::lent as splice;
pub use crate::calls::weld::lent as weld;
pub use crate::calls::write_sheet::lent as write_sheet;
pub use crate::calls::write_stl::lent as write_stl;

/// Defines a function over the archive's function of the same name.
macro_rules! lend {
    ($(#[$doc:meta])* $name:ident = $inner:ident($($arg:ident: $type:ty),*) $(-> $out:ty)?) => {
        $(#[$doc])*
        pub fn $name($($arg: $type),*) $(-> $out)? {
            // SAFETY: references are valid, and a `&mut` overlaps with no other; the function asks nothing else.
            unsafe { c::$inner($($arg),*) }
        }
    };
}

lend! {
    /// The greatest whole number not above `x`, for a magnitude below 2^53; otherwise refused, 4.
    floor = ramikohy_floor(x: f64, whole: &mut i64) -> u32
}
lend! {
    /// The f64 nearest to the square root of `x`. NaN and what is below zero are refused, 4.
    sqrt = ramikohy_sqrt(x: f64, root: &mut f64) -> u32
}
lend! {
    /// `x` with its sign cleared.
    abs = ramikohy_abs(x: f64) -> f64
}
lend! {
    /// The length of `a`.
    length = ramikohy_length(a: &[f64; 3]) -> f64
}
lend! {
    /// The distance of `a` and `b`.
    distance = ramikohy_distance(a: &[f64; 3], b: &[f64; 3]) -> f64
}
lend! {
    /// The square of the length of `a`.
    length_squared = ramikohy_length_squared(a: &[f64; 3]) -> f64
}
lend! {
    /// The square of the distance of `a` and `b`.
    distance_squared = ramikohy_distance_squared(a: &[f64; 3], b: &[f64; 3]) -> f64
}
lend! {
    /// The dot product of `a` and `b`.
    dot = ramikohy_dot(a: &[f64; 3], b: &[f64; 3]) -> f64
}
lend! {
    /// The cross product of `a` and `b`.
    cross = ramikohy_cross(a: &[f64; 3], b: &[f64; 3], out: &mut [f64; 3])
}
lend! {
    /// `a` made one long. A computed length of 0 answers [`c::NONE`] and leaves `out` as it was.
    normalize = ramikohy_normalize(a: &[f64; 3], out: &mut [f64; 3]) -> u32
}
lend! {
    /// `a + b`, coordinate by coordinate.
    add = ramikohy_add(a: &[f64; 3], b: &[f64; 3], out: &mut [f64; 3])
}
lend! {
    /// `a - b`, coordinate by coordinate.
    sub = ramikohy_sub(a: &[f64; 3], b: &[f64; 3], out: &mut [f64; 3])
}
lend! {
    /// `a * b`, coordinate by coordinate.
    mul = ramikohy_mul(a: &[f64; 3], b: &[f64; 3], out: &mut [f64; 3])
}
lend! {
    /// `a / b`, coordinate by coordinate.
    div = ramikohy_div(a: &[f64; 3], b: &[f64; 3], out: &mut [f64; 3])
}
lend! {
    /// `s` added to each coordinate of `a`.
    add_scalar = ramikohy_add_scalar(a: &[f64; 3], s: f64, out: &mut [f64; 3])
}
lend! {
    /// `s` taken from each coordinate of `a`.
    sub_scalar = ramikohy_sub_scalar(a: &[f64; 3], s: f64, out: &mut [f64; 3])
}
lend! {
    /// Each coordinate of `a` times `s`.
    mul_scalar = ramikohy_mul_scalar(a: &[f64; 3], s: f64, out: &mut [f64; 3])
}
lend! {
    /// Each coordinate of `a` divided by `s`.
    div_scalar = ramikohy_div_scalar(a: &[f64; 3], s: f64, out: &mut [f64; 3])
}
lend! {
    /// The distance of `a` from the segment from `v` to `w`.
    segment_distance = ramikohy_segment_distance(a: &[f64; 3], v: &[f64; 3], w: &[f64; 3]) -> f64
}
lend! {
    /// `a` under the matrix `m`, row by row, divided by w.
    mul_position_w = ramikohy_mul_position_w(m: &[f64; 16], a: &[f64; 3], out: &mut [f64; 3])
}
