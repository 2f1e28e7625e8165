//! Safe Rust over the proved library Ramikohy.
//!
//! Each function calls a function of the archive that Rattle compiles from `crates/ramikohy`, whose contract is proved:
//! every answer equals, bit for bit, what its definition says. Two NaN count as equal.
//!
//! The functions here take and return plain values. Those of [`lent`] lend the caller's own buffers to the archive as
//! they are, and answer the status that the C function answers.
//!
//! ```
//! use ramikohy::Vector;
//!
//! let a = Vector::new(3.0, 0.0, 4.0);
//! assert_eq!(a.length(), 5.0);
//! assert_eq!(a.normalize(), Some(Vector::new(0.6, 0.0, 0.8)));
//! ```

pub mod c;
pub mod calls;
pub mod lent;

mod matrix;
mod mesh;
mod number;
mod reader;
mod refusal;
mod strokes;
mod vector;

pub use calls::chop_adaptive::{View, chop_adaptive};
pub use calls::draw::{Mode, Sight, draw};
pub use calls::read_sheet::{Read, Sheet, read_sheet};
pub use calls::write_sheet::write_sheet;
pub use calls::{chop::chop, contour::contour, section::section, simplify::simplify, splice::splice, weld::weld};
pub use calls::{read_stl::read_stl, write_stl::write_stl};
pub use matrix::Matrix;
pub use mesh::{Mesh, Plane};
pub use number::{abs, floor, sqrt};
pub use reader::Reader;
pub use refusal::Refusal;
pub use strokes::{Strokes, strokes};
pub use vector::Vector;

/// The README's examples, compiled and run as they stand there.
#[cfg(doctest)]
#[doc = include_str!("../../README.md")]
struct Readme;
