//! The calls on lent buffers, a module each: a safe function that brings its own buffers, and `lent`, which takes the
//! caller's. (The functions `lent` are also in [`crate::lent`], under the names of the calls.)

pub mod chop;
pub mod chop_adaptive;
pub mod contour;
pub mod draw;
pub mod read_sheet;
pub mod read_stl;
pub mod section;
pub mod simplify;
pub mod splice;
pub mod weld;
pub mod write_sheet;
pub mod write_stl;

use crate::Refusal;

/// The most points that a cut may come to.
const MOST_POINTS: usize = 1_048_576;

/// Reads what a call answers that is lent nothing: a refusal by its input, whatever it is lent, or none. The wrappers ask this
/// before they allocate, so what is allocated is never larger than the limits allow.
fn first<T>(answer: Result<T, Refusal>) -> Result<(), Refusal> {
    match answer {
        Ok(_) | Err(Refusal::Scratch | Refusal::Room) => Ok(()),
        Err(why) => Err(why),
    }
}

/// How many points and starts an accepted call wrote.
#[derive(Debug, Clone, Copy, PartialEq, Eq, Default)]
pub struct Wrote {
    pub points: usize,
    pub starts: usize,
}
