//! Simplifying: points that are near enough to a line are left out.

use super::first;
use crate::{Refusal, Strokes, c};

/// What an accepted call wrote, and how many distances it measured.
#[derive(Debug, Clone, Copy, PartialEq, Eq, Default)]
pub struct Simplified {
    pub points: usize,
    pub starts: usize,
    pub distances: usize,
}

/// Leaves out each point that lies no farther than `threshold` from the line between those that stay.
///
/// ```
/// use ramikohy::{Strokes, simplify};
///
/// let hat: Strokes<[f64; 3]> =
///     [[[0.0, 0.0, 0.0], [1.0, 1.0, 0.0], [2.0, 0.0, 0.0]].as_slice()].into_iter().collect();
/// assert_eq!(simplify(&hat, 1.0).unwrap().points().len(), 2);
/// assert_eq!(simplify(&hat, 0.5).unwrap(), hat);
/// ```
pub fn simplify(strokes: &Strokes<[f64; 3]>, threshold: f64) -> Result<Strokes<[f64; 3]>, Refusal> {
    let from = strokes.points().as_flattened();
    first(lent(from, strokes.starts(), threshold, &mut [], &mut []))?;
    let (mut points, mut starts) = (vec![[0.0; 3]; strokes.points().len()], vec![0; strokes.starts().len()]);
    let wrote = lent(from, strokes.starts(), threshold, points.as_flattened_mut(), &mut starts)?;
    points.truncate(wrote.points);
    starts.truncate(wrote.starts);
    Ok(Strokes::from_parts(points, starts))
}

/// The same in the caller's buffers, three numbers a point: room for as many points and starts as the input. A refusal
/// changes nothing.
pub fn lent(
    points: &[f64],
    starts: &[u32],
    threshold: f64,
    out_points: &mut [f64],
    out_starts: &mut [u32],
) -> Result<Simplified, Refusal> {
    let mut wrote = Simplified::default();
    // SAFETY: each list is a pointer with its length, and what is written overlaps with nothing else.
    let status = unsafe {
        c::ramikohy_simplify(
            points.as_ptr(),
            points.len(),
            starts.as_ptr(),
            starts.len(),
            threshold,
            out_points.as_mut_ptr(),
            out_points.len(),
            out_starts.as_mut_ptr(),
            out_starts.len(),
            &mut wrote.points,
            &mut wrote.starts,
            &mut wrote.distances,
        )
    };
    Refusal::check(status)?;
    Ok(wrote)
}
