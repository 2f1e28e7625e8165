//! Splicing: strokes that meet end to end become one.

use super::{Wrote, first};
use crate::{Refusal, Strokes, c};

/// Joins strokes of vertex numbers where their ends are equal.
///
/// ```
/// use ramikohy::{Strokes, splice};
///
/// let strokes: Strokes<u32> = [[1, 2].as_slice(), &[2, 3], &[2, 4]].into_iter().collect();
/// let spliced = splice(&strokes).unwrap();
/// assert_eq!(spliced.iter().collect::<Vec<_>>(), [[1, 2, 4].as_slice(), &[2, 3]]);
/// ```
pub fn splice(strokes: &Strokes<u32>) -> Result<Strokes<u32>, Refusal> {
    let (points, starts) = (strokes.points(), strokes.starts());
    first(lent(points, starts, &mut [], &mut [], &mut []))?;
    let mut scratch = vec![0; 8 * starts.len()];
    let (mut out_points, mut out_starts) = (vec![0; points.len()], vec![0; starts.len()]);
    let wrote = lent(points, starts, &mut scratch, &mut out_points, &mut out_starts)?;
    out_points.truncate(wrote.points);
    out_starts.truncate(wrote.starts);
    Ok(Strokes::from_parts(out_points, out_starts))
}

/// The same in the caller's buffers: 8 words of scratch a stroke, and room for as many points and starts as the input.
/// What is written lies at the start of the room, and scratch is all zero afterwards; a refusal changes nothing.
///
/// ```
/// use ramikohy::{Refusal, lent};
///
/// let (mut points, mut starts) = ([9; 4], [9; 2]);
/// let wrote = lent::splice(&[7, 7], &[0, 1], &mut [0; 16], &mut points, &mut starts).unwrap();
/// assert_eq!((wrote.points, wrote.starts), (1, 1));
/// assert_eq!((points, starts), ([7, 9, 9, 9], [0, 9]));
/// assert_eq!(lent::splice(&[7, 7], &[0, 1], &mut [0; 15], &mut points, &mut starts), Err(Refusal::Scratch));
/// ```
pub fn lent(
    points: &[u32],
    starts: &[u32],
    scratch: &mut [u32],
    out_points: &mut [u32],
    out_starts: &mut [u32],
) -> Result<Wrote, Refusal> {
    let mut wrote = Wrote::default();
    // SAFETY: each list is a pointer with its length, and what is written overlaps with nothing else.
    let status = unsafe {
        c::ramikohy_splice(
            points.as_ptr(),
            points.len(),
            starts.as_ptr(),
            starts.len(),
            scratch.as_mut_ptr(),
            scratch.len(),
            out_points.as_mut_ptr(),
            out_points.len(),
            out_starts.as_mut_ptr(),
            out_starts.len(),
            &mut wrote.points,
            &mut wrote.starts,
        )
    };
    Refusal::check(status)?;
    Ok(wrote)
}
