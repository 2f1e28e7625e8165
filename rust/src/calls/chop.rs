//! Chopping: strokes cut into steps.

use super::{MOST_POINTS, Wrote, first};
use crate::{Refusal, Strokes, c};

/// Cuts strokes into pieces of `step`, measured from each point to the next. A stroke of one point vanishes.
///
/// ```
/// use ramikohy::{Strokes, chop};
///
/// let line: Strokes<[f64; 3]> = [[[0.0, 0.0, 0.0], [1.0, 0.0, 0.0]].as_slice()].into_iter().collect();
/// assert_eq!(chop(&line, 0.25).unwrap().points().len(), 5);
/// ```
pub fn chop(strokes: &Strokes<[f64; 3]>, step: f64) -> Result<Strokes<[f64; 3]>, Refusal> {
    let from = strokes.points().as_flattened();
    first(lent(from, strokes.starts(), step, &mut [], &mut []))?;
    let mut room = (strokes.points().len().max(64) * 4).min(MOST_POINTS);
    loop {
        let (mut points, mut starts) = (vec![[0.0; 3]; room], vec![0; strokes.starts().len()]);
        match lent(from, strokes.starts(), step, points.as_flattened_mut(), &mut starts) {
            Err(Refusal::Room) if room < MOST_POINTS => room = (room * 4).min(MOST_POINTS),
            Err(why) => return Err(why),
            Ok(wrote) => {
                points.truncate(wrote.points);
                starts.truncate(wrote.starts);
                return Ok(Strokes::from_parts(points, starts));
            }
        }
    }
}

/// The same in the caller's buffers, three numbers a point. It needs room for what it writes and no more; a refusal
/// changes nothing.
///
/// ```
/// use ramikohy::{Refusal, lent};
///
/// let line = [0.0, 0.0, 0.0, 1.0, 0.0, 0.0];
/// let (mut points, mut starts) = ([9.0; 9], [9]);
/// assert_eq!(lent::chop(&line, &[0], 0.5, &mut points, &mut starts).unwrap().points, 3);
/// assert_eq!(points, [0.0, 0.0, 0.0, 0.5, 0.0, 0.0, 1.0, 0.0, 0.0]);
/// assert_eq!(lent::chop(&line, &[0], 0.25, &mut points, &mut starts), Err(Refusal::Room));
/// ```
pub fn lent(
    points: &[f64],
    starts: &[u32],
    step: f64,
    out_points: &mut [f64],
    out_starts: &mut [u32],
) -> Result<Wrote, Refusal> {
    let mut wrote = Wrote::default();
    // SAFETY: each list is a pointer with its length, and what is written overlaps with nothing else.
    let status = unsafe {
        c::ramikohy_chop(
            points.as_ptr(),
            points.len(),
            starts.as_ptr(),
            starts.len(),
            step,
            out_points.as_mut_ptr(),
            out_points.len(),
            out_starts.as_mut_ptr(),
            out_starts.len(),
            &mut wrote.points,
            &mut wrote.starts,
        )
    };
    Refusal::check(status)?;
    Ok(wrote)
}
