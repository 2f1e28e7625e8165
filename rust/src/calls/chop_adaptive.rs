//! Chopping by what is seen: spans are halved until they are short on the screen.

use super::{MOST_POINTS, first};
use crate::{Matrix, Refusal, Strokes, c};

/// How strokes are seen: the matrix to the screen, the screen's size, the longest span on it, and the squared length below
/// which a span is never halved.
#[derive(Debug, Clone, Copy, PartialEq)]
pub struct View {
    pub matrix: Matrix,
    pub width: f64,
    pub height: f64,
    pub step: f64,
    pub tolerance: f64,
}

/// What an accepted call wrote, and how many halvings it made.
#[derive(Debug, Clone, Copy, PartialEq, Eq, Default)]
pub struct Adapted {
    pub points: usize,
    pub starts: usize,
    pub halvings: usize,
}

/// Halves spans until they are short on the screen or off it.
///
/// ```
/// use ramikohy::{Matrix, Strokes, View, chop_adaptive};
///
/// let line: Strokes<[f64; 3]> = [[[0.0, 0.0, 0.0], [4.0, 0.0, 0.0]].as_slice()].into_iter().collect();
/// let view = View { matrix: Matrix::IDENTITY, width: 10.0, height: 10.0, step: 2.5, tolerance: 1e-9 };
/// assert_eq!(chop_adaptive(&line, &view).unwrap().points().len(), 3);
/// ```
pub fn chop_adaptive(strokes: &Strokes<[f64; 3]>, view: &View) -> Result<Strokes<[f64; 3]>, Refusal> {
    let from = strokes.points().as_flattened();
    first(lent(from, strokes.starts(), view, &mut [], &mut []))?;
    let mut room = (strokes.points().len().max(64) * 4).min(MOST_POINTS);
    loop {
        let (mut points, mut starts) = (vec![[0.0; 3]; room], vec![0; strokes.starts().len()]);
        match lent(from, strokes.starts(), view, points.as_flattened_mut(), &mut starts) {
            Err(Refusal::Room) if room < MOST_POINTS => room = (room * 4).min(MOST_POINTS),
            Err(why) => return Err(why),
            Ok(wrote) => {
                points.truncate(wrote.points);
                starts.truncate(wrote.starts);
                return Ok(Strokes::from_parts(points, starts));
            }
        }
    }
}

/// The same in the caller's buffers, three numbers a point. It needs room for what it writes and no more; a refusal
/// changes nothing.
pub fn lent(
    points: &[f64],
    starts: &[u32],
    view: &View,
    out_points: &mut [f64],
    out_starts: &mut [u32],
) -> Result<Adapted, Refusal> {
    let mut wrote = Adapted::default();
    // SAFETY: each list is a pointer with its length, and what is written overlaps with nothing else.
    let status = unsafe {
        c::ramikohy_chop_adaptive(
            points.as_ptr(),
            points.len(),
            starts.as_ptr(),
            starts.len(),
            &view.matrix.0,
            view.width,
            view.height,
            view.step,
            view.tolerance,
            out_points.as_mut_ptr(),
            out_points.len(),
            out_starts.as_mut_ptr(),
            out_starts.len(),
            &mut wrote.points,
            &mut wrote.starts,
            &mut wrote.halvings,
        )
    };
    Refusal::check(status)?;
    Ok(wrote)
}
