//! Writing a sheet: strokes of vertex numbers as bytes.

use super::first;
use crate::{Refusal, Strokes, c};

/// The sheet of strokes of vertex numbers, of a mode's number (0 is stored as 2, which it stands for) and so many vertices.
///
/// ```
/// use ramikohy::{Refusal, Strokes, write_sheet};
///
/// let strokes: Strokes<u32> = [[1, 0, 2, 1].as_slice()].into_iter().collect();
/// let sheet = write_sheet(1, 3, &strokes).unwrap();
/// let words: Vec<u32> = sheet.chunks(4).map(|b| u32::from_le_bytes(b.try_into().unwrap())).collect();
/// assert_eq!(words, [1, 3, 1, 4, 24, 28, 0, 1, 0, 2, 1]);
/// assert_eq!(write_sheet(0, 3, &strokes).unwrap()[0], 2);
/// assert_eq!(write_sheet(4, 3, &strokes), Err(Refusal::Number));
/// assert_eq!(write_sheet(1, 2, &strokes), Err(Refusal::Vertex));
/// ```
pub fn write_sheet(mode: u32, vertices: u32, strokes: &Strokes<u32>) -> Result<Vec<u8>, Refusal> {
    let (numbers, starts) = (strokes.points(), strokes.starts());
    first(lent(mode, vertices, numbers, starts, &mut []))?;
    let mut out = vec![0; 24 + 4 * starts.len() + 4 * numbers.len()];
    let wrote = lent(mode, vertices, numbers, starts, &mut out)?;
    out.truncate(wrote);
    Ok(out)
}

/// The same in the caller's buffer, with room for the sheet's exact length; answers the bytes written. What lies behind them stays,
/// and a refusal changes nothing.
///
/// ```
/// use ramikohy::{Refusal, lent};
///
/// let mut out = [9; 45];
/// assert_eq!(lent::write_sheet(1, 3, &[1, 0, 2, 1], &[0], &mut out[..43]), Err(Refusal::Room));
/// assert_eq!(out, [9; 45]);
/// assert_eq!(lent::write_sheet(1, 3, &[1, 0, 2, 1], &[0], &mut out), Ok(44));
/// assert_eq!(out[40..], [1, 0, 0, 0, 9]);
/// ```
pub fn lent(mode: u32, vertices: u32, numbers: &[u32], starts: &[u32], out: &mut [u8]) -> Result<usize, Refusal> {
    let mut wrote = 0;
    // SAFETY: each list is a pointer with its length, and what is written overlaps with nothing else.
    let status = unsafe {
        c::ramikohy_write_sheet(
            mode,
            vertices,
            numbers.as_ptr(),
            numbers.len(),
            starts.as_ptr(),
            starts.len(),
            out.as_mut_ptr(),
            out.len(),
            &mut wrote,
        )
    };
    Refusal::check(status)?;
    Ok(wrote)
}
