//! Reading a sheet back.

use super::first;
use crate::{Refusal, Strokes, c};

/// A sheet: the number of its drawing's mode, how many vertices there are, and strokes of their numbers.
#[derive(Debug, Clone, PartialEq, Default)]
pub struct Sheet {
    pub mode: u32,
    pub vertices: u32,
    pub strokes: Strokes<u32>,
}

/// What reading a sheet answers: its mode and vertices, and how many points and starts were written.
#[derive(Debug, Clone, Copy, PartialEq, Eq, Default)]
pub struct Read {
    pub mode: u32,
    pub vertices: u32,
    pub points: usize,
    pub starts: usize,
}

/// The sheet that bytes are.
///
/// ```
/// use ramikohy::{Refusal, Strokes, read_sheet, write_sheet};
///
/// let strokes: Strokes<u32> = [[1, 0, 2, 1].as_slice()].into_iter().collect();
/// let mut bytes = write_sheet(1, 3, &strokes).unwrap();
/// let sheet = read_sheet(&bytes).unwrap();
/// assert_eq!((sheet.mode, sheet.vertices), (1, 3));
/// assert_eq!(sheet.strokes.iter().collect::<Vec<_>>(), [[1, 0, 2, 1]]);
/// bytes.push(0);
/// assert_eq!(read_sheet(&bytes), Err(Refusal::Sheet));
/// ```
pub fn read_sheet(bytes: &[u8]) -> Result<Sheet, Refusal> {
    first(lent(bytes, &mut [], &mut []))?;
    // Every point and every stroke of a sheet has four bytes of its own.
    let (mut numbers, mut starts) = (vec![0; bytes.len() / 4], vec![0; bytes.len() / 4]);
    let read = lent(bytes, &mut numbers, &mut starts)?;
    numbers.truncate(read.points);
    starts.truncate(read.starts);
    Ok(Sheet { mode: read.mode, vertices: read.vertices, strokes: Strokes::from_parts(numbers, starts) })
}

/// The same in the caller's buffers, with room for the points and strokes in the header. What lies behind what is written stays,
/// and a refusal changes nothing.
///
/// ```
/// use ramikohy::{Refusal, lent};
///
/// let mut sheet = [0; 44];
/// lent::write_sheet(1, 3, &[1, 0, 2, 1], &[0], &mut sheet).unwrap();
/// let (mut numbers, mut starts) = ([9; 5], [9; 2]);
/// assert_eq!(lent::read_sheet(&sheet, &mut numbers[..3], &mut starts), Err(Refusal::Room));
/// let read = lent::read_sheet(&sheet, &mut numbers, &mut starts).unwrap();
/// assert_eq!((read.mode, read.vertices, read.points, read.starts), (1, 3, 4, 1));
/// assert_eq!((numbers, starts), ([1, 0, 2, 1, 9], [0, 9]));
/// ```
pub fn lent(bytes: &[u8], out_numbers: &mut [u32], out_starts: &mut [u32]) -> Result<Read, Refusal> {
    let mut read = Read::default();
    // SAFETY: each list is a pointer with its length, and what is written overlaps with nothing else.
    let status = unsafe {
        c::ramikohy_read_sheet(
            bytes.as_ptr(),
            bytes.len(),
            out_numbers.as_mut_ptr(),
            out_numbers.len(),
            out_starts.as_mut_ptr(),
            out_starts.len(),
            &mut read.points,
            &mut read.starts,
            &mut read.mode,
            &mut read.vertices,
        )
    };
    Refusal::check(status)?;
    Ok(read)
}
