//! A reader over a list of strokes: one stroke after another, each the caller's own part, an empty one too.

use crate::c;

/// The lent points and starts, and the number of the stroke that comes next.
///
/// ```
/// use ramikohy::Reader;
///
/// let points = [1, 0, 2, 1, 7];
/// let strokes: Vec<&[u32]> = Reader::new(&points, &[0, 4, 4]).collect();
/// assert_eq!(strokes, [&points[..4], &[], &points[4..]]);
/// ```
#[derive(Debug, Clone, Copy)]
pub struct Reader<'a> {
    points: &'a [u32],
    starts: &'a [u32],
    at: usize,
}

impl<'a> Reader<'a> {
    /// A reader before the first stroke.
    pub fn new(points: &'a [u32], starts: &'a [u32]) -> Self {
        Reader { points, starts, at: 0 }
    }

    /// How many strokes are left.
    pub fn left(&self) -> usize {
        // SAFETY: the list is a pointer with its length.
        unsafe { c::ramikohy_strokes_left(self.starts.as_ptr(), self.starts.len(), self.at) }
    }
}

impl<'a> Iterator for Reader<'a> {
    type Item = &'a [u32];

    fn next(&mut self) -> Option<&'a [u32]> {
        if self.left() == 0 {
            return None;
        }
        let (p, s, i) = (self.points, self.starts, self.at);
        // SAFETY: each list is a pointer with its length.
        let (first, length) = unsafe {
            (
                c::ramikohy_stroke_first(p.as_ptr(), p.len(), s.as_ptr(), s.len(), i),
                c::ramikohy_stroke_length(p.as_ptr(), p.len(), s.as_ptr(), s.len(), i),
            )
        };
        self.at += 1;
        Some(&p[first..first + length])
    }
}
