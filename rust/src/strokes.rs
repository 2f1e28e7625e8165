//! Lists of strokes.

/// Strokes, one after the other: their points in a row, and where each begins.
///
/// ```
/// use ramikohy::Strokes;
///
/// let strokes: Strokes<u32> = [[1, 2].as_slice(), &[], &[3]].into_iter().collect();
/// assert_eq!(strokes.starts(), [0, 2, 2]);
/// assert_eq!(strokes.iter().collect::<Vec<_>>(), [[1, 2].as_slice(), &[], &[3]]);
/// ```
#[derive(Debug, Clone, PartialEq, Default)]
pub struct Strokes<P> {
    points: Vec<P>,
    starts: Vec<u32>,
}

impl<P> Strokes<P> {
    /// A list by its two parts, as a call has written them.
    pub(crate) fn from_parts(points: Vec<P>, starts: Vec<u32>) -> Self {
        Strokes { points, starts }
    }

    /// The points of all strokes.
    pub fn points(&self) -> &[P] {
        &self.points
    }

    /// The place of each stroke's first point.
    pub fn starts(&self) -> &[u32] {
        &self.starts
    }

    /// One stroke after the other.
    pub fn iter(&self) -> impl Iterator<Item = &[P]> {
        strokes(&self.points, &self.starts)
    }
}

/// One stroke after the other, each a part of the points, an empty one too. A start that passes the next one or the points is
/// taken back to it, so every table has its strokes.
///
/// ```
/// let points = [1, 0, 2, 1, 5];
/// assert_eq!(ramikohy::strokes(&points, &[0, 4, 4]).collect::<Vec<_>>(), [[1, 0, 2, 1].as_slice(), &[], &[5]]);
/// assert_eq!(ramikohy::strokes(&points, &[9, 3, 8]).collect::<Vec<_>>(), [[].as_slice(), &[1, 5], &[]]);
/// ```
pub fn strokes<'a, P>(points: &'a [P], starts: &'a [u32]) -> impl Iterator<Item = &'a [P]> {
    let ends = starts.iter().skip(1).map(|&s| s as usize).chain([points.len()]);
    starts.iter().zip(ends).map(|(&start, end)| {
        let end = end.min(points.len());
        &points[(start as usize).min(end)..end]
    })
}

impl<'a, P: Clone + 'a> FromIterator<&'a [P]> for Strokes<P> {
    fn from_iter<I: IntoIterator<Item = &'a [P]>>(strokes: I) -> Self {
        let (mut points, mut starts) = (Vec::new(), Vec::new());
        for stroke in strokes {
            starts.push(points.len() as u32);
            points.extend_from_slice(stroke);
        }
        Strokes { points, starts }
    }
}
