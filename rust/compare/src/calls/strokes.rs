//! Lists of strokes as they are lent: points, and a table of starts.

use crate::random::Random;

/// The strokes of a good table, empty ones too; a point takes `width` places.
pub fn split<P: Copy>(points: &[P], starts: &[u32], width: usize) -> Vec<Vec<P>> {
    let end = |i: usize| starts.get(i + 1).map_or(points.len(), |&s| s as usize * width);
    (0..starts.len()).map(|i| points[starts[i] as usize * width..end(i)].to_vec()).collect()
}

/// A table for `points` points: mostly good, with empty strokes, and now and then at fault.
pub fn table(random: &mut Random, points: usize) -> Vec<u32> {
    let strokes = random.below(7 + points / 3);
    let mut starts: Vec<u32> = (0..strokes).map(|_| random.below(points + 1) as u32).collect();
    starts.sort_unstable();
    if let Some(first) = starts.first_mut() {
        *first = 0;
    }
    if random.once_in(8) && !starts.is_empty() {
        let at = random.below(starts.len());
        starts[at] = random.one_of(&[0, 1, points as u32, points as u32 + 1, u32::MAX]);
    }
    starts
}

/// Coordinates of `points` points: few values, so that points coincide, and now and then one at or past a limit.
pub fn coordinates(random: &mut Random, points: usize) -> Vec<f64> {
    let scale = random.one_of(&[0.25, 1.0, 3.7]);
    let mut list: Vec<f64> = (0..points * 3).map(|_| (random.below(9) as f64 - 4.0) * scale).collect();
    if random.once_in(4) {
        list.iter_mut().for_each(|x| *x += random.unit());
    }
    if random.once_in(10) && !list.is_empty() {
        let at = random.below(list.len());
        let odd = [-0.0, 1048576.0, -1048576.0, 1048576.0000000002, f64::NAN, f64::INFINITY, f64::NEG_INFINITY];
        list[at] = random.one_of(&odd);
    }
    if random.once_in(16) {
        list.pop();
    }
    list
}

/// The original's list of the strokes that are not empty.
macro_rules! paths_of {
    ($original:ident, $strokes:expr) => {{
        use original::$original::{path::Paths, vector::Vector};
        let mut paths = Paths::new();
        for stroke in $strokes {
            paths.new_path().extend(stroke.chunks_exact(3).map(|p| Vector::new(p[0], p[1], p[2])));
        }
        paths
    }};
}

/// The strokes of one of the original's lists, as bits.
macro_rules! bits_of {
    ($paths:expr) => {
        $paths
            .iter_paths()
            .map(|path| {
                path.iter().flat_map(|v| [v.x, v.y, v.z].map(crate::calls::strokes::bits)).collect::<Vec<u64>>()
            })
            .collect::<Vec<_>>()
    };
}

/// The bits of a number, one pattern for every NaN.
pub fn bits(x: f64) -> u64 {
    if x.is_nan() { f64::NAN.to_bits() } else { x.to_bits() }
}

pub(super) use {bits_of, paths_of};
