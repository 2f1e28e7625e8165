//! Meshes to draw and to cut: few vertices, so that edges are shared.

use super::strokes::coordinates;
use crate::random::Random;
use std::f64::consts::SQRT_2;

/// Vertices and indices: mostly good, now and then a vertex number too large, or a list of another length.
pub fn make(random: &mut Random) -> (Vec<f64>, Vec<u32>) {
    let count = random.below(7);
    let vertices = coordinates(random, count);
    let mut indices: Vec<u32> = (0..random.below(8) * 3).map(|_| random.below(count.max(1)) as u32).collect();
    if count == 0 && !random.once_in(4) {
        indices.clear();
    }
    if random.once_in(24) {
        indices.pop();
    }
    if random.once_in(24) && !indices.is_empty() {
        let at = random.below(indices.len());
        indices[at] = random.one_of(&[count as u32, u32::MAX]);
    }
    (vertices, indices)
}

/// A square of two faces or of four, folded or flat.
pub fn square(random: &mut Random) -> (Vec<f64>, Vec<u32>) {
    let up = random.one_of(&[0.0, 0.0, 1.0, -0.5]);
    let vertices = vec![0.0, 0.0, 0.0, 1.0, 0.0, 0.0, 1.0, 1.0, up, 0.0, 1.0, 0.0, 2.0, 0.0, -up, 2.0, 1.0, up];
    let faces = [[0, 1, 2], [0, 2, 3], [1, 4, 5], [1, 5, 2]];
    (vertices, faces[..random.one_of(&[2, 4])].concat())
}

/// Faces around one edge, so that it has three faces and more.
pub fn book(random: &mut Random) -> (Vec<f64>, Vec<u32>) {
    let pages = 1 + random.below(5);
    let mut vertices = vec![0.0, 0.0, 0.0, 0.0, 0.0, 1.0];
    for _ in 0..pages {
        vertices.extend([random.below(3), random.below(3), random.below(2)].map(|k| k as f64 - 1.0));
    }
    let turned = |page: u32| random.one_of(&[[0, 1, page], [1, 0, page], [page, 0, 1], [1, page, 0]]);
    (vertices, (2..2 + pages as u32).flat_map(turned).collect())
}

/// Meshes of which every edge has an even number of faces: two ends over a ring, two such that share a vertex or an
/// edge, in any order of faces and of their corners.
pub fn closed(random: &mut Random) -> (Vec<f64>, Vec<u32>) {
    let mut count = 4 + random.below(3);
    let mut faces = double_cone(2..count as u32, [0, 1]);
    if random.once_in(3) {
        let (first, last) = (count - random.below(2), count + 2 + random.below(2));
        faces.extend(double_cone(first as u32..last as u32, [0, last as u32]));
        count = last + 1;
    }
    let mut indices = Vec::new();
    while !faces.is_empty() {
        let [a, b, c] = faces.swap_remove(random.below(faces.len()));
        indices.extend(random.one_of(&[[a, b, c], [b, c, a], [c, a, b], [a, c, b], [c, b, a], [b, a, c]]));
    }
    (coordinates(random, count), indices)
}

/// Two faces from each side of a ring of vertices, one to each end.
fn double_cone(ring: std::ops::Range<u32>, [top, bottom]: [u32; 2]) -> Vec<[u32; 3]> {
    let next = |p: u32| if p + 1 == ring.end { ring.start } else { p + 1 };
    ring.clone().flat_map(|p| [[top, p, next(p)], [bottom, next(p), p]]).collect()
}

/// 2^-269. A cross product whose computed length is 0 or just not 0 comes of sides about so long.
const LEAST: f64 = f64::from_bits((1023 - 269) << 52);

/// Coordinates of flat faces and of faces that are just not flat: on a line, by underflow, about the limit of underflow, by rounding.
const FLAT: [[f64; 4]; 4] = [
    [0.0, -0.0, 1.0, 2.0],
    [0.0, -0.0, LEAST, 2.0 * LEAST],
    [0.0, LEAST, SQRT_2.next_down() * LEAST, SQRT_2 * LEAST],
    [0.0, 1.0, 1e-20, -1e-20],
];

/// Faces of which many are flat, of either kind and in any order: vertices that are equal, lie on a line or lie too near.
pub fn flat(random: &mut Random) -> (Vec<f64>, Vec<u32>) {
    let (count, faces, numbers) = (4 + random.below(4), 1 + random.below(5), random.one_of(&FLAT));
    let mut one = |among: &[f64]| random.one_of(among);
    let vertices = (0..count).flat_map(|_| [one(&numbers), one(&numbers), one(&[0.0, -0.0, numbers[2]])]).collect();
    let mut face = || {
        let first = random.below(count);
        [0, 1 + random.below(count - 1), 1 + random.below(count - 1)].map(|k| ((first + k) % count) as u32)
    };
    (vertices, (0..faces).flat_map(|_| face()).collect())
}

/// Some faces over again, in another order of their corners; and now and then a face with a corner twice.
pub fn worn(random: &mut Random, indices: &mut Vec<u32>) {
    let faces = indices.len() / 3;
    if faces == 0 || !indices.len().is_multiple_of(3) {
        return;
    }
    for _ in 0..random.below(3) {
        let f = random.below(faces) * 3;
        let [a, b, c] = [indices[f], indices[f + 1], indices[f + 2]];
        indices.extend(random.one_of(&[[a, b, c], [b, c, a], [c, b, a]]));
    }
    if random.once_in(6) {
        let at = random.below(indices.len());
        indices[at] = indices[at / 3 * 3 + random.below(3)];
    }
}

/// A corner of a good mesh, by its place in the list of indices.
pub fn corner(vertices: &[f64], indices: &[u32], at: usize) -> Option<[f64; 3]> {
    let from = *indices.get(at)? as usize * 3;
    vertices.get(from..from + 3)?.try_into().ok()
}

/// A number that is mostly one of the first `good` of a list.
pub fn mostly(random: &mut Random, good: usize, list: &[f64]) -> f64 {
    let among = if random.once_in(12) { list.len() } else { good };
    list[random.below(among)]
}
