//! `contour`: the segments in which a plane cuts the faces of a mesh, joined where their ends have the same
//! coordinates.
//!
//! The original has no such call. A plain reading of the rules, written apart from the port, gives the segments, and
//! the original's `splice_exact` joins them by the patterns of their coordinates.

use super::mesh::{self, mostly};
use super::splice::joined;
use super::strokes::split;
use super::{Left, Lent, any_pattern, dirty, patterns, room};
use crate::random::Random;
use crate::runs::Seen;
use crate::torus;
use std::collections::BTreeMap;

#[derive(Clone, Debug)]
pub struct Input {
    pub vertices: Vec<f64>,
    pub indices: Vec<u32>,
    /// A point of the plane and its normal.
    pub plane: [f64; 6],
    pub tolerance: f64,
    /// Points and numbers lent, as their bits.
    pub lent: Lent<u64>,
}

/// A point by the patterns of its coordinates.
pub type Point = [u64; 3];

// ---- the rules

/// Where a vertex lies.
#[derive(Clone, Copy, PartialEq, Debug)]
pub enum Side {
    Above,
    Below,
    On,
}

impl Input {
    /// Where a vertex is.
    fn at(&self, v: u32) -> [f64; 3] {
        [0, 1, 2].map(|k| self.vertices[3 * v as usize + k])
    }

    /// How high it is over the plane: the dot of the normal with it minus the plane's point.
    pub fn height(&self, v: u32) -> f64 {
        let ([x, y, z], [px, py, pz, nx, ny, nz]) = (self.at(v), self.plane);
        nx * (x - px) + ny * (y - py) + nz * (z - pz)
    }

    /// Above if that is not below the tolerance, below if it is not above minus the tolerance, else on.
    pub fn side(&self, v: u32) -> Side {
        match self.height(v) {
            s if s >= self.tolerance => Side::Above,
            s if s <= -self.tolerance => Side::Below,
            _ => Side::On,
        }
    }

    /// Where the plane crosses the side between two vertices, worked from the one with the lower number.
    fn crossing(&self, v: u32, w: u32) -> [f64; 3] {
        let (low, high) = (v.min(w), v.max(w));
        let (a, b, sa, sb) = (self.at(low), self.at(high), self.height(low), self.height(high));
        let t = sa / (sa - sb);
        [0, 1, 2].map(|k| a[k] + (b[k] - a[k]) * t)
    }

    /// The segment of a face, if it gives one: its points in the order met going round, with no -0.
    pub fn segment(&self, face: [u32; 3]) -> Option<[[f64; 3]; 2]> {
        let sides = face.map(|v| self.side(v));
        let count = |side: Side| sides.iter().filter(|&&s| s == side).count();
        let counts = [Side::Above, Side::Below, Side::On].map(count);
        if ![[1, 1, 1], [1, 2, 0], [2, 1, 0], [1, 0, 2]].contains(&counts) {
            return None;
        }
        let mut met = Vec::new();
        for (i, j) in [(0, 1), (1, 2), (2, 0)] {
            match (sides[i], sides[j]) {
                (Side::On, _) => met.push(self.at(face[i])),
                (Side::Above, Side::Below) | (Side::Below, Side::Above) => met.push(self.crossing(face[i], face[j])),
                _ => {}
            }
        }
        let [p, q] = met[..] else { panic!("{met:?} are met in face {face:?} of {self:?}") };
        Some([p, q].map(|point| point.map(|x| if x == 0.0 { 0.0 } else { x })))
    }

    /// Those of all faces, in their order, by their patterns.
    pub fn segments(&self) -> Vec<[Point; 2]> {
        let segment = |f: &[u32]| self.segment([f[0], f[1], f[2]]);
        self.indices.chunks_exact(3).filter_map(segment).map(|s| s.map(|p| p.map(f64::to_bits))).collect()
    }

    /// Whether every edge has an even number of faces, and no face has a vertex twice: then all strokes are closed.
    pub fn is_closed(&self) -> bool {
        let mut faces: BTreeMap<(u32, u32), usize> = BTreeMap::new();
        for f in self.indices.chunks_exact(3) {
            for (a, b) in [(f[0], f[1]), (f[1], f[2]), (f[2], f[0])] {
                *faces.entry((a.min(b), a.max(b))).or_default() += 1;
            }
        }
        faces.iter().all(|(&(a, b), n)| a != b && n.is_multiple_of(2))
    }
}

/// The strokes that segments come to, by the original's splice.
pub fn spliced(segments: &[[Point; 2]]) -> Vec<Vec<Point>> {
    let mut paths = original::eps_1e9::path::Paths::new();
    segments.iter().for_each(|&segment| paths.new_path().extend(segment));
    paths.splice_exact().iter_paths().map(|path| path.to_vec()).collect()
}

/// What the rules say that the call leaves.
pub fn judged(input: &Input) -> Left<u64> {
    let Input { vertices, indices, plane, tolerance, lent } = input;
    let lengths = [lent.scratch.len(), lent.numbers.len(), lent.points.len(), lent.starts.len()];
    match crate::reading::contour(vertices, indices, plane, *tolerance, lengths) {
        0 => {
            let strokes: Vec<Vec<u64>> = spliced(&input.segments()).iter().map(|s| s.concat()).collect();
            lent.accepted(&strokes, 3, &[])
        }
        status => lent.refused(status),
    }
}

/// The strokes that an accepted call left.
pub fn strokes(left: &Left<u64>) -> Vec<Vec<Point>> {
    let (points, _) = left.lent.points[..3 * left.counts[0]].as_chunks::<3>();
    split(points, &left.lent.starts[..left.counts[1]], 1)
}

/// What must hold of every accepted contour: each segment is drawn as often as it is given, and coordinates end one
/// open stroke if an odd number of segments' ends meet there, and none otherwise; every number is finite and none is
/// -0; and all strokes are closed where the mesh is.
pub fn is_sound(input: &Input, left: &Left<u64>) -> bool {
    let before: Vec<Vec<Point>> = input.segments().iter().map(|s| s.to_vec()).collect();
    let after = strokes(left);
    let is_good = |x: u64| f64::from_bits(x).is_finite() && x != (-0.0f64).to_bits();
    joined(&before, &after)
        && after.iter().flatten().flatten().all(|&x| is_good(x))
        && (after.iter().all(|s| s.first() == s.last()) || !input.is_closed())
}

// ---- inputs

/// A random input: a mesh that is closed or any, some faces over again, most of the vertices where the plane is, near
/// it, or just as far from it as the tolerance.
pub fn make(random: &mut Random) -> Input {
    let (mut vertices, mut indices) = match random.below(6) {
        0 => mesh::make(random),
        1 => mesh::book(random),
        _ => mesh::closed(random),
    };
    if random.once_in(4) {
        mesh::worn(random, &mut indices);
    }
    if random.once_in(6) {
        indices.extend_from_within(..);
    }
    let tolerance = mostly(random, 7, &TOLERANCES);
    let plane = plane(random);
    for vertex in vertices.chunks_exact_mut(3) {
        settle(random, vertex, &plane, tolerance);
    }
    repeat(random, &mut vertices);
    let lent = lent(random, indices.len() / 3);
    Input { vertices, indices, plane, tolerance, lent }
}

/// Tolerances of every size, and what is none.
const TOLERANCES: [f64; 13] =
    [1e-9, 1e-9, 1e-6, 0.25, 0.5, 0.9999999999999999, 5e-324, f64::MIN_POSITIVE, 0.0, -0.0, 1.0, -0.5, f64::NAN];

/// A plane across an axis, mostly through the origin, or any plane, one with no normal too.
fn plane(random: &mut Random) -> [f64; 6] {
    if random.once_in(3) {
        return [(); 6].map(|()| mostly(random, 6, &[0.0, 1.0, -1.0, 0.25, 0.3, -0.0, f64::NAN, 1048577.0]));
    }
    let mut plane = [0.0, 0.0, 0.0, 0.0, -0.0, 0.0];
    let axis = random.below(3);
    plane[axis] = random.one_of(&[0.0, 0.0, 0.0, -0.0, 1.0, 0.3]);
    plane[3 + axis] = random.one_of(&[1.0, 1.0, -1.0, 2.0, 0.3, 1048576.0]);
    plane
}

/// Moves a vertex, three times in four: of a plane across an axis to a height of note.
fn settle(random: &mut Random, vertex: &mut [f64], plane: &[f64; 6], tolerance: f64) {
    let t = tolerance;
    let near = [0.0, -0.0, t, -t, t.next_up(), t.next_down(), -t.next_up(), -t.next_down(), t / 2.0, 3.0 * t];
    let height = if random.once_in(2) { random.one_of(&near) } else { random.one_of(&[1.0, -1.0, 0.3, -0.1]) };
    let mut across = (0..3).filter(|&k| plane[3 + k] != 0.0);
    if let (Some(k), None, false) = (across.next(), across.next(), random.once_in(4)) {
        vertex[k] = plane[k] + height / plane[3 + k];
    }
}

/// Some vertices where others are, some zeros with the other sign.
fn repeat(random: &mut Random, vertices: &mut [f64]) {
    let count = vertices.len() / 3;
    if random.once_in(3) && count > 0 {
        for _ in 0..1 + random.below(3) {
            let (from, to) = (3 * random.below(count), 3 * random.below(count));
            vertices.copy_within(from..from + 3, to);
        }
    }
    if random.once_in(2) {
        vertices.iter_mut().filter(|x| **x == 0.0).for_each(|x| *x = random.one_of(&[0.0, -0.0]));
    }
}

/// What is lent for so many faces: dirty, and one time in three tight.
fn lent(random: &mut Random, faces: usize) -> Lent<u64> {
    let tight = random.once_in(3);
    let mut length = |need| if tight { room(random, need) } else { need + random.below(5) };
    let [words, numbers, points, starts] = [16 * faces, 8 * faces, 6 * faces, faces].map(&mut length);
    let lent = dirty(random, [words, points, starts], any_pattern);
    Lent { numbers: (0..numbers).map(|_| any_pattern(random.bits())).collect(), ..lent }
}

/// A mesh cut by a plane, with just what it needs lent, and something in it.
pub fn of_mesh(vertices: &[f64], indices: &[u32], plane: [f64; 6], tolerance: f64) -> Input {
    let faces = indices.len() / 3;
    let lent = Lent {
        scratch: vec![7; 16 * faces],
        numbers: vec![7; 8 * faces],
        points: vec![5; 6 * faces],
        starts: vec![9; faces],
        face: None,
    };
    Input { vertices: vertices.to_vec(), indices: indices.to_vec(), plane, tolerance, lent }
}

/// The plane z = 0.
const FLOOR: [f64; 6] = [0.0, 0.0, 0.0, 0.0, 0.0, 1.0];

/// Every mesh of up to two faces on five vertices, of which two lie above the plane, one below and two on it.
pub fn all_small() -> impl Iterator<Item = Input> {
    let vertices = [0.0, 0.0, 1.0, 1.0, 0.0, -1.0, 0.0, 1.0, -0.0, 1.0, 1.0, 0.0, 0.5, -1.0, 2.0];
    super::draw::up_to_two_faces(5).into_iter().map(move |list| of_mesh(&vertices, &list, FLOOR, 1e-9))
}

/// The same of one and two faces on four vertices, of which two have one mix and are not the same.
fn one_mix() -> impl Iterator<Item = Input> {
    let [a, b] = torus::ONE_MIX;
    let vertices = [a, b, [0.5, 0.5, 0.0], [0.0, 0.0, 1.0]].concat();
    super::draw::up_to_two_faces(4).into_iter().map(move |list| of_mesh(&vertices, &list, FLOOR, 1e-9))
}

/// One face with a word, a number, a coordinate or a start too few, and with all that it needs, its numbers at their
/// limits; and one that is not cut, which needs as much.
fn at_limits() -> impl Iterator<Item = Input> {
    let most = 1048576.0;
    let far = of_mesh(&[most, -most, most, -most, most, -most, most, most, -most], &[0, 1, 2], FLOOR, 1e-9);
    let far = Input { plane: [-most, most, 0.0, most, -most, most], ..far };
    let clear = of_mesh(&[0.0, 0.0, 1.0, 1.0, 0.0, 1.0, 0.0, 1.0, 1.0], &[0, 1, 2], FLOOR, 1e-9);
    [far, clear].into_iter().flat_map(|whole| {
        let mut short = [(); 5].map(|()| whole.clone());
        short[0].lent.scratch.pop();
        short[1].lent.numbers.pop();
        short[2].lent.points.pop();
        short[3].lent.starts.pop();
        short
    })
}

/// Large meshes: the torus with the most faces that a call takes and with one more, its faces apart (the most
/// vertices), a fan around one vertex, one face over and over, every edge with many faces; one vertex more than a call
/// takes; and those that are made to hurt. The torus is cut aslant, and through many of its corners.
fn large() -> impl Iterator<Item = Input> {
    let torus = torus::wavy(256, 128);
    let over = [&torus.faces[..], &torus.faces[..1]].concat();
    let (apart, fan, equal, shared) = (torus.apart(), torus.fan(), torus.equal(), torus.shared());
    let mut past = apart.vertices.clone();
    past.push([0.0; 3]);
    let same = torus::Mesh { vertices: torus.vertices.clone(), faces: over };
    let past = torus::Mesh { vertices: past, faces: apart.faces.clone() };
    let made = [torus.column(), torus.band(1), torus.band(7919), torus.needles(), torus.one_mix()];
    let all = [torus, same, apart, past, fan, equal, shared].into_iter().chain(made);
    all.flat_map(|mesh| {
        let aslant = [0.1, 0.2, 0.05, 0.3, 0.9, 0.2];
        [(aslant, 1e-9), (FLOOR, 1e-9), (FLOOR, 0.25)].map(|(plane, tolerance)| {
            of_mesh(mesh.vertices.as_flattened(), mesh.faces.as_flattened(), plane, tolerance)
        })
    })
}

/// What the port leaves. What must hold of every accepted contour is asked of it too.
fn port(input: &Input) -> Left<u64> {
    let mut lent = input.lent.clone();
    let (mut numbers, mut points) = (super::numbers(&lent.numbers), super::numbers(&lent.points));
    let Input { vertices, indices, tolerance, plane: [a, b, c, d, e, f], .. } = input;
    let plane = ramikohy::Plane { point: [*a, *b, *c], normal: [*d, *e, *f] };
    let Lent { scratch, starts, .. } = &mut lent;
    let answer =
        ramikohy::lent::contour(vertices, indices, &plane, *tolerance, scratch, &mut numbers, &mut points, starts);
    (lent.numbers, lent.points) = (patterns(&numbers), patterns(&points));
    let left = super::left(answer.map(|wrote| [wrote.points, wrote.starts]), lent);
    assert!(left.status != 0 || is_sound(input, &left), "{input:?}");
    left
}

/// Runs the port beside the rules.
pub fn run(count: u64, seed: u64) -> Seen {
    super::run(all_small().chain(one_mix()).chain(at_limits()).chain(large()), make, judged, port, (count, seed))
}
