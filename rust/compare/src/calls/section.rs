//! `section`: where a plane cuts the faces of a mesh, in list order.

use super::mesh::{self, mostly};
use super::strokes::bits;
use super::{Left, Lent, any_pattern, dirty, patterns, room};
use crate::random::Random;
use crate::runs::Seen;
use crate::torus;

#[derive(Clone, Debug)]
pub struct Input {
    pub vertices: Vec<f64>,
    pub indices: Vec<u32>,
    /// A point of the plane and its normal.
    pub plane: [f64; 6],
    pub tolerance: f64,
    /// Points lent, as the bits of their coordinates.
    pub lent: Lent<u64>,
}

/// A random input.
pub fn make(random: &mut Random) -> Input {
    let (vertices, indices) = mesh::make(random);
    let faces = indices.len() / 3;
    let plane = [(); 6].map(|()| mostly(random, 5, &[0.0, 1.0, -1.0, 0.25, 0.3, f64::NAN, 1048577.0]));
    let tolerance = mostly(random, 3, &[1e-9, 1e-6, 0.25, 0.0, 1.0, f64::NAN]);
    let lengths = [0, room(random, 2 * faces) * 3, room(random, faces)];
    let lent = dirty(random, lengths, any_pattern);
    Input { vertices, indices, plane, tolerance, lent }
}

/// The torus of the benchmarks, with the most faces that a call takes, and with one more, for each tolerance.
fn always() -> impl Iterator<Item = Input> {
    let torus = torus::wavy(256, 128);
    let over = [&torus.faces[..], &torus.faces[..1]].concat();
    let meshes = [torus.faces, over].map(|faces| (torus.vertices.concat(), faces.concat()));
    super::adaptive::TOLERANCES.into_iter().flat_map(move |tolerance| {
        meshes.clone().map(|(vertices, indices)| {
            let (points, starts) = (vec![5; 2 * indices.len()], vec![9; indices.len() / 3]);
            let lent = Lent { points, starts, ..Lent::default() };
            Input { vertices, indices, plane: [0.1, 0.2, 0.05, 0.3, 0.9, 0.2], tolerance, lent }
        })
    })
}

/// What the rules and the original say that the call leaves.
pub fn judged(input: &Input) -> Left<u64> {
    let Input { vertices, indices, plane, tolerance, lent } = input;
    let lengths = [lent.points.len(), lent.starts.len()];
    match crate::reading::section(vertices, indices, plane, *tolerance, lengths) {
        0 => lent.accepted(&cut(input), 3, &[]),
        status => lent.refused(status),
    }
}

/// The original's segments, face by face, by the build that has this tolerance.
fn cut(input: &Input) -> Vec<Vec<u64>> {
    macro_rules! cut {
        ($original:ident) => {{
            use original::$original::{plane::Plane, triangle::Triangle, vector::Vector};
            let vector = |p: &[f64]| Vector::new(p[0], p[1], p[2]);
            let at = |v: u32| vector(&input.vertices[v as usize * 3..][..3]);
            let plane = Plane::new(vector(&input.plane[..3]), vector(&input.plane[3..]));
            let segment = |f: &[u32]| plane.intersect_triangle(&Triangle::new(at(f[0]), at(f[1]), at(f[2])));
            let numbers = |(a, b): (Vector, Vector)| [a.x, a.y, a.z, b.x, b.y, b.z].map(bits).to_vec();
            input.indices.chunks_exact(3).filter_map(segment).map(numbers).collect()
        }};
    }
    match super::adaptive::TOLERANCES.iter().position(|&t| t == input.tolerance) {
        Some(1) => cut!(eps_1e6),
        Some(2) => cut!(eps_quarter),
        _ => cut!(eps_1e9),
    }
}

/// What the port leaves.
fn port(input: &Input) -> Left<u64> {
    let (mut room, mut starts) = (super::numbers(&input.lent.points), input.lent.starts.clone());
    let [a, b, c, d, e, f] = input.plane;
    let plane = ramikohy::Plane { point: [a, b, c], normal: [d, e, f] };
    let answer =
        ramikohy::lent::section(&input.vertices, &input.indices, &plane, input.tolerance, &mut room, &mut starts);
    let counts = answer.map(|wrote| [wrote.points, wrote.starts]);
    super::left(counts, Lent { points: patterns(&room), starts, ..input.lent.clone() })
}

/// Runs the port beside the original.
pub fn run(count: u64, seed: u64) -> Seen {
    super::run(always(), make, judged, port, (count, seed))
}
