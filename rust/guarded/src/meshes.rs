//! The calls on meshes.

use crate::buffer::{Buffer, Slice, reals, words};
use crate::call::{Call, Left, handed, status};
use crate::sound;
use crate::source::Source;
use ramikohy::Sight;
use std::collections::BTreeMap;

/// Corners as vertices and faces.
pub fn weld(s: &mut Source) -> Call {
    let faces = s.some(9);
    let (coords, _) = s.coordinates(3 * faces);
    weld_of(&coords, s.below(3))
}

/// The same of given corners, with this much more room than is needed.
pub fn weld_of(coords: &[f64], more: usize) -> Call {
    let faces = coords.len() / 9;
    let mut buffers = vec![Buffer::input(coords), Buffer::scratch::<u32>(12 * faces, more)];
    buffers.extend([Buffer::room::<f64>(0, 3, 9 * faces, more), Buffer::room::<u32>(1, 1, 3 * faces, more)]);
    buffers.extend([(); 2].map(|()| Buffer::place::<usize>()));
    let work = |b: &[Slice]| status(handed!(ramikohy_weld, b, [0][1][2][3](4)(5)));
    Call::new("ramikohy_weld", &[1, 2, 4, 5, 6], buffers, work).sound(|call, left| {
        let (vertices, indices) = (left.count(call, 0), left.written(call, 3));
        assert_eq!(indices.len(), left.bytes[0].len() / 24, "an index for each corner");
        assert!(indices.iter().all(|&i| (i as usize) < vertices), "an index of no vertex");
    })
}

/// A mesh cut by a plane.
pub fn section(s: &mut Source) -> Call {
    let (vertices, indices) = s.mesh();
    let mut number = || s.mostly(5, &[0.0, 1.0, -1.0, 0.25, 0.3, f64::NAN, 1048577.0]);
    let plane = [(); 2].map(|()| [(); 3].map(|()| number()));
    let tolerance = s.mostly(3, &[1e-9, 1e-6, 0.25, 0.0, 1.0, f64::NAN]);
    section_of(&vertices, &indices, plane, tolerance, s.below(3))
}

/// The same of a given mesh and plane, with this much more room than is needed.
pub fn section_of(vertices: &[f64], indices: &[u32], plane: [[f64; 3]; 2], tolerance: f64, more: usize) -> Call {
    let faces = indices.len() / 3;
    let mut buffers = vec![Buffer::input(vertices), Buffer::input(indices)];
    buffers.extend(plane.map(|p| Buffer::input(&p)));
    buffers.extend([Buffer::room::<f64>(0, 3, 6 * faces, more), Buffer::room::<u32>(1, 1, faces, more)]);
    buffers.extend([(); 2].map(|()| Buffer::place::<usize>()));
    let work = move |b: &[Slice]| status(handed!(ramikohy_section, b, [0] [1] (2) (3) {tolerance} [4] [5] (6) (7)));
    Call::new("ramikohy_section", &[1, 2, 3, 4, 6], buffers, work)
        .sound(|call, left| assert_eq!(left.count(call, 0), 2 * left.count(call, 1), "strokes of two"))
}

/// The outline in which a plane cuts a mesh: across an axis and through vertices, or any.
pub fn contour(s: &mut Source) -> Call {
    let (mut vertices, indices) = s.mesh();
    let tolerance = s.mostly(4, &[1e-9, 1e-6, 0.25, 0.5, 0.0, 1.0, f64::NAN, 5e-324]);
    let mut plane = [[0.0; 3], [0.0, 0.0, 1.0]];
    if s.once_in(2) {
        let mut number = || s.mostly(5, &[0.0, 1.0, -1.0, 0.25, 0.3, f64::NAN, 1048577.0]);
        plane = [(); 2].map(|()| [(); 3].map(|()| number()));
    } else {
        let heights = [0.0, -0.0, 1.0, -1.0, tolerance, -tolerance, 0.3, -0.1];
        vertices.chunks_exact_mut(3).for_each(|vertex| vertex[2] = s.one_of(&heights));
    }
    contour_of(&vertices, &indices, plane, tolerance, s.below(3))
}

/// The same of a given mesh and plane, with this much more room than is needed.
pub fn contour_of(vertices: &[f64], indices: &[u32], plane: [[f64; 3]; 2], tolerance: f64, more: usize) -> Call {
    let faces = indices.len() / 3;
    let mut buffers = vec![Buffer::input(vertices), Buffer::input(indices)];
    buffers.extend(plane.map(|p| Buffer::input(&p)));
    buffers.extend([Buffer::scratch::<u32>(16 * faces, more), Buffer::scratch::<f64>(8 * faces, more)]);
    buffers.extend([Buffer::room::<f64>(0, 3, 6 * faces, more), Buffer::room::<u32>(1, 1, faces, more)]);
    buffers.extend([(); 2].map(|()| Buffer::place::<usize>()));
    let work =
        move |b: &[Slice]| status(handed!(ramikohy_contour, b, [0] [1] (2) (3) {tolerance} [4] [5] [6] [7] (8) (9)));
    Call::new("ramikohy_contour", &[1, 2, 3, 4, 5, 6], buffers, work).sound(is_contour)
}

/// The strokes are of two points or more, of numbers that are finite and not -0, no more segments than faces; and no
/// pen lift is too many, where ends with the same coordinates could be joined.
fn is_contour(call: &Call, left: &Left) {
    let (points, starts) = (left.count(call, 0), left.written(call, 7));
    let written = &reals(&left.bytes[6])[..3 * points];
    assert!(written.iter().all(|x| x.is_finite() && x.to_bits() != (-0.0f64).to_bits()), "a number that none is");
    let mut names: BTreeMap<[u64; 3], u32> = BTreeMap::new();
    let name = |p: &[f64]| {
        let next = names.len() as u32;
        *names.entry([0, 1, 2].map(|k| p[k].to_bits())).or_insert(next)
    };
    let numbered: Vec<u32> = written.chunks_exact(3).map(name).collect();
    let after = sound::split(&numbered, &starts);
    assert!(after.iter().all(|s| s.len() > 1), "a stroke of one point");
    assert!(points - starts.len() <= left.bytes[1].len() / 12, "more segments than faces");
    let segments: Vec<Vec<u32>> = after.iter().flat_map(|s| s.windows(2).map(|w| w.to_vec())).collect();
    sound::joined(&segments, &after);
}

/// The edges that a mode keeps, spliced.
pub fn draw(s: &mut Source) -> Call {
    let (vertices, indices) = s.mesh();
    let flips: Vec<u32> = (0..s.below(8)).map(|_| if s.once_in(32) { s.word() } else { s.below(8) as u32 }).collect();
    let flips = if s.once_in(32) { flips } else { flips[..flips.len() / 2 * 2].to_vec() };
    let mode = if s.once_in(32) { s.word() } else { s.below(4) as u32 };
    let cos_theta = s.mostly(5, &[0.0, 1.0, 0.5, -1.0, 0.9, f64::INFINITY, f64::NAN]);
    let eye = [(); 3].map(|()| s.mostly(5, &[0.0, 5.0, -3.0, 0.5, 1.0, f64::NAN, 1048576.0, 1048577.0]));
    let tolerance = s.mostly(3, &[1e-9, 1e-6, 0.25, 0.0, 1.0, f64::NAN]);
    draw_of(&vertices, &indices, &flips, Sight { mode, cos_theta, eye, tolerance }, s.below(3))
}

/// The same of a given mesh, with this much more room than is needed.
pub fn draw_of(vertices: &[f64], indices: &[u32], flips: &[u32], sight: Sight, more: usize) -> Call {
    let faces = indices.len() / 3;
    let mut buffers = vec![Buffer::input(vertices), Buffer::input(indices), Buffer::input(flips)];
    buffers.extend([Buffer::input(&sight.eye), Buffer::scratch::<u32>(64 * faces, more)]);
    buffers.extend([Buffer::scratch::<f64>(4 * faces, more), Buffer::room::<u32>(0, 1, 6 * faces, more)]);
    buffers.push(Buffer::room::<u32>(1, 1, 3 * faces, more));
    buffers.extend([Buffer::place::<usize>(), Buffer::place::<usize>(), Buffer::face()]);
    let Sight { mode, cos_theta, tolerance, .. } = sight;
    let work = move |b: &[Slice]| {
        status(handed!(ramikohy_draw, b, [0] [1] [2] {mode} {cos_theta} (3) {tolerance} [4] [5] [6] [7] (8) (9) (10)))
    };
    let sound = move |call: &Call, left: &Left| match left.answer.status {
        0 => is_drawing(call, left, mode),
        why => is_at_fault(left, why),
    };
    Call::new("ramikohy_draw", &[1, 2, 3, 4, 5, 6, 7, 10], buffers, work).sound(sound)
}

/// The face that is refused is the first whose normal has no length; by 7 two of its corners are equal, by 10 none are.
fn is_at_fault(left: &Left, why: u32) {
    let (vertices, indices, face) = (reals(&left.bytes[0]), words(&left.bytes[1]), words(&left.bytes[10])[0]);
    let at = |v: u32| [0, 1, 2].map(|k| vertices[v as usize * 3 + k]);
    let corners = |f: &[u32]| [at(f[0]), at(f[1]), at(f[2])];
    let faces: Vec<[[f64; 3]; 3]> = indices.chunks_exact(3).map(corners).collect();
    assert_eq!(faces.iter().position(|&f| is_flat(f)), Some(face as usize), "another face is at fault");
    let [a, b, c] = faces[face as usize];
    assert_eq!(why == 7, a == b || b == c || c == a, "at fault for something else");
}

/// Whether two sides of a face have a cross product of length 0.
fn is_flat([a, b, c]: [[f64; 3]; 3]) -> bool {
    let sub = |p: [f64; 3], q: [f64; 3]| [p[0] - q[0], p[1] - q[1], p[2] - q[2]];
    let (u, v) = (sub(b, a), sub(c, a));
    let n = [u[1] * v[2] - u[2] * v[1], u[2] * v[0] - u[0] * v[2], u[0] * v[1] - u[1] * v[0]];
    (n[0] * n[0] + n[1] * n[1] + n[2] * n[2]).sqrt() == 0.0
}

/// Each pair that is drawn is a side of a face, and drawn once; in triangles every side is; and no pen lift is too many.
fn is_drawing(call: &Call, left: &Left, mode: u32) {
    let after = sound::split(&left.written(call, 6), &left.written(call, 7));
    let drawn = sound::pairs(&after);
    let faces = words(&left.bytes[1]);
    let sides: Vec<Vec<u32>> = faces.chunks_exact(3).map(|f| vec![f[0], f[1], f[2], f[0]]).collect();
    let sides = sound::pairs(&sides);
    assert!(drawn.iter().all(|(pair, n)| *n == 1 && sides.contains_key(pair)), "a pair that is no side, or twice");
    assert!(mode != 1 || drawn.len() == sides.len(), "a side is not drawn");
    let kept: Vec<Vec<u32>> = drawn.keys().map(|&(a, b)| vec![a, b]).collect();
    sound::joined(&kept, &after);
}
