//! `draw`: the edges of a mesh that its mode keeps, spliced.

use super::mesh::{self, mostly};
use super::strokes::bits;
use super::{Left, Lent, any_pattern, dirty, patterns, room};
use crate::panics;
use crate::random::Random;
use crate::reading::{self, View};
use crate::runs::Seen;
use crate::torus;
use std::collections::{BTreeMap, HashMap, HashSet};

#[derive(Clone, Debug)]
pub struct Input {
    pub vertices: Vec<f64>,
    pub indices: Vec<u32>,
    pub flips: Vec<u32>,
    pub mode: u32,
    pub cos_theta: f64,
    pub eye: [f64; 3],
    pub tolerance: f64,
    pub lent: Lent<u32>,
}

/// A random input, with anything in the place of a face.
pub fn make(random: &mut Random) -> Input {
    let mut input = if random.once_in(3) { make_flat(random) } else { make_any(random) };
    input.lent.face = Some(random.bits() as u32);
    input
}

/// Squares, books and any meshes.
pub fn make_any(random: &mut Random) -> Input {
    let mesh = match random.below(3) {
        0 => mesh::square(random),
        1 => mesh::book(random),
        _ => mesh::make(random),
    };
    looked_at(random, mesh)
}

/// Meshes of which most have flat faces.
pub fn make_flat(random: &mut Random) -> Input {
    let mesh = mesh::flat(random);
    looked_at(random, mesh)
}

/// A mesh with faces over again, looked at from anywhere; from the plane of a face now and then.
fn looked_at(random: &mut Random, (vertices, mut indices): (Vec<f64>, Vec<u32>)) -> Input {
    if random.once_in(2) {
        mesh::worn(random, &mut indices);
    }
    let faces = indices.len() / 3;
    let flips = flips(random, faces);
    let mode = mostly(random, 4, &[0.0, 1.0, 2.0, 3.0, 4.0, 4294967295.0]) as u32;
    let cos_theta = mostly(random, 10, &COSINES);
    let eye = eye(random, &vertices, &indices);
    let tolerance = mostly(random, 3, &[1e-9, 1e-6, 0.25, 0.0, 1.0, f64::NAN]);
    let tight = random.once_in(3);
    let mut length = |need| if tight { room(random, need) } else { need + random.below(5) };
    let [words, numbers, points, starts] = [64 * faces, 4 * faces, 6 * faces, 3 * faces].map(&mut length);
    let mut lent = dirty(random, [words, points, starts], |word| word as u32);
    lent.numbers = (0..numbers).map(|_| any_pattern(random.bits())).collect();
    Input { vertices, indices, flips, mode, cos_theta, eye, tolerance, lent }
}

/// Cosines of both signs, those of faces that meet at 45 and at 60 degrees, and what is none.
const COSINES: [f64; 11] = [
    0.0,
    1.0,
    -1.0,
    0.5,
    -0.0,
    std::f64::consts::FRAC_1_SQRT_2,
    0.9999999999999999,
    f64::MIN_POSITIVE,
    f64::INFINITY,
    f64::NEG_INFINITY,
    f64::NAN,
];

/// Flips of every kind: the smaller face first or the larger, a face twice, faces that there are not, few or many, pairs over again,
/// and now and then a list that is not of pairs.
fn flips(random: &mut Random, faces: usize) -> Vec<u32> {
    let pairs = if random.once_in(12) { random.below(200) } else { random.below(4) };
    let mut flips: Vec<u32> = (0..pairs * 2).map(|_| random.below(faces + 1) as u32).collect();
    if random.once_in(2) {
        flips.chunks_exact_mut(2).for_each(|pair| pair.sort_unstable());
    }
    if random.once_in(6) && !flips.is_empty() {
        let at = random.below(flips.len());
        flips[at] = random.one_of(&[faces as u32, 65_535, 65_536, u32::MAX]);
    }
    if random.once_in(6) {
        flips.extend_from_within(..);
    }
    if random.once_in(24) {
        flips.push(0);
    }
    flips
}

/// An eye: some place, or one in the plane of a face, its corners too.
fn eye(random: &mut Random, vertices: &[f64], indices: &[u32]) -> [f64; 3] {
    let face = random.below(1 + indices.len() / 3) * 3;
    let corners = [face, face + 1, face + 2].map(|at| mesh::corner(vertices, indices, at));
    let (true, [Some(a), Some(b), Some(c)]) = (random.once_in(3), corners) else {
        return [(); 3].map(|()| mostly(random, 4, &[0.0, 5.0, -3.0, 0.5, f64::NAN, 1048576.0, 1048577.0]));
    };
    let [s, t] = [(); 2].map(|()| random.one_of(&[0.0, 1.0, 0.5, -1.0, 2.0]));
    [0, 1, 2].map(|i| a[i] + (b[i] - a[i]) * s + (c[i] - a[i]) * t)
}

/// A mesh, with just the room that it needs and something in it, drawn in a mode.
pub fn of_mesh(vertices: &[f64], indices: &[u32], flips: &[u32], mode: u32) -> Input {
    let faces = indices.len() / 3;
    let (cos_theta, eye, tolerance) = (0.3, [5.0, 4.0, 3.0], 1e-9);
    let lent = Lent {
        scratch: vec![7; 64 * faces],
        numbers: vec![7; 4 * faces],
        points: vec![5; 6 * faces],
        starts: vec![9; 3 * faces],
        face: Some(u32::MAX),
    };
    let (vertices, indices, flips) = (vertices.to_vec(), indices.to_vec(), flips.to_vec());
    Input { vertices, indices, flips, mode, cos_theta, eye, tolerance, lent }
}

/// The indices of every mesh of up to two faces on `n` vertices.
pub fn up_to_two_faces(n: u32) -> Vec<Vec<u32>> {
    let faces: Vec<Vec<u32>> = (0..n * n * n).map(|k| vec![k / (n * n), k / n % n, k % n]).collect();
    let two = |one: &Vec<u32>| faces.iter().map(|other| [&one[..], other].concat()).collect::<Vec<_>>();
    [vec![vec![]], faces.clone(), faces.iter().flat_map(two).collect()].concat()
}

/// Every mesh of up to two faces on four vertices that lie in no plane, in each mode, with a flip and without.
pub fn all_small() -> impl Iterator<Item = Input> {
    let vertices = [0.0, 0.0, 0.0, 1.0, 0.0, 0.0, 0.0, 1.0, 0.0, 0.0, 0.0, 1.0];
    let lists = up_to_two_faces(4);
    let ways = (0..4).flat_map(|mode| [(mode, &[][..]), (mode, &[0, 1][..])]);
    ways.flat_map(move |(mode, flips)| {
        lists.clone().into_iter().map(move |list| of_mesh(&vertices, &list, flips, mode))
    })
}

/// Every mesh of up to two faces on five vertices, of which two are equal and four lie on a line, in each mode.
pub fn all_flat() -> impl Iterator<Item = Input> {
    let vertices = [0.0, 0.0, 0.0, -0.0, 0.0, -0.0, 1.0, 0.0, 0.0, 2.0, 0.0, 0.0, 0.0, 1.0, 0.0];
    let lists = up_to_two_faces(5);
    (0..4).flat_map(move |mode| lists.clone().into_iter().map(move |list| of_mesh(&vertices, &list, &[], mode)))
}

/// Large meshes in modes 1, 2 and 3: the torus with the most faces that a call takes and with one more, its faces apart (the most vertices),
/// a fan around one vertex, one face over and over, every edge with many faces; one vertex more than a call takes; and the torus with
/// flat faces of either kind, the last face the only one or the second of two.
fn large() -> impl Iterator<Item = Input> {
    let torus = torus::wavy(256, 128);
    let over = [&torus.faces[..], &torus.faces[..1]].concat();
    let (apart, fan, equal, shared) = (torus.apart(), torus.fan(), torus.equal(), torus.shared());
    let mut past = apart.vertices.clone();
    past.push([0.0; 3]);
    let same = torus::Mesh { vertices: torus.vertices.clone(), faces: over };
    let past = torus::Mesh { vertices: past, faces: apart.faces.clone() };
    let flats =
        [vec![(65_535, 1)], vec![(65_535, 2)], vec![(40_000, 2), (65_535, 1)]].map(|at| with_flats(&torus, &at));
    [torus, same, apart, past, fan, equal, shared].into_iter().chain(flats).flat_map(|mesh| {
        let flips: Vec<u32> = (0..65_535).flat_map(|f| [f, f + 1]).collect();
        let of = move |mode| of_mesh(mesh.vertices.as_flattened(), mesh.faces.as_flattened(), &flips, mode);
        (1..4).map(of)
    })
}

/// A mesh with flat faces at some places, on three vertices more that lie on a line: the third corner is the `last` of them.
fn with_flats(mesh: &torus::Mesh, flats: &[(usize, u32)]) -> torus::Mesh {
    let (mut vertices, mut faces, more) = (mesh.vertices.clone(), mesh.faces.clone(), mesh.vertices.len() as u32);
    vertices.extend([0.0, 1.0, 2.0].map(|x| [x, 0.0, 0.0]));
    flats.iter().for_each(|&(at, last)| faces[at] = [more, more + 1, more + last]);
    torus::Mesh { vertices, faces }
}

/// One face with a word, a number, a point or a start too few in each mode, and with all that it needs at its limits.
fn at_limits() -> impl Iterator<Item = Input> {
    let most = 1048576.0;
    let vertices = [most, -most, 0.0, -most, most, -0.0, most, most, most];
    (0..4).flat_map(move |mode| {
        let whole = Input { eye: [-most; 3], ..of_mesh(&vertices, &[0, 1, 2], &[], mode) };
        let mut short = [(); 5].map(|()| whole.clone());
        short[0].lent.scratch.pop();
        short[1].lent.numbers.pop();
        short[2].lent.points.pop();
        short[3].lent.starts.pop();
        short
    })
}

/// The first vertex that has the coordinates of each: the original's points have no numbers, so vertices are told apart
/// by their coordinates alone.
fn named(vertices: &[f64]) -> HashMap<[u64; 3], u32> {
    let mut names = HashMap::new();
    for (i, p) in vertices.chunks_exact(3).enumerate() {
        names.entry([bits(p[0]), bits(p[1]), bits(p[2])]).or_insert(i as u32);
    }
    names
}

/// An answer with each vertex number that was written by the first vertex with its coordinates.
pub fn renamed(input: &Input, mut left: Left<u32>) -> Left<u32> {
    let names = named(&input.vertices);
    let written = left.counts.first().copied().unwrap_or(0);
    for v in &mut left.lent.points[..written] {
        let p = &input.vertices[*v as usize * 3..][..3];
        *v = names[&[bits(p[0]), bits(p[1]), bits(p[2])]];
    }
    left
}

/// What the rules and the original say that the call leaves, with vertices named as by [`renamed`].
pub fn judged(input: &Input) -> Left<u32> {
    let Input { vertices, indices, flips, lent, .. } = input;
    let view = View { mode: input.mode, cos_theta: input.cos_theta, eye: input.eye, tolerance: input.tolerance };
    let lengths = [lent.scratch.len(), lent.numbers.len(), lent.points.len(), lent.starts.len()];
    let needs_normals = reading::meant(input.mode) >= 2;
    match reading::draw(vertices, indices, flips, &view, lengths) {
        0 => match flats(input).next().filter(|_| needs_normals) {
            Some((face, status)) => {
                assert!(dies(input), "the original draws {input:?}");
                lent.refused_for(status, face)
            }
            None => lent.accepted(&drawn(input), 1, &[]),
        },
        status => lent.refused(status),
    }
}

/// The faces of a good mesh whose normal has computed length 0, from the lowest on, each with what it is refused for.
pub fn flats(input: &Input) -> impl Iterator<Item = (u32, u32)> {
    use original::eps_1e9::vector::Vector;
    let corner = |at: usize| mesh::corner(&input.vertices, &input.indices, at).expect("a good mesh");
    let is_flat = |corners: [[f64; 3]; 3]| {
        let [a, b, c] = corners.map(|[x, y, z]| Vector::new(x, y, z));
        b.sub(a).cross(c.sub(a)).length() == 0.0
    };
    (0..input.indices.len() / 3).filter_map(move |face| {
        let corners = [0, 1, 2].map(|k| corner(3 * face + k));
        is_flat(corners).then(|| (face as u32, reading::flat(corners)))
    })
}

/// Whether the original's drawing ends where a vector without length is to be normalised. (An accepted one does not end: it is drawn.)
fn dies(input: &Input) -> bool {
    let said = panics::said(|| drawn(input));
    said.as_deref() == Some("Cannot normalize a zero-length vector")
}

/// The original's drawing, by the build that has this tolerance.
fn drawn(input: &Input) -> Vec<Vec<u32>> {
    let names = named(&input.vertices);
    macro_rules! drawn {
        ($original:ident) => {{
            use original::$original::{matrix::Matrix, mesh::Mesh, mesh::MeshTexture, shape::*, vector::Vector};
            let vector = |p: &[f64]| Vector::new(p[0], p[1], p[2]);
            let texture = match reading::meant(input.mode) {
                1 => MeshTexture::Triangles,
                2 => MeshTexture::Polygonal,
                _ => MeshTexture::Silhouette(input.cos_theta),
            };
            let vertices = input.vertices.chunks_exact(3).map(vector).collect();
            let indices = input.indices.iter().map(|&v| v as usize).collect();
            let flips = input.flips.chunks_exact(2).map(|p| (p[0] as usize, p[1] as usize)).collect();
            let mesh = Mesh::builder(vertices, indices).flipped_triangles(flips).texture(texture).build();
            let args = RenderArgs {
                screen_mat: Matrix::identity(),
                eye: vector(&input.eye),
                up: Vector::default(),
                width: 0.0,
                height: 0.0,
                step: 0.0,
            };
            let name = |v: &Vector| names[&[bits(v.x), bits(v.y), bits(v.z)]];
            mesh.paths(&args).iter_paths().map(|path| path.iter().map(name).collect()).collect()
        }};
    }
    match super::adaptive::TOLERANCES.iter().position(|&t| t == input.tolerance) {
        Some(1) => drawn!(eps_1e6),
        Some(2) => drawn!(eps_quarter),
        _ => drawn!(eps_1e9),
    }
}

/// The edges that the rules keep, a stroke of two each, worked out apart from the original's drawings: its vectors alone are used.
fn kept(input: &Input) -> Vec<Vec<u32>> {
    let mut groups: BTreeMap<(u32, u32), Vec<usize>> = BTreeMap::new();
    for (face, f) in input.indices.chunks_exact(3).enumerate() {
        for (a, b) in [(f[0], f[1]), (f[1], f[2]), (f[2], f[0])] {
            groups.entry((a.min(b), a.max(b))).or_default().push(face);
        }
    }
    let keeps = keeper(input);
    groups.into_iter().filter(|(_, faces)| keeps(faces)).map(|((a, b), _)| vec![a, b]).collect()
}

/// Which faces around an edge have it kept.
fn keeper(input: &Input) -> impl Fn(&[usize]) -> bool {
    use original::eps_1e9::vector::Vector;
    let at = |v: u32| {
        let p = &input.vertices[v as usize * 3..][..3];
        Vector::new(p[0], p[1], p[2])
    };
    let normal = |f: &[u32]| at(f[1]).sub(at(f[0])).cross(at(f[2]).sub(at(f[0]))).normalize().normalize();
    let eye = Vector::new(input.eye[0], input.eye[1], input.eye[2]);
    let seen = |f: &[u32]| (normal(f), normal(f).dot(eye.sub(at(f[0]))));
    let needs = reading::meant(input.mode) >= 2;
    let faces: Vec<(Vector, f64)> = input.indices.chunks_exact(3).filter(|_| needs).map(seen).collect();
    let flips: HashSet<(usize, usize)> =
        input.flips.chunks_exact(2).map(|pair| (pair[0] as usize, pair[1] as usize)).collect();
    let (mode, cos_theta, tolerance) = (reading::meant(input.mode), input.cos_theta, input.tolerance);
    move |group| match (mode, group) {
        (1, _) | (2, [_]) => true,
        (2, [first, later @ ..]) => later.iter().any(|&f| faces[*first].0.dot(faces[f].0).abs() < 1.0 - tolerance),
        (_, &[a, b]) => {
            let ((n1, dot1), (n2, dot2)) = (faces[a], faces[b]);
            let above = n1.dot(n2).abs() > cos_theta;
            let edgy = cos_theta > 0.0 && !above;
            let flipped = flips.contains(&(a.min(b), a.max(b)));
            edgy || if flipped { dot1 * dot2 >= 0.0 } else { dot1 * dot2 <= 0.0 }
        }
        _ => true,
    }
}

/// What must hold of every accepted drawing: each kept edge is drawn exactly once, no other is, and a vertex ends one open
/// stroke if an odd number of kept edges end there, and none otherwise; so fewer open strokes there cannot be.
pub fn is_sound(input: &Input, left: &Left<u32>) -> bool {
    super::splice::joins(&kept(input), left)
}

/// Whether no two vertices have the same coordinates, so that the original's points are known by number.
pub fn all_apart(input: &Input) -> bool {
    named(&input.vertices).len() == input.vertices.len() / 3
}

/// What the port leaves, its vertices named as the judge names them. What must hold of every accepted drawing is asked of it first, and
/// the safe function must leave the same as the one for C.
fn port(input: &Input) -> Left<u32> {
    let left = by_c(input);
    assert!(left.status != 0 || is_sound(input, &left), "{input:?}");
    assert!(left == by_rust(input), "the safe function leaves something else: {input:?}");
    renamed(input, left)
}

/// What the function for C leaves, the place of a face too.
fn by_c(input: &Input) -> Left<u32> {
    let Input { vertices, indices, flips, .. } = input;
    let mut lent = input.lent.clone();
    let mut seen = super::numbers(&lent.numbers);
    let Lent { scratch, points, starts, face, .. } = &mut lent;
    let face = face.as_mut().expect("a drawing has a place for a face");
    let mut counts = [0; 2];
    let [point_count, start_count] = &mut counts;
    // SAFETY: each list is a pointer with its length, and what is written overlaps with nothing else.
    let status = unsafe {
        ramikohy::c::ramikohy_draw(
            vertices.as_ptr(),
            vertices.len(),
            indices.as_ptr(),
            indices.len(),
            flips.as_ptr(),
            flips.len(),
            input.mode,
            input.cos_theta,
            &input.eye,
            input.tolerance,
            scratch.as_mut_ptr(),
            scratch.len(),
            seen.as_mut_ptr(),
            seen.len(),
            points.as_mut_ptr(),
            points.len(),
            starts.as_mut_ptr(),
            starts.len(),
            point_count,
            start_count,
            face,
        )
    };
    lent.numbers = patterns(&seen);
    Left { status, counts: if status == 0 { counts.to_vec() } else { Vec::new() }, lent }
}

/// What the safe function leaves.
fn by_rust(input: &Input) -> Left<u32> {
    let Input { mode, cos_theta, eye, tolerance, .. } = *input;
    let sight = ramikohy::Sight { mode, cos_theta, eye, tolerance };
    let mut lent = input.lent.clone();
    let mut seen = super::numbers(&lent.numbers);
    let Lent { scratch, points, starts, .. } = &mut lent;
    let Input { vertices, indices, flips, .. } = input;
    let answer = ramikohy::lent::draw(vertices, indices, flips, &sight, scratch, &mut seen, points, starts);
    lent.numbers = patterns(&seen);
    super::left(answer.map(|wrote| [wrote.points, wrote.starts]), lent)
}

/// Runs the port beside the original.
pub fn run(count: u64, seed: u64) -> Seen {
    let always = all_small().chain(all_flat()).chain(at_limits()).chain(large());
    super::run(always, make, judged, port, (count, seed))
}
