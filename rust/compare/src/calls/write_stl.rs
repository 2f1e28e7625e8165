//! `write_stl`: a mesh as a binary STL file. The original has no files: the rules, read plainly, are the judge.

use super::write_sheet::lent;
use super::{Left, Lent, patterns, room};
use crate::random::Random;
use crate::reading;
use crate::runs::Seen;
use crate::torus;
use ramikohy::{Mesh, Refusal};

#[derive(Clone, Debug)]
pub struct Input {
    pub vertices: Vec<f64>,
    pub indices: Vec<u32>,
    /// Room for the bytes.
    pub lent: Lent<u8>,
}

/// 2 to this power, which is no subnormal's.
const fn power(k: i32) -> f64 {
    f64::from_bits(((1023 + k) as u64) << 52)
}

/// f32 of note: zeros, ends of the subnormals, the bound of coordinates and what lies below it.
pub const SINGLES: [f32; 10] = [
    0.0,
    -0.0,
    f32::from_bits(1),
    -f32::from_bits(1),
    f32::from_bits(0x007F_FFFF),
    f32::MIN_POSITIVE,
    1048576.0,
    -1048576.0,
    1048575.9,
    1e-6,
];

/// Numbers within the bound that are no f32: too many digits, or too small.
const FINER: [f64; 10] = [
    0.1,
    1.0 + power(-24),
    power(-150),
    -power(-150),
    1.5 * power(-149),
    power(-126) + power(-150),
    f64::MIN_POSITIVE,
    5e-324,
    1048575.99,
    1.0 + f64::EPSILON,
];

/// Numbers past the bound; some of them are f32.
const PAST: [f64; 8] = [
    1048576.0000000002,
    1048576.125,
    -1048576.125,
    f64::NAN,
    f64::INFINITY,
    f64::NEG_INFINITY,
    f32::MAX as f64,
    f64::MAX,
];

/// Any f32 within the bound, subnormal ones and both zeros too.
pub fn any_single(random: &mut Random) -> f32 {
    let x = f32::from_bits(random.below(0x4980_0001) as u32);
    random.one_of(&[x, -x])
}

/// A coordinate that is an f32: one of note, any, parts of a cell, or parts of 1, so that corners coincide.
fn coordinate(random: &mut Random) -> f64 {
    let single = match random.below(6) {
        0 => random.one_of(&SINGLES),
        1 => any_single(random),
        2 => random.below(9) as f32 * 2.5e-7 - 1e-6,
        _ => random.below(5) as f32 * 0.25 - 0.5,
    };
    single as f64
}

/// A number that is no f32 or past the bound: one of note, or an f32 with one digit more.
fn at_fault(random: &mut Random) -> f64 {
    match random.below(3) {
        0 => random.one_of(&PAST),
        1 => random.one_of(&FINER),
        _ => f64::from_bits((any_single(random) as f64).to_bits() | 1 << random.below(29)),
    }
}

/// A random input: few vertices, some of which no face names; now and then a coordinate, a vertex number or a list at
/// fault.
pub fn make(random: &mut Random) -> Input {
    let count = random.below(7);
    let mut vertices: Vec<f64> = (0..3 * count).map(|_| coordinate(random)).collect();
    let faces = if count == 0 && !random.once_in(8) { 0 } else { random.below(6) };
    let named = if random.once_in(3) { count.div_ceil(2) } else { count };
    let mut indices: Vec<u32> = (0..3 * faces).map(|_| random.below(named.max(1)) as u32).collect();
    damage(random, &mut vertices, &mut indices);
    let length = 84 + 50 * (indices.len() / 3);
    let bytes = (0..room(random, length)).map(|_| random.bits() as u8).collect();
    Input { vertices, indices, lent: lent(bytes) }
}

/// Each damage that there may be.
fn damage(random: &mut Random, vertices: &mut Vec<f64>, indices: &mut Vec<u32>) {
    let count = (vertices.len() / 3) as u32;
    if random.once_in(3) && !vertices.is_empty() {
        let at = random.below(vertices.len());
        vertices[at] = at_fault(random);
    }
    if random.once_in(24) && !indices.is_empty() {
        let at = random.below(indices.len());
        indices[at] = random.one_of(&[count, count + 1, u32::MAX]);
    }
    if random.once_in(24) {
        vertices.pop();
    }
    if random.once_in(24) {
        indices.pop();
    }
}

/// Powers of two from below the least f32 to past the bound, with their neighbours among f64 and among f32 and what
/// lies between two; numbers with one digit more at each place; and those of note. Each with both signs.
fn notable() -> Vec<f64> {
    let beside = |x: f64| [(x as f32).next_up(), (x as f32).next_down()].map(f64::from);
    let powers = (-160..22).map(power).flat_map(|x| [x, x.next_up(), x.next_down(), 1.5 * x]);
    let singles = (-160..22).map(power).flat_map(beside);
    let longer = |k: i32| (1..53).map(move |digit| power(k) + power(k - digit));
    let digits = [19, 0, -126, -127, -140, -149].into_iter().flat_map(longer);
    let all = powers.chain(singles).chain(digits).chain(SINGLES.map(f64::from)).chain(FINER).chain(PAST);
    all.flat_map(|x| [x, -x]).collect()
}

/// Each of these numbers as a coordinate of a vertex that a face names, and of one that none does.
fn all_notable() -> impl Iterator<Item = Input> {
    notable().into_iter().enumerate().flat_map(|(k, x)| {
        [0, 1, 2, 3].map(|vertex| {
            let mut vertices = vec![0.0, 0.0, 0.0, 1.0, 0.0, 0.0, 0.0, 1.0, 0.0, 0.5, 0.5, 0.5];
            vertices[3 * vertex + k % 3] = x;
            Input { vertices, indices: vec![2, 0, 1], lent: lent(vec![5; 134 + k % 2]) }
        })
    })
}

/// So many faces on so many vertices, with this much more or less room than their file needs.
fn sized(faces: usize, count: usize, more: isize) -> Input {
    let vertices = (0..3 * count).map(|k| (k % 65_536) as f64).collect();
    let indices = (0..3 * faces).map(|k| (k % count.max(1)) as u32).collect();
    Input { vertices, indices, lent: lent(vec![5; (84 + 50 * faces).saturating_add_signed(more)]) }
}

/// Counts at the limits and one past them, and room of the exact length, one byte less and one more; and the torus of
/// the benchmarks, whose vertices are no f32.
fn at_limits() -> impl Iterator<Item = Input> {
    let sizes = [
        (0, 0),
        (1, 0),
        (1, 3),
        (65_536, 1),
        (65_537, 1),
        (65_536, 196_608),
        (65_536, 196_609),
        (65_537, 196_609),
        (0, 196_608),
        (0, 196_609),
    ];
    let torus = torus::wavy(256, 128);
    let bytes = vec![5; 84 + 50 * torus.faces.len()];
    let torus = Input { vertices: torus.vertices.concat(), indices: torus.faces.concat(), lent: lent(bytes) };
    sizes.into_iter().flat_map(|(faces, count)| [-1, 0, 1].map(|more| sized(faces, count, more))).chain([torus])
}

/// The corners that the faces of a good mesh name, nine numbers a face.
fn gathered(vertices: &[f64], indices: &[u32]) -> Vec<f64> {
    indices.iter().flat_map(|&v| &vertices[3 * v as usize..][..3]).copied().collect()
}

/// The file of these corners, nine numbers a face, each as the nearest f32; all else is 0.
pub fn bytes_of(corners: &[f64]) -> Vec<u8> {
    let faces = corners.len() / 9;
    let mut bytes = vec![0; 80];
    bytes.extend((faces as u32).to_le_bytes());
    for face in corners.chunks_exact(9) {
        bytes.extend([0; 12]);
        bytes.extend(face.iter().flat_map(|&x| (x as f32).to_le_bytes()));
        bytes.extend([0; 2]);
    }
    bytes
}

/// What the rules say that the call leaves.
pub fn judged(input: &Input) -> Left<u8> {
    let Input { vertices, indices, lent } = input;
    let status = reading::write_stl(vertices, indices, lent.points.len());
    if status != 0 {
        return lent.refused(status);
    }
    let bytes = bytes_of(&gathered(vertices, indices));
    let mut left = Left { status: 0, counts: vec![bytes.len()], lent: lent.clone() };
    left.lent.points[..bytes.len()].copy_from_slice(&bytes);
    left
}

/// What the port leaves. What it wrote is read by the port first, and must be the weld of the corners.
fn port(input: &Input) -> Left<u8> {
    let Input { vertices, indices, .. } = input;
    let mut lent = input.lent.clone();
    let answer = ramikohy::lent::write_stl(vertices, indices, &mut lent.points);
    if let Ok(count) = answer {
        assert!(reads_back(&lent.points[..count], &gathered(vertices, indices)), "{input:?}");
    }
    let wrote = answer.map(|count| &lent.points[..count]);
    assert!(is_safe(input, wrote), "the safe function answers otherwise: {input:?}");
    super::left(answer.map(|count| [count]), lent)
}

/// A mesh to the last bit: its vertices and its indices.
pub fn patterns_of(mesh: &Mesh) -> (Vec<u64>, &[u32]) {
    (patterns(mesh.vertices.as_flattened()), mesh.faces.as_flattened())
}

/// Whether the file reads as the weld of these corners, to the last bit.
fn reads_back(bytes: &[u8], corners: &[f64]) -> bool {
    let (faces, _) = corners.as_chunks::<3>().0.as_chunks::<3>();
    match (ramikohy::read_stl(bytes), ramikohy::weld(faces)) {
        (Ok(read), Ok(welded)) => patterns_of(&read) == patterns_of(&welded),
        _ => false,
    }
}

/// Whether the safe function, which brings its own room, answers as the call did. It takes no list of another length.
fn is_safe(input: &Input, answer: Result<&[u8], Refusal>) -> bool {
    let ((vertices, []), (faces, [])) = (input.vertices.as_chunks(), input.indices.as_chunks()) else { return true };
    let safe = ramikohy::write_stl(&Mesh { vertices: vertices.to_vec(), faces: faces.to_vec() });
    match answer {
        Err(Refusal::Room) => safe.is_ok(),
        _ => safe.as_deref().map_err(|&why| why) == answer,
    }
}

/// Runs the port beside the rules.
pub fn run(count: u64, seed: u64) -> Seen {
    super::run(all_notable().chain(at_limits()), make, judged, port, (count, seed))
}
