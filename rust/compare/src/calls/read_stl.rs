//! `read_stl`: the welded mesh of a binary STL file. The original has no files: the rules, read plainly, say which
//! bytes are one and what its corners are. The original welds them.

use super::weld;
use super::write_stl::{SINGLES, any_single, bytes_of, patterns_of};
use super::{Left, Lent, any_pattern, dirty, patterns, room};
use crate::crowded;
use crate::random::Random;
use crate::reading;
use crate::runs::Seen;
use crate::torus;
use ramikohy::Mesh;

#[derive(Clone, Debug)]
pub struct Input {
    pub bytes: Vec<u8>,
    /// Room for vertices, as the bits of their coordinates, and for indices.
    pub lent: Lent<u64>,
}

/// A random file with up to three damages, now and then one of text, and room for what it was before: exactly, more, or
/// now and then too little.
pub fn make(random: &mut Random) -> Input {
    let mut bytes = good(random);
    let faces = (bytes.len() - 84) / 50;
    for _ in 0..random.one_of(&[0, 0, 0, 1, 1, 2, 3]) {
        damage(random, &mut bytes);
    }
    if random.once_in(64) {
        bytes = text(faces);
    }
    let lengths = [12, 9, 3].map(|n| room(random, n * faces));
    Input { bytes, lent: dirty(random, lengths, any_pattern) }
}

/// A random file. What is not looked at holds any bytes, or all the same, so that normals are NaN; the header may begin
/// as a text does.
fn good(random: &mut Random) -> Vec<u8> {
    let mut bytes = bytes_of(&corners(random));
    let fill = random.one_of(&[None, None, Some(0), Some(0x7F), Some(0xFF)]);
    for (_, byte) in bytes.iter_mut().enumerate().filter(|(k, _)| is_ignored(*k)) {
        *byte = fill.unwrap_or(random.bits() as u8);
    }
    if random.once_in(3) {
        bytes[..6].copy_from_slice(b"solid ");
    }
    bytes
}

/// Whether the byte at a place is of the header, of a normal, or of the two after a face.
fn is_ignored(place: usize) -> bool {
    place < 80 || place >= 84 && !(12..48).contains(&((place - 84) % 50))
}

/// The corners of few faces, to be made f32: mostly in one place, else anywhere, a few f32 about the limit of a weld,
/// or in cells that share a bucket; and now and then a coordinate of note.
fn corners(random: &mut Random) -> Vec<f64> {
    let faces = if random.once_in(50) { random.below(40) } else { random.below(5) };
    let mut corners = vec![0.0; 9 * faces];
    match random.below(8) {
        0 => corners.iter_mut().for_each(|x| *x = any_single(random) as f64),
        1 => corners.iter_mut().for_each(|x| *x = brink(random) as f64),
        2 => crowd(random, &mut corners),
        _ => gather(random, &mut corners),
    }
    if random.once_in(4) && faces > 0 {
        let at = random.below(corners.len());
        corners[at] = random.one_of(&SINGLES) as f64;
    }
    corners
}

/// An f32 whose difference from others like it is the limit of a weld, along an axis or across, or a few f32 from it;
/// or about the least.
fn brink(random: &mut Random) -> f32 {
    let least = f32::from_bits(1);
    let about = random.one_of(&[0.0, 1e-6, 1e-6, 5e-7, 7.071068e-7, 5.773503e-7, f32::MIN_POSITIVE, least]);
    let off = random.below(7) as i32 - 3;
    let x = f32::from_bits((about.to_bits() as i32 + off).max(0) as u32);
    random.one_of(&[x, -x])
}

/// Puts the corners around a few places whose cells share a bucket, with long ways to some of them.
fn crowd(random: &mut Random, corners: &mut [f64]) {
    let low = random.one_of(&[0, 3, 12]);
    let mut place = || crowded::singles_in_first_bucket(random, low);
    let places = [(); 5].map(|_| place());
    let part = random.one_of(&[0.0, 1e-6, 2e-6]);
    for corner in corners.chunks_exact_mut(3) {
        let place = random.one_of(&places);
        corner.copy_from_slice(&place.map(|x| x + (random.below(3) as f64 - 1.0) * part));
    }
}

/// Puts the corners some parts of the cell's width apart, around a place where f32 lie as dense or nearly.
fn gather(random: &mut Random, corners: &mut [f64]) {
    let part = random.one_of(&[1e-7, 2.5e-7, 3e-7, 5e-7, 1e-6]);
    let about = random.one_of(&[0.0, 0.0, 0.001, -0.03125, 1.0, -1.0, 7.5, -15.75]);
    let spread = 1 + random.below(9);
    corners.iter_mut().for_each(|x| *x = about + (random.below(spread) as f64 - (spread / 2) as f64) * part);
}

/// So many faces as a file of text, which is no binary one: where the count would be there are letters.
fn text(faces: usize) -> Vec<u8> {
    let corners = "vertex 0 0 0\nvertex 1 0 0\nvertex 0 1 0\n";
    let face = format!("facet normal 0 0 1\nouter loop\n{corners}endloop\nendfacet\n");
    format!("solid casting\n{}endsolid casting\n", face.repeat(faces)).into_bytes()
}

/// Patterns that a coordinate may be set to: zeros, ends of the subnormals, the bound and its neighbours, a weld's
/// limit and its neighbours, infinities, NaN.
const NOTABLE: [u32; 28] = [
    0x00000000, 0x80000000, 0x00000001, 0x80000001, 0x00400000, 0x007FFFFF, 0x807FFFFF, 0x00800000, 0x3F800000,
    0xBF800000, 0x358637BC, 0x358637BD, 0x358637BE, 0xB58637BD, 0x497FFFFF, 0x49800000, 0x49800001, 0xC9800000,
    0xC9800001, 0x7F7FFFFF, 0xFF7FFFFF, 0x7F800000, 0xFF800000, 0x7F800001, 0x7FC00000, 0x7FFFFFFF, 0xFF800001,
    0xFFFFFFFF,
];

/// The word from a place on; what is missing of it is 0.
fn word(bytes: &[u8], from: usize) -> u32 {
    bytes.iter().skip(from).take(4).rev().fold(0, |word, &byte| word << 8 | byte as u32)
}

/// Another word there, or as much of it as there is room for.
fn set(bytes: &mut [u8], from: usize, to: u32) {
    bytes.iter_mut().skip(from).zip(to.to_le_bytes()).for_each(|(place, byte)| *place = byte);
}

/// Counts that a file may be said to have: small ones, limits, the one that it has and the one that its length is right
/// for with their neighbours, and those that its length is right for where 84 and 50 times the count wrap in 32 bits.
fn counts(bytes: &[u8]) -> Vec<u32> {
    const SHARE: u32 = 3_264_175_145; // 25 times it is 1, wrapped
    let past = (bytes.len() as u32).wrapping_sub(84);
    let wrapped = (past / 2).wrapping_mul(SHARE);
    let mut counts = vec![0, 1, 2, 65_536, 65_537, 85_899_346, wrapped, wrapped ^ 1 << 31, 1 << 31, u32::MAX];
    for near in [word(bytes, 80), past / 50] {
        counts.extend([near.wrapping_sub(1), near, near.wrapping_add(1)]);
    }
    counts
}

/// One damage: another count, bytes cut off or added, a face more or less than the count, any bit, or a coordinate of
/// note.
fn damage(random: &mut Random, bytes: &mut Vec<u8>) {
    match random.below(10) {
        0 | 1 => {
            let counts = counts(bytes);
            set(bytes, 80, random.one_of(&counts));
        }
        2 => bytes.truncate(random.below(1 + bytes.len())),
        3 => bytes.extend((0..1 + random.below(8)).map(|_| random.bits() as u8)),
        4 => bytes.resize((bytes.len() + 50).saturating_sub(random.one_of(&[0, 100])), 0),
        5 | 6 if !bytes.is_empty() => {
            let at = random.below(bytes.len());
            bytes[at] ^= 1 << random.below(8);
        }
        _ => {
            let face = random.below((bytes.len().saturating_sub(84) / 50).max(1));
            set(bytes, coordinate(face, random.below(9)), random.one_of(&NOTABLE));
        }
    }
}

/// Where a coordinate of a face stands, one of nine.
fn coordinate(face: usize, k: usize) -> usize {
    84 + 50 * face + 12 + 4 * k
}

/// Bytes with room for so many faces, but for some elements less of each list, and something in it.
fn with_room(bytes: Vec<u8>, faces: usize, less: [usize; 3]) -> Input {
    let [words, numbers, indices] = [12, 9, 3].map(|n| n * faces);
    let lent = Lent {
        scratch: vec![7; words - less[0]],
        points: vec![5; numbers - less[1]],
        starts: vec![9; indices - less[2]],
        ..Lent::default()
    };
    Input { bytes, lent }
}

/// Files of no face, of one and of two, with any bytes where none is looked at; the first vertex is met again as the
/// other zero.
fn few() -> Vec<Vec<u8>> {
    let corners = [0.0, 0.0, 0.0, 1.0, 0.0, 0.0, -0.0, 0.0, 0.0, 1.0, 5e-7, 0.0, -0.0, 1e-45, 0.0, 0.5, 0.5, 0.5];
    let mut random = Random::new(8);
    let mut filled = |mut bytes: Vec<u8>| {
        bytes.iter_mut().enumerate().filter(|(k, _)| is_ignored(*k)).for_each(|(_, b)| *b = random.bits() as u8);
        bytes
    };
    (0..3).map(|faces| filled(bytes_of(&corners[..9 * faces]))).collect()
}

/// Each of these files cut off at every byte, with bytes added, with every count of note, with each byte of its count
/// at every value of note, with every bit turned, and with every coordinate at every pattern of note.
fn all_small() -> impl Iterator<Item = Input> {
    few().into_iter().flat_map(|bytes| {
        let changed = |change: &dyn Fn(&mut Vec<u8>)| {
            let mut other = bytes.clone();
            change(&mut other);
            other
        };
        let mut all: Vec<Vec<u8>> = (0..=bytes.len()).map(|n| bytes[..n].to_vec()).collect();
        all.extend((1..60).map(|n| changed(&|b| b.resize(bytes.len() + n, 0))));
        all.extend(counts(&bytes).into_iter().map(|to| changed(&|b| set(b, 80, to))));
        let values = [0, 1, 2, 3, 0x7F, 0x80, 0xFE, 0xFF];
        all.extend((80..84).flat_map(|k| values.map(|to| changed(&|b| b[k] = to))));
        all.extend((0..8 * bytes.len()).map(|bit| changed(&|b| b[bit / 8] ^= 1 << (bit % 8))));
        let places = (0..(bytes.len() - 84) / 50).flat_map(|face| (0..9).map(move |k| coordinate(face, k)));
        all.extend(places.flat_map(|at| NOTABLE.map(|to| changed(&|b| set(b, at, to)))));
        all.into_iter().map(|bytes| with_room(bytes, 2, [0; 3]))
    })
}

/// Zeros of every length up to 140, with counts of 0, 1 and 2; and every part of a text.
fn all_lengths() -> impl Iterator<Item = Input> {
    let zeros = (0..=140).flat_map(|n| [0, 1, 2].map(|count| (vec![0; n], count))).map(|(mut bytes, count)| {
        set(&mut bytes, 80, count);
        bytes
    });
    let text = text(2);
    let parts: Vec<Vec<u8>> = (0..=text.len()).map(|n| text[..n].to_vec()).collect();
    zeros.chain(parts).map(|bytes| with_room(bytes, 2, [0; 3]))
}

/// One face with every coordinate in turn at every pattern of note, and less scratch, less room, both or none less.
fn all_short() -> impl Iterator<Item = Input> {
    let less = [[0, 0, 0], [1, 0, 0], [0, 1, 0], [0, 0, 1], [1, 1, 0], [12, 9, 3]];
    (0..9).flat_map(|k| NOTABLE.map(|to| (k, to))).flat_map(move |(k, to)| {
        let mut bytes = bytes_of(&[0.25; 9]);
        set(&mut bytes, coordinate(0, k), to);
        less.map(|less| with_room(bytes.clone(), 1, less))
    })
}

/// The torus of the benchmarks, with the most faces that a call takes: exact room, one element less of each list, and
/// NaN at its end with no room at all; one face more, of zeros with room and of NaN with none; and files made for the
/// table of a weld.
fn large() -> impl Iterator<Item = Input> {
    let torus = bytes_of(torus::wavy(256, 128).corners().as_flattened());
    let mut nan = torus.clone();
    set(&mut nan, coordinate(65_535, 8), 0x7FC0_0000);
    let over = [vec![0; 84 + 50 * 65_537], vec![0xFF; 84 + 50 * 65_537]].map(|mut bytes| {
        set(&mut bytes, 80, 65_537);
        bytes
    });
    let less = [[0, 0, 0], [1, 0, 0], [0, 1, 0], [0, 0, 1]];
    let crowded = [crowded::singles_in_one_bucket(6144, 0), crowded::singles_in_one_bucket(6144, 12)];
    let crowded = crowded.map(|corners| with_room(bytes_of(corners.as_flattened()), 2048, [0; 3]));
    let [zeros, nans] = over;
    let refused = [with_room(nan, 0, [0; 3]), with_room(zeros, 65_537, [0; 3]), with_room(nans, 0, [0; 3])];
    less.into_iter().map(move |less| with_room(torus.clone(), 65_536, less)).chain(refused).chain(crowded)
}

/// What the rules and the original say that the call leaves: bytes that are no file come before all else, and then it
/// is a weld.
pub fn judged(input: &Input) -> Left<u64> {
    let lent = input.lent.clone();
    let status = reading::read_stl(&input.bytes, lent.scratch.len(), lent.points.len(), lent.starts.len());
    match reading::stl(&input.bytes) {
        Some(corners) if status == 0 => weld::judged(&weld::Input { corners, lent }),
        _ => lent.refused(status),
    }
}

/// What the port leaves. The safe function must read the same, and what it reads is written and read again.
fn port(input: &Input) -> Left<u64> {
    let (mut room, mut lent) = (super::numbers(&input.lent.points), input.lent.clone());
    let answer = ramikohy::lent::read_stl(&input.bytes, &mut lent.scratch, &mut room, &mut lent.starts);
    lent.points = patterns(&room);
    let left = super::left(answer.map(|wrote| [wrote.vertices, wrote.indices]), lent);
    let held = match (ramikohy::read_stl(&input.bytes), left.status) {
        (Ok(mesh), 0) => is_left(&mesh, &left) && reads_again(&mesh),
        (Ok(mesh), 5 | 6) => reads_again(&mesh),
        (safe, status) => safe.is_err_and(|why| why.number() == status),
    };
    assert!(held, "the safe function reads something else, or not what it wrote: {input:?}");
    left
}

/// Whether a call left this mesh.
fn is_left(mesh: &Mesh, left: &Left<u64>) -> bool {
    let (vertices, indices) = (&left.lent.points[..3 * left.counts[0]], &left.lent.starts[..left.counts[1]]);
    patterns_of(mesh) == (vertices.to_vec(), indices)
}

/// Whether a mesh that was read can be written, and read again is the same, to the last bit.
fn reads_again(mesh: &Mesh) -> bool {
    let again = ramikohy::write_stl(mesh).and_then(|bytes| ramikohy::read_stl(&bytes));
    again.is_ok_and(|again| patterns_of(&again) == patterns_of(mesh))
}

/// Runs the port beside the rules and the original.
pub fn run(count: u64, seed: u64) -> Seen {
    let always = all_small().chain(all_lengths()).chain(all_short()).chain(large());
    super::run(always, make, judged, port, (count, seed))
}
