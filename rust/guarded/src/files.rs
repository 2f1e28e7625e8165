//! The calls on binary STL files. What is read is a weld of the file's corners, and what is written is read back so.

use crate::buffer::{Buffer, Slice, reals, words};
use crate::call::{Call, Left, handed, status};
use crate::sheets;
use crate::source::Source;
use ramikohy::calls::weld::Welded;
use ramikohy::{Refusal, lent};

/// The bytes before the count, before the faces, and of a face; its corners lie between these two places.
const HEADER: usize = 80;
const HEAD: usize = 84;
const FACE: usize = 50;
const CORNERS: std::ops::Range<usize> = 12..48;

/// A mesh by the bits of its vertices and by its indices.
#[derive(PartialEq)]
struct Bits {
    vertices: Vec<u64>,
    indices: Vec<u32>,
}

/// A file's mesh: of a good file with a few damages, or of any bytes.
pub fn read_stl(s: &mut Source) -> Call {
    let mut bytes = if s.once_in(32) { (0..s.below(256)).map(|_| s.byte()).collect() } else { file(s) };
    for _ in 0..s.below(4) {
        damage(s, &mut bytes);
    }
    read_stl_of(&bytes, s.below(3))
}

/// A good file of few faces, now and then with a header like that of a text.
fn file(s: &mut Source) -> Vec<u8> {
    let (faces, unread) = (s.some(9), s.byte());
    let mut bytes = bytes_of(&s.singles(3 * faces), unread);
    if s.once_in(4) {
        bytes[..6].copy_from_slice(b"solid ");
    }
    bytes
}

/// The bytes of a file of these corners, nine numbers a face. Those that nobody reads are all `unread`.
pub fn bytes_of(corners: &[f32], unread: u8) -> Vec<u8> {
    let faces = corners.len() / 9;
    let mut bytes = vec![unread; HEAD + FACE * faces];
    bytes[HEADER..HEAD].copy_from_slice(&(faces as u32).to_le_bytes());
    for (face, of) in bytes[HEAD..].chunks_exact_mut(FACE).zip(corners.chunks_exact(9)) {
        let patterns: Vec<u8> = of.iter().flat_map(|x| x.to_bits().to_le_bytes()).collect();
        face[CORNERS].copy_from_slice(&patterns);
    }
    bytes
}

/// Another count, a coordinate at another value, or what befalls a sheet.
fn damage(s: &mut Source, bytes: &mut Vec<u8>) {
    match s.below(4) {
        0 if bytes.len() >= HEAD => recount(s, bytes),
        1 | 2 if bytes.len() >= HEAD + FACE => {
            let face = s.below((bytes.len() - HEAD) / FACE);
            let at = HEAD + FACE * face + CORNERS.start + 4 * s.below(9);
            bytes[at..at + 4].copy_from_slice(&s.pattern().to_le_bytes());
        }
        _ => sheets::damage(s, bytes),
    }
}

/// The count one more or one fewer, any, or one that gives this file's length where that is worked out in 32 bits: 50
/// times `wraps` is there what follows the head.
fn recount(s: &mut Source, bytes: &mut [u8]) {
    let count = words(&bytes[HEADER..HEAD])[0];
    let wraps = ((bytes.len() - HEAD) as u32 / 2).wrapping_mul(0x428F_5C29);
    let other = match s.below(5) {
        0 => count.wrapping_add(1),
        1 => count.wrapping_sub(1),
        2 => wraps,
        3 => wraps ^ 1 << 31,
        _ => s.word(),
    };
    bytes[HEADER..HEAD].copy_from_slice(&other.to_le_bytes());
}

/// The same of given bytes, with this much more room than is needed.
pub fn read_stl_of(bytes: &[u8], more: usize) -> Call {
    let faces = bytes.len().saturating_sub(HEAD) / FACE;
    let mut buffers = vec![Buffer::input(bytes), Buffer::scratch::<u32>(12 * faces, more)];
    buffers.extend([Buffer::room::<f64>(0, 3, 9 * faces, more), Buffer::room::<u32>(1, 1, 3 * faces, more)]);
    buffers.extend([(); 2].map(|()| Buffer::place::<usize>()));
    let work = |b: &[Slice]| status(handed!(ramikohy_read_stl, b, [0][1][2][3](4)(5)));
    Call::new("ramikohy_read_stl", &[2, 4, 5, 6, 11], buffers, work).sound(is_mesh)
}

/// A mesh as a file: of vertices that are f32, now and then but for one.
pub fn write_stl(s: &mut Source) -> Call {
    let count = 1 + s.some(8);
    let mut vertices: Vec<f64> = s.singles(count).into_iter().map(f64::from).collect();
    if s.once_in(8) {
        let at = s.below(vertices.len());
        vertices[at] = no_single(s, vertices[at]);
    }
    if s.once_in(64) {
        vertices.pop();
    }
    let indices = s.faces(count);
    write_stl_of(&vertices, &indices, s.below(3))
}

/// A number that is mostly no f32: next to one, of one digit too many, below the least, or any.
fn no_single(s: &mut Source, x: f64) -> f64 {
    let (digit, half) = (1.0 + 2f64.powi(-24), 2f64.powi(-150));
    let any = s.real();
    s.one_of(&[x.next_up(), x * digit, half, x + half, 3.0 * half, 0.1, digit, any])
}

/// The same of a given mesh, with this much more room than is needed.
pub fn write_stl_of(vertices: &[f64], indices: &[u32], more: usize) -> Call {
    let mut buffers = vec![Buffer::input(vertices), Buffer::input(indices)];
    let need = HEAD + FACE * (indices.len() / 3);
    buffers.extend([Buffer::room::<u8>(0, 1, need, more), Buffer::place::<usize>()]);
    let work = |b: &[Slice]| status(handed!(ramikohy_write_stl, b, [0][1][2](3)));
    Call::new("ramikohy_write_stl", &[1, 2, 3, 4, 6], buffers, work).sound(is_file)
}

/// What is read is a weld of the corners; and it can be written, and is then read as the same mesh.
fn is_mesh(call: &Call, left: &Left) {
    let (corners, vertices) = (corners_in(&left.bytes[0]), reals(&left.bytes[2][..24 * left.count(call, 0)]));
    let read = Bits { vertices: bits(&vertices), indices: left.written(call, 3) };
    is_met(&corners, &read);
    assert!(read == welded(&corners), "what is read is no weld of the corners");
    let mut file = vec![1; left.bytes[0].len()];
    assert_eq!(lent::write_stl(&vertices, &read.indices, &mut file), Ok(file.len()), "what is read can be written");
    assert!(read == read_again(&file), "what is written again is read as another mesh");
}

/// Nothing but the count and the corners is written, each corner by its own bits; and a weld of them is read from it.
fn is_file(call: &Call, left: &Left) {
    let corners = gathered(&reals(&left.bytes[0]), &words(&left.bytes[1]));
    let file = &left.bytes[2][..left.count(call, 0)];
    assert_eq!(bits(&corners_in(file)), bits(&corners), "other corners");
    let patterns: Vec<f32> = corners.iter().map(|&x| x as f32).collect();
    assert!(file == bytes_of(&patterns, 0), "something else is not zero");
    assert!(read_again(file) == welded(&corners), "what is written is read as another mesh");
}

/// The coordinates of a file's corners, whatever its count says.
fn corners_in(file: &[u8]) -> Vec<f64> {
    let faces = file[HEAD..].chunks_exact(FACE);
    let pattern = |b: &[u8]| f32::from_bits(u32::from_le_bytes(b.try_into().expect("four bytes")));
    faces.flat_map(|face| face[CORNERS].chunks_exact(4)).map(|b| f64::from(pattern(b))).collect()
}

/// The coordinates of the corners that faces name.
pub fn gathered(vertices: &[f64], indices: &[u32]) -> Vec<f64> {
    indices.iter().flat_map(|&v| &vertices[3 * v as usize..][..3]).copied().collect()
}

fn bits(numbers: &[f64]) -> Vec<u64> {
    numbers.iter().map(|x| x.to_bits()).collect()
}

/// There is an index for each corner, and the vertices are numbered as they are met, with the bits of the corner there.
fn is_met(corners: &[f64], mesh: &Bits) {
    assert_eq!(3 * mesh.indices.len(), corners.len(), "an index for each corner");
    let mut met = 0;
    for (corner, &index) in corners.chunks_exact(3).zip(&mesh.indices) {
        if index as usize == met {
            assert_eq!(mesh.vertices[3 * met..][..3], bits(corner), "a vertex that is another than its first corner");
            met += 1;
        }
        assert!((index as usize) < met, "an index of no vertex, or of a later one");
    }
    assert_eq!(3 * met, mesh.vertices.len(), "a vertex of no corner");
}

/// The mesh that a call leaves in the room of so many faces.
fn left_by(faces: usize, call: impl Fn(&mut [u32], &mut [f64], &mut [u32]) -> Result<Welded, Refusal>) -> Bits {
    let (mut vertices, mut indices) = (vec![0.0; 9 * faces], vec![0; 3 * faces]);
    let wrote = call(&mut vec![1; 12 * faces], &mut vertices, &mut indices).expect("an accepted call");
    Bits { vertices: bits(&vertices[..3 * wrote.vertices]), indices: indices[..wrote.indices].to_vec() }
}

fn welded(corners: &[f64]) -> Bits {
    left_by(corners.len() / 9, |scratch, vertices, indices| lent::weld(corners, scratch, vertices, indices))
}

fn read_again(file: &[u8]) -> Bits {
    left_by((file.len() - HEAD) / FACE, |scratch, vertices, indices| lent::read_stl(file, scratch, vertices, indices))
}
