//! Calls at the limits and one past them, and where recursion is deepest.

use crate::call::Call;
use crate::source::{MOST_STROKES, Strokes};
use crate::strokes::{View, chop_adaptive_of, chop_of, reader_of, simplify_of, splice_of};
use crate::{files, meshes, sheets};
use ramikohy::Sight;

/// A call, what is large about it, and the status that it must have.
pub struct Large {
    pub what: &'static str,
    pub call: Call,
    pub status: u32,
}

/// The limits of the rules.
const MOST_POINTS: usize = 1_048_576;
const MOST_TO_SIMPLIFY: usize = 4_096;
const MOST_FACES: usize = 65_536;
const MOST_VERTICES: usize = 196_608;

fn large(what: &'static str, call: Call, status: u32) -> Large {
    Large { what, call, status }
}

/// Every one of them.
pub fn all() -> Vec<Large> {
    let strokes = [cuts(), adaptive(), simplified(), numbered()];
    let meshes = [welds(), sections(), contours(), drawings(), sheets(), read(), written()];
    strokes.into_iter().chain(meshes).flatten().collect()
}

/// Points on the x axis as one stroke.
fn on_x(xs: impl IntoIterator<Item = f64>) -> Strokes<f64> {
    Strokes { points: xs.into_iter().flat_map(|x| [x, 0.0, 0.0]).collect(), starts: vec![0] }
}

/// As many strokes of two points on the x axis.
fn pieces(count: usize) -> Strokes<f64> {
    let starts = (0..count as u32).map(|i| 2 * i).collect();
    Strokes { starts, ..on_x((0..count).flat_map(|i| [i as f64, i as f64 + 1.0])) }
}

fn cuts() -> Vec<Large> {
    let line = |points: usize| chop_of(&on_x([0.0, points as f64 - 1.0]), 1.0, [MOST_POINTS + 9, 2]);
    let strokes = |count: usize| chop_of(&pieces(count), 1.0, [2 * count, count]);
    vec![
        large("1,048,576 points written", line(MOST_POINTS), 0),
        large("one more", line(MOST_POINTS + 1), 6),
        large("196,608 strokes", strokes(MOST_STROKES), 0),
        large("one more", strokes(MOST_STROKES + 1), 2),
    ]
}

/// The identity's view of a screen without width: of a stroke across it, the one span that still lies across is halved.
fn across(step: f64) -> View {
    let mut matrix = [0.0; 16];
    (matrix[0], matrix[5], matrix[10], matrix[15]) = (1.0, 1.0, 1.0, 1.0);
    View { matrix, numbers: [0.0, 1.0, step, 1e-300] }
}

fn adaptive() -> Vec<Large> {
    let halved = |step: f64| chop_adaptive_of(&on_x([-1.0, 2.0]), across(step), [100, 1]);
    let wide = |step: f64| {
        let mut view = across(step);
        view.numbers[0] = 1048576.0;
        chop_adaptive_of(&on_x([0.0, 262144.0]), view, [MOST_POINTS + 9, 1])
    };
    let deepest = 3.0 / 2f64.powi(64);
    vec![
        large("64 halvings deep", halved(deepest * 1.01), 0),
        large("one deeper", halved(deepest * 0.99), 8),
        large("524,289 points written", wide(0.6), 0),
        large("1,048,577 points", wide(0.3), 6),
    ]
}

/// From side to side of a place and ever nearer: the farthest from the line to the last is always the next.
fn swinging(count: usize) -> Vec<f64> {
    (0..count as i32).map(|i| 1048576.0 * 0.915f64.powi(i) * if i % 2 == 0 { 1.0 } else { -1.0 }).collect()
}

fn simplified() -> Vec<Large> {
    let of = |xs: Vec<f64>| simplify_of(&on_x(xs), 0.0, 0);
    let back = swinging(MOST_TO_SIMPLIFY).into_iter().rev().collect();
    let even = (0..MOST_TO_SIMPLIFY).map(|i| ((i * i) % 97) as f64).collect();
    vec![
        large("4,096 points, the farthest always the first", of(swinging(MOST_TO_SIMPLIFY)), 0),
        large("4,096 points, the farthest always the last", of(back), 0),
        large("4,096 points without an order", of(even), 0),
        large("one more", of(swinging(MOST_TO_SIMPLIFY + 1)), 2),
    ]
}

/// As many strokes of two vertex numbers, each from where another ends.
fn chain(count: usize) -> Strokes<u32> {
    let points = (0..count as u32).flat_map(|i| [i / 2, i / 2 + 1 + i % 5]).collect();
    Strokes { points, starts: (0..count as u32).map(|i| 2 * i).collect() }
}

fn numbered() -> Vec<Large> {
    vec![
        large("196,608 strokes", splice_of(&chain(MOST_STROKES), 0), 0),
        large("one more", splice_of(&chain(MOST_STROKES + 1), 0), 2),
        large("196,608 strokes", reader_of(&chain(MOST_STROKES), MOST_STROKES - 1), 0),
    ]
}

/// A wavy sheet of 256 by 128 squares, two faces each, and with one face more.
fn sheet_of_faces(faces: usize) -> (Vec<f64>, Vec<u32>) {
    let wave = |i: u32, j: u32| (i as f64 * 0.3).sin() + (j as f64 * 0.2).cos();
    let vertices = (0..257).flat_map(|i| (0..129).flat_map(move |j| [i as f64, j as f64, wave(i, j)])).collect();
    let at = |i: u32, j: u32| i * 129 + j;
    let square = |i: u32, j: u32| {
        let [a, b, c, d] = [at(i, j), at(i + 1, j), at(i + 1, j + 1), at(i, j + 1)];
        [a, b, c, a, c, d]
    };
    let all = (0..256).flat_map(|i| (0..128).flat_map(move |j| square(i, j)));
    (vertices, all.cycle().take(3 * faces).collect())
}

/// The corners of as many faces.
fn corners(faces: usize) -> Vec<f64> {
    let (vertices, indices) = sheet_of_faces(faces);
    files::gathered(&vertices, &indices)
}

fn welds() -> Vec<Large> {
    vec![
        large("65,536 faces", meshes::weld_of(&corners(MOST_FACES), 0), 0),
        large("one more", meshes::weld_of(&corners(MOST_FACES + 1), 0), 2),
    ]
}

fn sections() -> Vec<Large> {
    let of = |faces: usize| {
        let (vertices, indices) = sheet_of_faces(faces);
        meshes::section_of(&vertices, &indices, [[100.3, 60.1, 0.0], [0.3, 0.4, 0.8]], 1e-9, 0)
    };
    vec![large("65,536 faces", of(MOST_FACES), 0), large("one more", of(MOST_FACES + 1), 2)]
}

/// As many faces around one vertex, which lies above the plane z = 0; the others lie below, and no two at one place.
fn fan(faces: usize) -> (Vec<f64>, Vec<u32>) {
    let turn = |i: usize| i as f64 / faces as f64 * std::f64::consts::TAU;
    let rim = |i: usize| [turn(i).cos(), turn(i).sin(), -1.0 - i as f64 / faces as f64];
    let vertices = [[0.0, 0.0, 1.0]].into_iter().chain((0..=faces).map(rim)).flatten().collect();
    (vertices, (0..faces as u32).flat_map(|i| [0, i + 1, i + 2]).collect())
}

/// As many faces, each with a side on the plane z = 0 and the third corner above it, no two of these points alike; what
/// the low word of the first one's x takes off its mix that of its y adds (`mix` of crates/path_classes).
fn one_mix() -> (Vec<f64>, Vec<u32>) {
    let face = |f: usize| [[f as f64, 2.0, 0.0], [f as f64, 3.0, 0.0], [0.0, 0.0, 1.0]];
    let mut vertices: Vec<[f64; 3]> = (0..MOST_FACES).flat_map(face).collect();
    vertices[0] = [0x3FE0_0000_0000_0000, 0x3FE0_0000_9E37_79B1, 0].map(f64::from_bits);
    vertices[1] = [0x3FE0_0000_C2B2_AE3D, 0x3FE0_0000_0000_0000, 0].map(f64::from_bits);
    (vertices.concat(), (0..3 * MOST_FACES as u32).collect())
}

fn contours() -> Vec<Large> {
    let of = |(vertices, indices): (Vec<f64>, Vec<u32>), plane: [[f64; 3]; 2]| {
        meshes::contour_of(&vertices, &indices, plane, 1e-9, 0)
    };
    let (aslant, flat) = ([[100.3, 60.1, 0.0], [0.3, 0.4, 0.8]], [[0.0; 3], [0.0, 0.0, 1.0]]);
    let alike = (vec![0.0, 0.0, 1.0, 1.0, 0.0, -1.0, 0.0, 1.0, -1.0], [0, 1, 2].repeat(MOST_FACES));
    let nowhere = (vec![0.5, 0.5, 1.0, 0.5, 0.5, -1.0, 0.5, 0.5, -0.5], [0, 1, 2].repeat(MOST_FACES));
    vec![
        large("65,536 faces", of(sheet_of_faces(MOST_FACES), aslant), 0),
        large("65,536 faces, all cut, one stroke", of(fan(MOST_FACES), flat), 0),
        large("65,536 faces, all cut alike", of(alike, flat), 0),
        large("65,536 faces, all cut in one place", of(nowhere, flat), 0),
        large("65,536 faces, no two points alike, two with one mix", of(one_mix(), flat), 0),
        large("one more", of(sheet_of_faces(MOST_FACES + 1), aslant), 2),
    ]
}

fn drawings() -> Vec<Large> {
    let of = |(vertices, indices): (Vec<f64>, Vec<u32>), mode: u32| {
        let faces = indices.len() / 3;
        let flips: Vec<u32> = (0..faces as u32).collect();
        let sight = Sight { mode, cos_theta: 0.9, eye: [-40.0, -50.0, 9.0], tolerance: 1e-9 };
        meshes::draw_of(&vertices, &indices, &flips[..faces / 2 * 2], sight, 0)
    };
    let whole = || sheet_of_faces(MOST_FACES);
    vec![
        large("65,536 faces, triangles", of(whole(), 1), 0),
        large("65,536 faces, polygonal", of(whole(), 2), 0),
        large("65,536 faces, silhouette", of(whole(), 3), 0),
        large("one more", of(sheet_of_faces(MOST_FACES + 1), 3), 2),
        large("65,536 faces, the last with two corners alike", of(last_flat(1), 2), 7),
        large("65,536 faces, the last with three on a line", of(last_flat(2), 3), 10),
    ]
}

/// The sheet with its last face on three more vertices, which lie on a line: the third corner is the `last` of them.
fn last_flat(last: u32) -> (Vec<f64>, Vec<u32>) {
    let (mut vertices, mut indices) = sheet_of_faces(MOST_FACES - 1);
    let more = vertices.len() as u32 / 3;
    vertices.extend([0.0, 0.0, 0.0, 1.0, 0.0, 0.0, 2.0, 0.0, 0.0]);
    indices.extend([more, more + 1, more + last]);
    (vertices, indices)
}

fn sheets() -> Vec<Large> {
    let most = Strokes {
        points: (0..MOST_POINTS as u32).map(|i| i % MOST_STROKES as u32).collect(),
        starts: (0..MOST_STROKES as u32).map(|i| 5 * i).collect(),
    };
    let vertices = MOST_STROKES as u32;
    let mut bytes = sheets::bytes_of(&most, 3, vertices);
    let written = sheets::write_sheet_of(&most, 3, vertices, bytes.len());
    let read = sheets::read_sheet_of(&bytes, [MOST_POINTS, MOST_STROKES]);
    bytes[4] += 1;
    vec![
        large("1,048,576 points, 196,608 strokes", written, 0),
        large("one vertex more", sheets::write_sheet_of(&most, 3, vertices + 1, bytes.len()), 2),
        large("1,048,576 points, 196,608 strokes", read, 0),
        large("one vertex more", sheets::read_sheet_of(&bytes, [MOST_POINTS, MOST_STROKES]), 9),
    ]
}

/// The file of as many faces, with normals that are NaN.
fn file(faces: usize) -> Vec<u8> {
    let corners: Vec<f32> = corners(faces).iter().map(|&x| x as f32).collect();
    files::bytes_of(&corners, 0xFF)
}

/// The same with a word put at a place.
fn file_with(faces: usize, at: usize, word: u32) -> Vec<u8> {
    let mut bytes = file(faces);
    bytes[at..at + 4].copy_from_slice(&word.to_le_bytes());
    bytes
}

fn read() -> Vec<Large> {
    let of = |bytes: &[u8]| files::read_stl_of(bytes, 0);
    let whole = file(MOST_FACES);
    let last = whole.len() - 6;
    vec![
        large("65,536 faces", of(&whole), 0),
        large("65,536 faces, the last number NaN", of(&file_with(MOST_FACES, last, 0x7FC0_0000)), 4),
        large("one more, the last number NaN", of(&file_with(MOST_FACES + 1, last + 50, 0x7FC0_0000)), 2),
        large("65,536 faces and a byte less", of(&whole[..whole.len() - 1]), 11),
        large("the greatest count in 134 bytes", of(&file_with(1, 80, u32::MAX)), 11),
        large("a count whose length wraps to that of 65,536", of(&file_with(MOST_FACES, 80, 0x8001_0000)), 11),
    ]
}

/// As many faces, each on three vertices of its own as long as there are any; the last that is named is moved to x.
fn apart(faces: usize, x: f64) -> (Vec<f64>, Vec<u32>) {
    let indices: Vec<u32> = (0..3 * faces as u32).map(|i| i % MOST_VERTICES as u32).collect();
    let mut vertices: Vec<f64> = (0..3 * MOST_VERTICES).map(|i| (i % 4001) as f64 * 0.25).collect();
    vertices[3 * indices[indices.len() - 1] as usize] = x;
    (vertices, indices)
}

fn written() -> Vec<Large> {
    let of = |(vertices, indices): (Vec<f64>, Vec<u32>)| files::write_stl_of(&vertices, &indices, 0);
    let (mut vertices, indices) = apart(MOST_FACES - 1, 0.5);
    vertices[3 * MOST_VERTICES - 1] = 0.1;
    vec![
        large("65,536 faces, 196,608 vertices", of(apart(MOST_FACES, 0.5)), 0),
        large("the last corner no f32", of(apart(MOST_FACES, 0.1)), 4),
        large("the last vertex no f32, but no corner", of((vertices, indices)), 0),
        large("one face more", of(apart(MOST_FACES + 1, 0.1)), 2),
    ]
}
