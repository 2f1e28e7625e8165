//! A plain reading of the rules on what is refused, written apart from the port. Each function answers the lowest number
//! that applies, 0 where none does.

pub const SHAPE: u32 = 1;
pub const COUNT: u32 = 2;
pub const VERTEX: u32 = 3;
pub const NUMBER: u32 = 4;
pub const SCRATCH: u32 = 5;
pub const ROOM: u32 = 6;
pub const ALIKE: u32 = 7;
pub const DEEP: u32 = 8;
pub const SHEET: u32 = 9;
pub const NO_LENGTH: u32 = 10;
pub const STL: u32 = 11;

const MOST_FACES: usize = 65_536;
const MOST_VERTICES: usize = 196_608;
const MOST_STROKES: usize = 196_608;
pub const MOST_POINTS: usize = 1_048_576;
const MOST_TO_SIMPLIFY: usize = 4_096;
const FARTHEST: f64 = 1_048_576.0;

/// Floor takes a magnitude below 2^53.
pub fn floor_takes(x: f64) -> bool {
    x.abs() < 9007199254740992.0
}

/// The root takes no NaN and nothing below zero; -0 is not below zero.
pub fn sqrt_takes(x: f64) -> bool {
    x >= 0.0
}

/// Whether a table of starts is one for so many points: the first is 0, none falls, none passes the points; and points
/// have strokes.
pub fn is_table(starts: &[u32], points: usize) -> bool {
    let rises = starts.windows(2).all(|w| w[0] <= w[1]);
    let within = starts.iter().all(|&s| s as usize <= points);
    starts.first().map_or(points == 0, |&first| first == 0) && rises && within
}

/// Coordinates, matrix entries and the like.
pub fn in_range(x: f64) -> bool {
    x.abs() <= FARTHEST
}

/// The first of some tests that fails, with its number.
fn first(tests: &[(bool, u32)]) -> u32 {
    tests.iter().find(|(holds, _)| !holds).map_or(0, |&(_, number)| number)
}

/// What a list of strokes on coordinates is refused for, before the numbers beside it are looked at: 1 and 2.
fn strokes(coordinates: &[f64], starts: &[u32]) -> u32 {
    let points = coordinates.len() / 3;
    first(&[
        (coordinates.len().is_multiple_of(3) && is_table(starts, points), SHAPE),
        (starts.len() <= MOST_STROKES && points <= MOST_POINTS, COUNT),
    ])
}

pub fn splice(points: &[u32], starts: &[u32], scratch: usize, out_points: usize, out_starts: usize) -> u32 {
    first(&[
        (is_table(starts, points.len()), SHAPE),
        (starts.len() <= MOST_STROKES && points.len() <= MOST_POINTS, COUNT),
        (scratch >= 8 * starts.len(), SCRATCH),
        (out_points >= points.len() && out_starts >= starts.len(), ROOM),
    ])
}

/// What a cut is refused for before it is made: 1, 2 and 4.
pub fn cut(coordinates: &[f64], starts: &[u32], step: f64) -> u32 {
    let step_fits = step > 0.0 && step <= 1_048_576.0;
    match strokes(coordinates, starts) {
        0 => first(&[(coordinates.iter().all(|&x| in_range(x)) && step_fits, NUMBER)]),
        number => number,
    }
}

/// The numbers of an adaptive cut besides its step.
pub fn view_fits(matrix: &[f64; 16], width: f64, height: f64, tolerance: f64) -> bool {
    let sizes = [width, height].iter().all(|x| (0.0..=1_048_576.0).contains(x));
    matrix.iter().all(|&x| in_range(x)) && sizes && tolerance > 0.0 && tolerance < 1.0
}

pub fn simplify(coordinates: &[f64], starts: &[u32], threshold: f64, out_points: usize, out_starts: usize) -> u32 {
    let points = coordinates.len() / 3;
    let number = strokes(coordinates, starts);
    if number != 0 {
        return number;
    }
    let end = |i: usize| starts.get(i + 1).map_or(points, |&s| s as usize);
    let longest = (0..starts.len()).map(|i| end(i) - starts[i] as usize).max().unwrap_or(0);
    first(&[
        (longest <= MOST_TO_SIMPLIFY, COUNT),
        (coordinates.iter().all(|&x| in_range(x)) && threshold >= 0.0, NUMBER),
        (out_points >= points && out_starts >= starts.len(), ROOM),
    ])
}

pub fn weld(corners: &[f64], scratch: usize, out_numbers: usize, out_indices: usize) -> u32 {
    let faces = corners.len() / 9;
    first(&[
        (corners.len().is_multiple_of(9), SHAPE),
        (faces <= MOST_FACES, COUNT),
        (corners.iter().all(|&x| in_range(x)), NUMBER),
        (scratch >= 12 * faces, SCRATCH),
        (out_numbers >= 9 * faces && out_indices >= 3 * faces, ROOM),
    ])
}

/// What a mesh is refused for: 1, 2 and 3.
fn mesh(vertices: &[f64], indices: &[u32], pairs: bool) -> u32 {
    let [count, faces] = [vertices.len() / 3, indices.len() / 3];
    first(&[
        (indices.len().is_multiple_of(3) && vertices.len().is_multiple_of(3) && pairs, SHAPE),
        (faces <= MOST_FACES && count <= MOST_VERTICES, COUNT),
        (indices.iter().all(|&v| (v as usize) < count), VERTEX),
    ])
}

/// The number that a mode number stands for: 0, where nobody says a mode, for polygonal.
pub fn meant(mode: u32) -> u32 {
    if mode == 0 { 2 } else { mode }
}

/// The numbers beside the mesh of a drawing, all tested whatever the mode.
pub struct View {
    pub mode: u32,
    pub cos_theta: f64,
    pub eye: [f64; 3],
    pub tolerance: f64,
}

/// What a drawing is refused for before its normals are looked at, by the lengths that it is lent: words and numbers of
/// scratch, points and starts.
pub fn draw(vertices: &[f64], indices: &[u32], flips: &[u32], view: &View, lent: [usize; 4]) -> u32 {
    let number = mesh(vertices, indices, flips.len().is_multiple_of(2));
    if number != 0 {
        return number;
    }
    let faces = indices.len() / 3;
    let tolerance = view.tolerance > 0.0 && view.tolerance < 1.0;
    let in_ranges = vertices.iter().chain(&view.eye).all(|&x| in_range(x));
    first(&[
        (in_ranges && tolerance && !view.cos_theta.is_nan() && view.mode <= 3, NUMBER),
        (lent[0] >= 64 * faces && lent[1] >= 4 * faces, SCRATCH),
        (lent[2] >= 6 * faces && lent[3] >= 3 * faces, ROOM),
    ])
}

/// What a face without a normal is refused for: two of its corners have coordinates that compare equal, or none have.
pub fn flat([a, b, c]: [[f64; 3]; 3]) -> u32 {
    if a == b || b == c || c == a { ALIKE } else { NO_LENGTH }
}

/// What a section is refused for, by the plane's point and normal, and room for coordinates and starts.
pub fn section(vertices: &[f64], indices: &[u32], plane: &[f64; 6], tolerance: f64, lent: [usize; 2]) -> u32 {
    let number = mesh(vertices, indices, true);
    if number != 0 {
        return number;
    }
    let faces = indices.len() / 3;
    let in_ranges = vertices.iter().chain(plane).all(|&x| in_range(x));
    first(&[
        (in_ranges && tolerance > 0.0 && tolerance < 1.0, NUMBER),
        (lent[0] >= 6 * faces && lent[1] >= faces, ROOM),
    ])
}

/// What a contour is refused for, by the lengths that it is lent: words and numbers of scratch, coordinates and starts.
/// Room is a section's, and scratch is tested before it.
pub fn contour(vertices: &[f64], indices: &[u32], plane: &[f64; 6], tolerance: f64, lent: [usize; 4]) -> u32 {
    let faces = indices.len() / 3;
    let scratch = lent[0] >= 16 * faces && lent[1] >= 8 * faces;
    match section(vertices, indices, plane, tolerance, [lent[2], lent[3]]) {
        0 | ROOM if !scratch => SCRATCH,
        status => status,
    }
}

/// What writing a sheet is refused for, by the sheet's length and the room for it. A table at fault has no length.
pub fn write_sheet(mode: u32, vertices: u32, numbers: &[u32], starts: &[u32], room: usize) -> u32 {
    let length = || 24 + 4 * non_empty(starts, numbers.len()).len() + 4 * numbers.len();
    let (points, strokes) = (numbers.len(), starts.len());
    if !is_table(starts, points) {
        return SHAPE;
    }
    first(&[
        (points <= MOST_POINTS && strokes <= MOST_STROKES && vertices as usize <= MOST_VERTICES, COUNT),
        (numbers.iter().all(|&v| v < vertices), VERTEX),
        (mode <= 3, NUMBER),
        (room >= length(), ROOM),
    ])
}

/// The starts of those strokes of a good table that have points.
pub fn non_empty(starts: &[u32], points: usize) -> Vec<u32> {
    let mut kept: Vec<u32> = starts.iter().copied().filter(|&s| (s as usize) < points).collect();
    kept.dedup();
    kept
}

/// A sheet taken apart.
#[derive(Clone, PartialEq, Debug)]
pub struct Sheet {
    pub mode: u32,
    pub vertices: u32,
    pub starts: Vec<u32>,
    pub numbers: Vec<u32>,
}

/// The sheet that bytes are, if they are one.
pub fn sheet(bytes: &[u8]) -> Option<Sheet> {
    let words: Vec<u32> = bytes.chunks_exact(4).map(|b| u32::from_le_bytes([b[0], b[1], b[2], b[3]])).collect();
    let &[mode, vertices, strokes, points, to_starts, to_points, ref rest @ ..] = &words[..] else { return None };
    let (strokes, points) = (strokes as usize, points as usize);
    let counted = vertices as usize <= MOST_VERTICES && strokes <= MOST_STROKES && points <= MOST_POINTS;
    let placed = to_starts == 24 && to_points as usize == 24 + 4 * strokes;
    let whole = bytes.len().is_multiple_of(4) && rest.len() == strokes + points;
    if !((1..=3).contains(&mode) && counted && placed && whole) {
        return None;
    }
    let (starts, numbers) = rest.split_at(strokes);
    let rise = starts.windows(2).all(|w| w[0] < w[1]) && starts.iter().all(|&s| (s as usize) < points);
    let begin = starts.first().map_or(points == 0, |&first| first == 0);
    let known = numbers.iter().all(|&v| v < vertices);
    (rise && begin && known).then(|| Sheet { mode, vertices, starts: starts.to_vec(), numbers: numbers.to_vec() })
}

/// The corners of the binary STL file that bytes are, if they are one: nine numbers a face, each the f64 of an f32. The
/// length that the count asks for is worked out in more bits than it can take.
pub fn stl(bytes: &[u8]) -> Option<Vec<f64>> {
    let faces = word(bytes.get(80..84)?);
    if bytes.len() as u128 != 84 + 50 * faces as u128 {
        return None;
    }
    let corners = bytes[84..].chunks_exact(50).flat_map(|face| face[12..48].chunks_exact(4));
    Some(corners.map(|b| f32::from_bits(word(b)) as f64).collect())
}

/// The word of four bytes, the lowest first.
fn word(bytes: &[u8]) -> u32 {
    bytes.iter().rev().fold(0, |word, &byte| word << 8 | byte as u32)
}

/// What reading a file is refused for: bytes that are none come first, and the rest is a weld of its corners.
pub fn read_stl(bytes: &[u8], scratch: usize, out_numbers: usize, out_indices: usize) -> u32 {
    stl(bytes).map_or(STL, |corners| weld(&corners, scratch, out_numbers, out_indices))
}

/// Whether a number is exactly an f32: made one and taken back it has the same bits.
pub fn is_single(x: f64) -> bool {
    (x as f32 as f64).to_bits() == x.to_bits()
}

/// What writing a file is refused for: every vertex must be within the bound, and those that a face names must be f32.
pub fn write_stl(vertices: &[f64], indices: &[u32], room: usize) -> u32 {
    let number = mesh(vertices, indices, true);
    if number != 0 {
        return number;
    }
    let mut named = indices.iter().flat_map(|&v| &vertices[3 * v as usize..][..3]);
    first(&[
        (vertices.iter().all(|&x| in_range(x)) && named.all(|&x| is_single(x)), NUMBER),
        (room >= 84 + 50 * (indices.len() / 3), ROOM),
    ])
}
