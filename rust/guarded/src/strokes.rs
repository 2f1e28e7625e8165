//! The calls on strokes, and the reader.

use crate::buffer::{Buffer, Element, Slice, words};
use crate::call::{Call, handed, status, value};
use crate::sound;
use crate::source::{Source, Strokes};

/// The numbers of a view: a matrix, width, height, step and tolerance.
pub struct View {
    pub matrix: [f64; 16],
    pub numbers: [f64; 4],
}

/// Room for so many points and starts, of a call that needs what it writes.
const ROOM: [usize; 2] = [1000, 70];

/// The lists of strokes as they are lent.
fn lent<P: Element>(strokes: &Strokes<P>) -> [Buffer; 2] {
    [Buffer::input(&strokes.points), Buffer::input(&strokes.starts)]
}

/// Room for so many points and starts, of a call that needs what it writes.
fn plenty(room: [usize; 2]) -> [Buffer; 2] {
    [Buffer::plenty::<f64>(0, 3, 3 * room[0]), Buffer::plenty::<u32>(1, 1, room[1])]
}

/// The places of `N` counts.
fn counts<const N: usize>() -> [Buffer; N] {
    [(); N].map(|()| Buffer::place::<usize>())
}

/// Strokes cut into steps.
pub fn chop(s: &mut Source) -> Call {
    let (strokes, scale) = s.strokes();
    let length = s.length(scale);
    let steps = [length, length, 1.0, 0.3, 1048576.0, 0.0, -1.0, f64::NAN, 1048577.0, 1e-6, 1e-7];
    let step = s.mostly(5, &steps);
    chop_of(&strokes, step, ROOM)
}

/// The same of given strokes and room.
pub fn chop_of(strokes: &Strokes<f64>, step: f64, room: [usize; 2]) -> Call {
    let buffers = [&lent(strokes)[..], &plenty(room), &counts::<2>()].concat();
    Call::new("ramikohy_chop", &[1, 2, 4, 6], buffers, move |b| {
        status(handed!(ramikohy_chop, b, [0] [1] {step} [2] [3] (4) (5)))
    })
}

/// Strokes joined end to end.
pub fn splice(s: &mut Source) -> Call {
    let vertices = 1 + s.some(9);
    let strokes = s.numbered(vertices);
    splice_of(&strokes, s.below(3))
}

/// The same of given strokes, with this much more room than is needed.
pub fn splice_of(strokes: &Strokes<u32>, more: usize) -> Call {
    let [points, starts] = [strokes.points.len(), strokes.starts.len()];
    let rooms = [Buffer::room::<u32>(0, 1, points, more), Buffer::room::<u32>(1, 1, starts, more)];
    let scratch = [Buffer::scratch::<u32>(8 * starts, more)];
    let buffers = [&lent(strokes)[..], &scratch, &rooms, &counts::<2>()].concat();
    let work = |b: &[Slice]| status(handed!(ramikohy_splice, b, [0][1][2][3][4](5)(6)));
    Call::new("ramikohy_splice", &[1, 2, 5, 6], buffers, work).sound(|call, left| {
        let before = sound::split(&words(&left.bytes[0]), &words(&left.bytes[1]));
        sound::joined(&before, &sound::split(&left.written(call, 3), &left.written(call, 4)));
    })
}

/// Strokes halved until they are short on the screen.
pub fn chop_adaptive(s: &mut Source) -> Call {
    let (strokes, scale) = s.strokes();
    let mut matrix = [0.0; 16];
    (matrix[0], matrix[5], matrix[10], matrix[15]) = (1.0, 1.0, 1.0, 1.0);
    for _ in 0..s.below(6) {
        matrix[s.below(16)] = s.mostly(6, &[0.5, -1.0, 2.0, 0.0, 0.1, 3.0, f64::NAN, 1048577.0]);
    }
    let [width, height] = [(); 2].map(|()| s.mostly(3, &[10.0, 3.0, 0.0, 1048577.0, -1.0, f64::NAN]));
    let length = s.length(scale);
    let step = s.mostly(4, &[1.0, length, 2.5, 0.1, 0.0, 1048577.0, f64::NAN, 1e-30]);
    let tolerance = s.mostly(4, &[1e-9, 1e-6, 0.25, 1e-60, 0.0, 1.0, f64::NAN]);
    chop_adaptive_of(&strokes, View { matrix, numbers: [width, height, step, tolerance] }, ROOM)
}

/// The same of given strokes, view and room.
pub fn chop_adaptive_of(strokes: &Strokes<f64>, view: View, room: [usize; 2]) -> Call {
    let matrix = [Buffer::input(&view.matrix)];
    let buffers = [&lent(strokes)[..], &matrix, &plenty(room), &counts::<3>()].concat();
    let [w, h, step, tolerance] = view.numbers;
    let work = move |b: &[Slice]| {
        status(handed!(ramikohy_chop_adaptive, b, [0] [1] (2) {w} {h} {step} {tolerance} [3] [4] (5) (6) (7)))
    };
    Call::new("ramikohy_chop_adaptive", &[1, 2, 4, 6, 8], buffers, work).sound(|call, left| {
        let read = left.bytes[0].len() / 24;
        assert_eq!(left.count(call, 0), read + left.count(call, 2), "points written are points read and halvings");
    })
}

/// Strokes without the points near enough to a line.
pub fn simplify(s: &mut Source) -> Call {
    let (strokes, scale) = s.strokes();
    let length = s.length(scale);
    let threshold = s.mostly(5, &[0.0, length, length, 0.5, 1e-7, f64::INFINITY, -0.0, -1.0, f64::NAN]);
    simplify_of(&strokes, threshold, s.below(3))
}

/// The same of given strokes, with this much more room than is needed.
pub fn simplify_of(strokes: &Strokes<f64>, threshold: f64, more: usize) -> Call {
    let [points, starts] = [strokes.points.len(), strokes.starts.len()];
    let rooms = [Buffer::room::<f64>(0, 3, points, more), Buffer::room::<u32>(1, 1, starts, more)];
    let buffers = [&lent(strokes)[..], &rooms, &counts::<3>()].concat();
    Call::new("ramikohy_simplify", &[1, 2, 4, 6], buffers, move |b| {
        status(handed!(ramikohy_simplify, b, [0] [1] {threshold} [2] [3] (4) (5) (6)))
    })
}

/// The three functions of the reader on any table, a part of the points whatever the table says.
pub fn reader(s: &mut Source) -> Call {
    let strokes = s.numbered(9);
    let i = if s.once_in(16) { s.word() as usize } else { s.below(12) };
    reader_of(&strokes, i)
}

/// The same of given strokes.
pub fn reader_of(strokes: &Strokes<u32>, i: usize) -> Call {
    let names = "ramikohy_strokes_left ramikohy_stroke_first ramikohy_stroke_length";
    Call::new(names, &[], lent(strokes).into(), move |b| {
        let left = handed!(ramikohy_strokes_left, b, [1] {i});
        let first = handed!(ramikohy_stroke_first, b, [0] [1] {i});
        let length = handed!(ramikohy_stroke_length, b, [0] [1] {i});
        assert_eq!(left, b[1].len.saturating_sub(i), "strokes left");
        assert!(first <= b[0].len && length <= b[0].len - first, "a stroke past the points");
        value((first as u64) << 32 | length as u64)
    })
}
