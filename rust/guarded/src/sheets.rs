//! The calls on sheets. What is written is read back, and what is read is written again to the same bytes.

use crate::buffer::{Buffer, Slice, words};
use crate::call::{Call, Left, handed, status};
use crate::source::{Source, Strokes};
use ramikohy::lent;

/// Strokes as a sheet.
pub fn write_sheet(s: &mut Source) -> Call {
    let vertices = s.one_of(&[9, 1, 5, 0, 196_608]);
    let strokes = s.numbered(vertices as usize);
    let vertices = if s.once_in(32) { s.one_of(&[196_609, u32::MAX, 3]) } else { vertices };
    let mode = if s.once_in(32) { s.word() } else { s.below(4) as u32 };
    write_sheet_of(&strokes, mode, vertices, 2000)
}

/// The same of given strokes and room.
pub fn write_sheet_of(strokes: &Strokes<u32>, mode: u32, vertices: u32, room: usize) -> Call {
    let mut buffers = vec![Buffer::input(&strokes.points), Buffer::input(&strokes.starts)];
    buffers.extend([Buffer::plenty::<u8>(0, 1, room), Buffer::place::<usize>()]);
    let work = move |b: &[Slice]| status(handed!(ramikohy_write_sheet, b, {mode} {vertices} [0] [1] [2] (3)));
    let sound = move |call: &Call, left: &Left| {
        let (numbers, starts) = (words(&left.bytes[0]), words(&left.bytes[1]));
        let sheet = ramikohy::read_sheet(&left.bytes[2][..left.count(call, 0)]).expect("what is written is a sheet");
        assert_eq!((sheet.mode, sheet.vertices), (if mode == 0 { 2 } else { mode }, vertices), "the header");
        let written = ramikohy::strokes(&numbers, &starts).filter(|s| !s.is_empty());
        assert!(sheet.strokes.iter().eq(written), "what is written reads back");
    };
    Call::new("ramikohy_write_sheet", &[1, 2, 3, 4, 6], buffers, work).sound(sound)
}

/// A sheet's strokes: of a good sheet with a few damages, or of any bytes.
pub fn read_sheet(s: &mut Source) -> Call {
    let vertices = s.one_of(&[9, 1, 5, 200, 196_608]);
    let mode = 1 + s.below(3) as u32;
    let strokes = s.numbered(vertices as usize);
    let mut bytes = bytes_of(&strokes, mode, vertices);
    for _ in 0..s.below(4) {
        damage(s, &mut bytes);
    }
    read_sheet_of(&bytes, [400, 64])
}

/// The bytes of a sheet of these strokes without the empty ones, whatever they are.
pub fn bytes_of(strokes: &Strokes<u32>, mode: u32, vertices: u32) -> Vec<u8> {
    let points = strokes.points.len();
    let ends = strokes.starts.iter().skip(1).copied().chain([points as u32]);
    let starts: Vec<u32> = strokes.starts.iter().zip(ends).filter(|(a, b)| *a < b).map(|(a, _)| *a).collect();
    let header = [mode, vertices, starts.len() as u32, points as u32, 24, 24 + 4 * starts.len() as u32];
    [&header[..], &starts, &strokes.points].concat().iter().flat_map(|word| word.to_le_bytes()).collect()
}

/// A word at another value, bytes cut off or added, a bit turned.
pub fn damage(s: &mut Source, bytes: &mut Vec<u8>) {
    let (at, by) = (s.below(256), s.byte());
    match s.below(5) {
        0 | 1 if bytes.len() >= 4 => {
            let value = if by > 12 { by as u32 } else { s.word() };
            let from = at % (bytes.len() / 4) * 4;
            bytes[from..from + 4].copy_from_slice(&value.to_le_bytes());
        }
        2 => bytes.truncate(at % (1 + bytes.len())),
        3 => bytes.extend(vec![by; 1 + at % 8]),
        _ if !bytes.is_empty() => {
            let at = at % bytes.len();
            bytes[at] ^= 1 << (by % 8);
        }
        _ => {}
    }
}

/// The same of given bytes and room for points and strokes.
pub fn read_sheet_of(bytes: &[u8], room: [usize; 2]) -> Call {
    let mut buffers = vec![Buffer::input(bytes)];
    buffers.extend([Buffer::plenty::<u32>(0, 1, room[0]), Buffer::plenty::<u32>(1, 1, room[1])]);
    buffers.extend([Buffer::place::<usize>(), Buffer::place::<usize>()]);
    buffers.extend([Buffer::place::<u32>(), Buffer::place::<u32>()]);
    let work = |b: &[Slice]| status(handed!(ramikohy_read_sheet, b, [0][1][2](3)(4)(5)(6)));
    Call::new("ramikohy_read_sheet", &[6, 9], buffers, work).sound(|call, left| {
        let [mode, vertices] = [2, 3].map(|k| left.count(call, k) as u32);
        let mut again = vec![0; left.bytes[0].len()];
        let wrote = lent::write_sheet(mode, vertices, &left.written(call, 1), &left.written(call, 2), &mut again);
        assert_eq!(wrote, Ok(again.len()), "what is read can be written");
        assert!(again == left.bytes[0], "what is read is written again to other bytes");
    })
}
