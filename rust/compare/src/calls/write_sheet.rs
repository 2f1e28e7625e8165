//! `write_sheet`: strokes of vertex numbers as bytes. The original has no sheets: the rules, read plainly, are the judge.

use super::strokes::table;
use super::{Left, Lent, room};
use crate::random::Random;
use crate::reading::{self, Sheet};
use crate::runs::Seen;

#[derive(Clone, Debug)]
pub struct Input {
    pub mode: u32,
    pub vertices: u32,
    pub numbers: Vec<u32>,
    pub starts: Vec<u32>,
    pub lent: Lent<u8>,
}

/// A random input: few points, empty strokes among them, and now and then a table, a number, a mode or a count at fault.
pub fn make(random: &mut Random) -> Input {
    let digits = random.below(18);
    let vertices = 1 + random.below(1 << digits) as u32;
    let most = if random.once_in(50) { 300 } else { 14 };
    let mut numbers: Vec<u32> = (0..random.below(most)).map(|_| random.below(vertices as usize) as u32).collect();
    let mut starts = table(random, numbers.len());
    if starts.is_empty() && !random.once_in(4) {
        starts.push(0);
    }
    if random.once_in(8) && !numbers.is_empty() {
        let at = random.below(numbers.len());
        numbers[at] = random.one_of(&[vertices - 1, vertices, vertices + 1, u32::MAX]);
    }
    let modes = if random.once_in(12) { 6 } else { 4 };
    let mode = random.below(modes) as u32;
    let mode = if random.once_in(99) { u32::MAX } else { mode };
    let wild = random.one_of(&[0, 196_608, 196_609, u32::MAX]);
    let vertices = if random.once_in(16) { wild } else { vertices };
    let length = 24 + 4 * reading::non_empty(&starts, numbers.len()).len() + 4 * numbers.len();
    let bytes = (0..room(random, length)).map(|_| random.bits() as u8).collect();
    Input { mode, vertices, numbers, starts, lent: lent(bytes) }
}

/// Bytes alone are lent.
pub fn lent(bytes: Vec<u8>) -> Lent<u8> {
    Lent { points: bytes, ..Lent::default() }
}

/// So many strokes on so many points and vertices, with this much more or less room than their sheet needs.
fn sized(strokes: usize, points: usize, vertices: u32, more: isize) -> Input {
    let starts: Vec<u32> = (0..strokes).map(|i| i.min(points) as u32).collect();
    let length = 24 + 4 * strokes.min(points) + 4 * points;
    let bytes = vec![5; length.saturating_add_signed(more)];
    Input { mode: 3, vertices, numbers: vec![0; points], starts, lent: lent(bytes) }
}

/// Counts at the limits and one past them, and room of the exact length, one byte less and one more.
fn at_limits() -> impl Iterator<Item = Input> {
    let sizes = [
        (0, 0, 0),
        (1, 1, 1),
        (196_608, 196_608, 1),
        (196_609, 196_609, 1),
        (196_608, 3, 1),
        (196_609, 3, 1),
        (1, 1_048_576, 1),
        (1, 1_048_577, 1),
        (2, 5, 196_608),
        (2, 5, 196_609),
    ];
    sizes
        .into_iter()
        .flat_map(|(strokes, points, vertices)| [-1, 0, 1].map(|more| sized(strokes, points, vertices, more)))
}

/// Every mode up to 5 on every table of up to three starts for up to two points, good or not.
fn all_small() -> impl Iterator<Item = Input> {
    let tables = (0..85u32).map(|k| match k {
        0 => vec![],
        1..5 => vec![k - 1],
        5..21 => vec![(k - 5) / 4, (k - 5) % 4],
        _ => vec![(k - 21) / 16, (k - 21) / 4 % 4, (k - 21) % 4],
    });
    tables.flat_map(|starts| {
        (0..18).map(move |k| {
            let (mode, numbers) = (k % 6, vec![2; k as usize / 6]);
            Input { mode, vertices: 3, numbers, starts: starts.clone(), lent: lent(vec![5; 48]) }
        })
    })
}

/// The bytes of a sheet.
pub fn bytes_of(sheet: &Sheet) -> Vec<u8> {
    let (strokes, points) = (sheet.starts.len() as u32, sheet.numbers.len() as u32);
    let header = [sheet.mode, sheet.vertices, strokes, points, 24, 24 + 4 * strokes];
    header.iter().chain(&sheet.starts).chain(&sheet.numbers).flat_map(|word| word.to_le_bytes()).collect()
}

/// What the rules say that the call leaves.
pub fn judged(input: &Input) -> Left<u8> {
    let Input { mode, vertices, numbers, starts, lent } = input;
    let status = reading::write_sheet(*mode, *vertices, numbers, starts, lent.points.len());
    if status != 0 {
        return lent.refused(status);
    }
    let starts = reading::non_empty(starts, numbers.len());
    let bytes = bytes_of(&Sheet { mode: reading::meant(*mode), vertices: *vertices, starts, numbers: numbers.clone() });
    let mut left = Left { status: 0, counts: vec![bytes.len()], lent: lent.clone() };
    left.lent.points[..bytes.len()].copy_from_slice(&bytes);
    left
}

/// What the port leaves. What it wrote is read back by the port first, and must be the strokes that have points.
fn port(input: &Input) -> Left<u8> {
    let Input { mode, vertices, numbers, starts, .. } = input;
    let mut lent = input.lent.clone();
    let answer = ramikohy::lent::write_sheet(*mode, *vertices, numbers, starts, &mut lent.points);
    if let Ok(count) = answer {
        let back = ramikohy::read_sheet(&lent.points[..count]).unwrap();
        assert_eq!((back.mode, back.vertices, back.strokes.points()), (reading::meant(*mode), *vertices, &numbers[..]));
        assert_eq!(back.strokes.starts(), reading::non_empty(starts, numbers.len()));
    }
    super::left(answer.map(|count| [count]), lent)
}

/// Runs the port beside the rules.
pub fn run(count: u64, seed: u64) -> Seen {
    super::run(all_small().chain(at_limits()), make, judged, port, (count, seed))
}
