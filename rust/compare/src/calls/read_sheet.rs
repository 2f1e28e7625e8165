//! `read_sheet`: a sheet's strokes. The original has no sheets: the rules, read plainly, are the judge.

use super::write_sheet::bytes_of;
use super::{Left, Lent, dirty, room};
use crate::random::Random;
use crate::reading::{self, Sheet};
use crate::runs::Seen;

#[derive(Clone, Debug)]
pub struct Input {
    pub bytes: Vec<u8>,
    pub lent: Lent<u32>,
}

/// A random sheet with up to three damages, and room for what it was before them: exactly, more, or now and then too little.
pub fn make(random: &mut Random) -> Input {
    let sheet = good(random);
    let mut bytes = bytes_of(&sheet);
    for _ in 0..random.one_of(&[0, 1, 1, 1, 2, 3]) {
        damage(random, &mut bytes);
    }
    let lengths = [0, sheet.numbers.len(), sheet.starts.len()].map(|n| room(random, n));
    Input { bytes, lent: dirty(random, [0, lengths[1], lengths[2]], |bits| bits as u32) }
}

/// A random sheet: few strokes of few points.
fn good(random: &mut Random) -> Sheet {
    let (strokes, most) = if random.once_in(50) { (random.below(40), 20) } else { (random.below(5), 4) };
    let digits = random.below(18);
    let vertices = 1 + random.below(1 << digits) as u32;
    let (mut starts, mut numbers) = (Vec::new(), Vec::new());
    for _ in 0..strokes {
        starts.push(numbers.len() as u32);
        numbers.extend((0..1 + random.below(most)).map(|_| random.below(vertices as usize) as u32));
    }
    Sheet { mode: 1 + random.below(3) as u32, vertices, starts, numbers }
}

/// The k-th word of bytes; 0 where they end before.
fn word(bytes: &[u8], k: usize) -> u32 {
    bytes.get(4 * k..4 * k + 4).map_or(0, |b| u32::from_le_bytes([b[0], b[1], b[2], b[3]]))
}

/// The same bytes with another k-th word, where they have one.
fn set(bytes: &mut [u8], k: usize, to: u32) {
    if let Some(place) = bytes.get_mut(4 * k..4 * k + 4) {
        place.copy_from_slice(&to.to_le_bytes());
    }
}

/// Values that a word of these bytes may be set to: small ones, limits and their neighbours, what the header says and the
/// neighbours of that, the word's own neighbours, and words that overflow where they are multiplied or added.
fn values(bytes: &[u8], k: usize) -> Vec<u32> {
    let mut values = vec![0, 1, 2, 3, 4, 23, 24, 25, 28, 32, 1 << 24, 1 << 30, 1 << 31, u32::MAX - 23, u32::MAX];
    for near in [word(bytes, k), word(bytes, 1), word(bytes, 2), word(bytes, 3), 196_608, 1_048_576] {
        values.extend([near.wrapping_sub(1), near, near.wrapping_add(1), near.wrapping_add(1 << 30)]);
    }
    values
}

/// One damage: a word of the header, a start or a number at another value, bytes cut off or added, any byte, a word swapped with its
/// neighbour, or a stroke more and a point less by the header, so that the length is right.
fn damage(random: &mut Random, bytes: &mut Vec<u8>) {
    let words = bytes.len() / 4;
    let strokes = word(bytes, 2) as usize;
    let some_word = match random.below(8) {
        0 | 1 => Some(random.below(6)),
        2 => Some(6 + random.below(1 + strokes.min(words))),
        3 => Some(random.below(1 + words)),
        _ => None,
    };
    if let Some(k) = some_word {
        let values = values(bytes, k);
        return set(bytes, k, random.one_of(&values));
    }
    match random.below(5) {
        0 => bytes.truncate(random.below(1 + bytes.len())),
        1 => bytes.extend((0..1 + random.below(8)).map(|_| random.below(3) as u8)),
        2 if !bytes.is_empty() => {
            let at = random.below(bytes.len());
            bytes[at] ^= 1 << random.below(8);
        }
        3 => {
            let k = 6 + random.below(1 + words);
            let (one, other) = (word(bytes, k), word(bytes, k + 1));
            set(bytes, k, other);
            set(bytes, k + 1, one);
        }
        _ => {
            let by = random.one_of(&[1u32, u32::MAX]);
            let (strokes, points) = (word(bytes, 2).wrapping_add(by), word(bytes, 3).wrapping_sub(by));
            set(bytes, 2, strokes);
            set(bytes, 3, points);
            set(bytes, 5, strokes.wrapping_mul(4).wrapping_add(24));
        }
    }
}

/// Bytes with so much room for points and starts, and something in it.
fn with_room(bytes: Vec<u8>, points: usize, starts: usize) -> Input {
    Input { bytes, lent: Lent { points: vec![5; points], starts: vec![9; starts], ..Lent::default() } }
}

/// A few small sheets.
fn few() -> Vec<Sheet> {
    let sheet = |mode, vertices, starts: &[u32], numbers: &[u32]| Sheet {
        mode,
        vertices,
        starts: starts.to_vec(),
        numbers: numbers.to_vec(),
    };
    vec![
        sheet(2, 0, &[], &[]),
        sheet(3, 7, &[], &[]),
        sheet(1, 3, &[0], &[1, 0, 2, 1]),
        sheet(3, 6, &[0, 2, 3], &[5, 0, 1, 4, 4, 2]),
    ]
}

/// Each of these sheets cut off at every byte, with bytes added, with every word at every value of note, and with each byte changed.
fn all_small() -> impl Iterator<Item = Input> {
    few().into_iter().flat_map(|sheet| {
        let bytes = bytes_of(&sheet);
        let cut = (0..=bytes.len()).map(|n| bytes[..n].to_vec());
        let more = (1..9).map(|n| [&bytes[..], &vec![0; n][..]].concat());
        let words = (0..bytes.len() / 4).flat_map(|k| values(&bytes, k).into_iter().map(move |to| (k, to)));
        let changed = words.map(|(k, to)| {
            let mut other = bytes.clone();
            set(&mut other, k, to);
            other
        });
        let flipped = (0..8 * bytes.len()).map(|bit| {
            let mut other = bytes.clone();
            other[bit / 8] ^= 1 << (bit % 8);
            other
        });
        let all: Vec<Vec<u8>> = cut.chain(more).chain(changed).chain(flipped).collect();
        all.into_iter().map(move |bytes| with_room(bytes, sheet.numbers.len() + 1, sheet.starts.len() + 1))
    })
}

/// Sheets with counts at the limits and one past them, with exact room, one less and one more.
fn at_limits() -> impl Iterator<Item = Input> {
    let sizes = [
        (0, 0, 0),
        (3, 4, 9),
        (196_608, 196_608, 1),
        (196_609, 196_609, 1),
        (1, 1_048_576, 1),
        (1, 1_048_577, 1),
        (2, 5, 196_608),
        (2, 5, 196_609),
        (0, 0, 196_608),
        (0, 0, 196_609),
    ];
    sizes.into_iter().flat_map(|(strokes, points, vertices): (usize, usize, u32)| {
        let sheet = Sheet { mode: 2, vertices, starts: (0..strokes as u32).collect(), numbers: vec![0; points] };
        let bytes = bytes_of(&sheet);
        let rooms = [(0, 0), (-1, 0), (0, -1), (1, 1)];
        rooms.map(|(p, s)| with_room(bytes.clone(), points.saturating_add_signed(p), strokes.saturating_add_signed(s)))
    })
}

/// What the rules say that the call leaves: bytes that are no sheet come before missing room.
pub fn judged(input: &Input) -> Left<u32> {
    let lent = &input.lent;
    let Some(sheet) = reading::sheet(&input.bytes) else { return lent.refused(reading::SHEET) };
    let (points, starts) = (sheet.numbers.len(), sheet.starts.len());
    if lent.points.len() < points || lent.starts.len() < starts {
        return lent.refused(reading::ROOM);
    }
    let counts = vec![points, starts, sheet.mode as usize, sheet.vertices as usize];
    let mut left = Left { status: 0, counts, lent: lent.clone() };
    left.lent.points[..points].copy_from_slice(&sheet.numbers);
    left.lent.starts[..starts].copy_from_slice(&sheet.starts);
    left
}

/// What the port leaves. A sheet that it reads is written by the port again, and must be the same bytes.
fn port(input: &Input) -> Left<u32> {
    let mut lent = input.lent.clone();
    let answer = ramikohy::lent::read_sheet(&input.bytes, &mut lent.points, &mut lent.starts);
    if let Ok(read) = answer {
        let mut again = vec![7; input.bytes.len()];
        let (numbers, starts) = (&lent.points[..read.points], &lent.starts[..read.starts]);
        let wrote = ramikohy::lent::write_sheet(read.mode, read.vertices, numbers, starts, &mut again);
        assert_eq!((wrote, &again), (Ok(input.bytes.len()), &input.bytes));
    }
    let counts = answer.map(|read| [read.points, read.starts, read.mode as usize, read.vertices as usize]);
    super::left(counts, lent)
}

/// Runs the port beside the rules.
pub fn run(count: u64, seed: u64) -> Seen {
    super::run(all_small().chain(at_limits()), make, judged, port, (count, seed))
}
