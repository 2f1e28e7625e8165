//! The calls on lent buffers: what the rules and the original say that each leaves, to the last element.
//!
//! A module a call. Each has an input, a maker of random inputs, and `judged`: what the rules (read plainly, in
//! [`crate::reading`]) and the original say of that input. A call that the archive has is run beside it by
//! [`crate::runs`]; the others are tried against the worked cases of the rules alone.

pub mod adaptive;
pub mod chop;
pub mod contour;
pub mod draw;
pub mod mesh;
pub mod read_sheet;
pub mod read_stl;
pub mod section;
pub mod simplify;
pub mod splice;
pub mod strokes;
pub mod weld;
pub mod write_sheet;
pub mod write_stl;

use crate::random::Random;
use crate::runs::Seen;
use ramikohy::Refusal;
use std::fmt::Debug;

/// What a call is lent to write to: scratch of words and of numbers (by their bits), room for points and starts, and
/// the place of a face, which a drawing alone has. A weld's room is for vertices and indices, and a file's for bytes.
#[derive(Clone, PartialEq, Debug)]
pub struct Lent<P> {
    pub scratch: Vec<u32>,
    pub numbers: Vec<u64>,
    pub points: Vec<P>,
    pub starts: Vec<u32>,
    pub face: Option<u32>,
}

/// Nothing.
impl<P> Default for Lent<P> {
    fn default() -> Self {
        Lent { scratch: Vec::new(), numbers: Vec::new(), points: Vec::new(), starts: Vec::new(), face: None }
    }
}

/// What a call leaves: its status, its counts (points, starts, and what else it reports), and all that it was lent.
#[derive(Clone, PartialEq, Debug)]
pub struct Left<P> {
    pub status: u32,
    pub counts: Vec<usize>,
    pub lent: Lent<P>,
}

impl<P: Copy> Lent<P> {
    /// A refusal changes nothing and carries nothing.
    pub fn refused(&self, status: u32) -> Left<P> {
        Left { status, counts: Vec::new(), lent: self.clone() }
    }

    /// A refusal for a face changes the place of that face alone.
    pub fn refused_for(&self, status: u32, face: u32) -> Left<P> {
        Left { status, counts: Vec::new(), lent: Lent { face: Some(face), ..self.clone() } }
    }

    /// An accepted call lays the strokes out at the start of its room, leaves the rest of it alone, and clears scratch.
    /// A point takes `width` places; an empty stroke is not written.
    pub fn accepted(&self, strokes: &[Vec<P>], width: usize, more: &[usize]) -> Left<P> {
        let mut lent = self.clone();
        let (mut at, mut starts) = (0, 0);
        for stroke in strokes.iter().filter(|s| !s.is_empty()) {
            lent.starts[starts] = (at / width) as u32;
            lent.points[at..at + stroke.len()].copy_from_slice(stroke);
            (at, starts) = (at + stroke.len(), starts + 1);
        }
        lent.scratch.fill(0);
        lent.numbers.fill(0);
        Left { status: 0, counts: [&[at / width, starts], more].concat(), lent }
    }
}

/// What a call left that answered so; the face that a refusal carries stands in its place.
pub fn left<P, const N: usize>(answer: Result<[usize; N], Refusal>, lent: Lent<P>) -> Left<P> {
    match answer {
        Ok(counts) => Left { status: 0, counts: counts.to_vec(), lent },
        Err(why) => {
            let face = why.face().or(lent.face);
            Left { status: why.number(), counts: Vec::new(), lent: Lent { face, ..lent } }
        }
    }
}

/// What a place for a number may hold before a call: any pattern, and for one word in four a NaN: quiet or signalling, of either sign,
/// with any payload. What a call does not write must stay so to the last bit.
pub fn any_pattern(word: u64) -> u64 {
    if word.is_multiple_of(4) { word | 0x7FF0_0000_0000_0004 } else { word }
}

/// The patterns of what a call leaves.
pub fn patterns(numbers: &[f64]) -> Vec<u64> {
    numbers.iter().map(|x| x.to_bits()).collect()
}

/// Coordinates lent by their bits, as numbers.
pub fn numbers(bits: &[u64]) -> Vec<f64> {
    bits.iter().map(|&word| f64::from_bits(word)).collect()
}

/// A call on buffers that the archive has, by its name and its run.
pub struct Linked {
    pub name: &'static str,
    pub run: fn(u64, u64) -> Seen,
}

/// The calls that the archive has. A call is added here when its function is linked.
pub const LINKED: &[Linked] = &[
    Linked { name: "splice", run: splice::run },
    Linked { name: "chop", run: chop::run },
    Linked { name: "chop_adaptive", run: adaptive::run },
    Linked { name: "simplify", run: simplify::run },
    Linked { name: "weld", run: weld::run },
    Linked { name: "section", run: section::run },
    Linked { name: "contour", run: contour::run },
    Linked { name: "draw", run: draw::run },
    Linked { name: "write_sheet", run: write_sheet::run },
    Linked { name: "read_sheet", run: read_sheet::run },
    Linked { name: "write_stl", run: write_stl::run },
    Linked { name: "read_stl", run: read_stl::run },
];

/// Runs a call on the inputs that are tried always and on `count` random ones, and compares all that the port leaves.
pub fn run<I: Debug, P: PartialEq + Debug>(
    always: impl Iterator<Item = I>,
    make: fn(&mut Random) -> I,
    judged: fn(&I) -> Left<P>,
    port: fn(&I) -> Left<P>,
    (count, seed): (u64, u64),
) -> Seen {
    let mut seen = Seen::default();
    let mut random = Random::new(seed);
    for input in always.chain((0..count).map(|_| make(&mut random))) {
        let (theirs, ours) = (judged(&input), port(&input));
        seen.case(theirs.status, theirs == ours, || format!("{input:?}: {theirs:?} but {ours:?}"));
    }
    seen
}

/// Room for a call that needs `need`: exactly as much, more, or now and then too little.
pub fn room(random: &mut Random, need: usize) -> usize {
    match random.below(8) {
        0 => need.saturating_sub(1 + random.below(3)),
        1..=3 => need,
        _ => need + 1 + random.below(5),
    }
}

/// Dirty buffers of these lengths.
pub fn dirty<P>(random: &mut Random, lengths: [usize; 3], point: impl Fn(u64) -> P) -> Lent<P> {
    let mut words = |n: usize| (0..n).map(|_| random.bits() as u32).collect();
    let (scratch, starts) = (words(lengths[0]), words(lengths[2]));
    let points = (0..lengths[1]).map(|_| point(random.bits())).collect();
    Lent { scratch, points, starts, ..Lent::default() }
}
