//! `chop`: strokes on coordinates, cut into steps.

use super::strokes::{bits_of, coordinates, paths_of, split, table};
use super::{Left, Lent, any_pattern, dirty, patterns, room};
use crate::random::Random;
use crate::reading;
use crate::runs::Seen;

#[derive(Clone, Debug)]
pub struct Input {
    pub points: Vec<f64>,
    pub starts: Vec<u32>,
    pub step: f64,
    /// Points lent, as the bits of their coordinates.
    pub lent: Lent<u64>,
}

/// A random input, its room about as much as it needs.
pub fn make(random: &mut Random) -> Input {
    let count = random.below(8);
    let points = coordinates(random, count);
    let starts = table(random, points.len() / 3);
    let steps = [0.25, 0.3, 1.0, 2.5, 1048576.0, 0.0, -0.0, -1.0, f64::NAN, 1048577.0, 1e-6, 1e-300];
    let pick = match random.below(300) {
        0 => random.below(steps.len()),
        1..=50 => random.below(steps.len() - 2),
        _ => random.below(5),
    };
    let mut input = Input { points, starts, step: steps[pick], lent: dirty(random, [0; 3], any_pattern) };
    let written = cut(&input).unwrap_or_default();
    let strokes = written.iter().filter(|n| **n > 0).count();
    let lengths = [0, room(random, written.iter().sum()) * 3, room(random, strokes)];
    input.lent = dirty(random, lengths, any_pattern);
    input
}

/// How many points each stroke comes to; none if the input is refused by 1, 2 or 4, or they are too many.
fn cut(input: &Input) -> Option<Vec<usize>> {
    if reading::cut(&input.points, &input.starts, input.step) != 0 {
        return None;
    }
    let mut all = 0;
    let mut counts = Vec::new();
    for stroke in split(&input.points, &input.starts, 3) {
        let points: Vec<&[f64]> = stroke.chunks_exact(3).collect();
        let mut count = usize::from(points.len() > 1);
        for w in points.windows(2) {
            let square = |i: usize| (w[1][i] - w[0][i]) * (w[1][i] - w[0][i]);
            let length = (square(0) + square(1) + square(2)).sqrt();
            let mut d = input.step;
            while d < length && all + count <= reading::MOST_POINTS {
                count += 1;
                d += input.step;
            }
            count += 1;
        }
        all += count;
        if all > reading::MOST_POINTS {
            return None;
        }
        counts.push(count);
    }
    Some(counts)
}

/// What the rules and the original say that the call leaves.
pub fn judged(input: &Input) -> Left<u64> {
    let Input { points, starts, step, lent } = input;
    let status = reading::cut(points, starts, *step);
    if status != 0 {
        return lent.refused(status);
    }
    let Some(counts) = cut(input) else { return lent.refused(reading::ROOM) };
    let strokes = counts.iter().filter(|n| **n > 0).count();
    if counts.iter().sum::<usize>() * 3 > lent.points.len() / 3 * 3 || strokes > lent.starts.len() {
        return lent.refused(reading::ROOM);
    }
    let chopped = paths_of!(eps_1e9, split(points, starts, 3)).chop(*step);
    lent.accepted(&bits_of!(chopped), 3, &[])
}

/// What the port leaves.
fn port(input: &Input) -> Left<u64> {
    let (mut room, mut starts) = (super::numbers(&input.lent.points), input.lent.starts.clone());
    let answer = ramikohy::lent::chop(&input.points, &input.starts, input.step, &mut room, &mut starts);
    let counts = answer.map(|wrote| [wrote.points, wrote.starts]);
    super::left(counts, Lent { points: patterns(&room), starts, ..input.lent.clone() })
}

/// Runs the port beside the original.
pub fn run(count: u64, seed: u64) -> Seen {
    super::run(std::iter::empty(), make, judged, port, (count, seed))
}
