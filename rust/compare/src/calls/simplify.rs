//! `simplify`: strokes on coordinates, with the points that are near enough to a line left out.

use super::strokes::{bits_of, coordinates, paths_of, split, table};
use super::{Left, Lent, any_pattern, dirty, patterns, room};
use crate::random::Random;
use crate::runs::Seen;

#[derive(Clone, Debug)]
pub struct Input {
    pub points: Vec<f64>,
    pub starts: Vec<u32>,
    pub threshold: f64,
    /// Points lent, as the bits of their coordinates.
    pub lent: Lent<u64>,
}

/// A random input, its room about as much as it needs.
pub fn make(random: &mut Random) -> Input {
    let count = random.below(12);
    let points = coordinates(random, count);
    let starts = table(random, points.len() / 3);
    on(random, points, starts)
}

/// The same on one stroke whose distances are level or next to it.
fn make_near(random: &mut Random) -> Input {
    let count = random.below(40);
    let points = near(random, count);
    on(random, points, vec![0])
}

/// A random input on these strokes.
fn on(random: &mut Random, points: Vec<f64>, starts: Vec<u32>) -> Input {
    let thresholds = [0.0, 0.25, 0.5, 1.0, 2.0, f64::INFINITY, -0.0, -1.0, -1e-300, f64::NAN];
    let pick = if random.once_in(4) { random.below(thresholds.len()) } else { random.below(6) };
    let lengths = [0, room(random, points.len() / 3) * 3, room(random, starts.len())];
    let lent = dirty(random, lengths, any_pattern);
    Input { points, starts, threshold: thresholds[pick], lent }
}

/// Points along the axes from the first, this way and that, whose squared lengths lie a few f64 apart: some have one root.
fn near(random: &mut Random, points: usize) -> Vec<f64> {
    let scale = random.one_of(&[1.0, 1.5, 1.42, 2.0f64.powi(-537), 3e-162]) * (1.0 + random.unit());
    let mut list = vec![0.0; points * 3];
    for (i, point) in list.chunks_exact_mut(3).enumerate().skip(1) {
        let length = f64::from_bits(scale.to_bits() + random.below(6) as u64);
        point[random.below(3)] = if random.once_in(2) { length } else { -length };
        // a second coordinate whose square is some last digits of the first's
        if random.once_in(3) {
            point[i % 3] += scale * 2f64.powi(-26) * random.below(4) as f64;
        }
    }
    list
}

/// What the rules and the original say that the call leaves. The count of distances is that of the rule: each call on
/// three points or more measures all but its ends.
pub fn judged(input: &Input) -> Left<u64> {
    use original::eps_1e9::vector::Vector;
    let Input { points, starts, threshold, lent } = input;
    let status = crate::reading::simplify(points, starts, *threshold, lent.points.len() / 3, lent.starts.len());
    if status != 0 {
        return lent.refused(status);
    }
    let strokes = split(points, starts, 3);
    let vectors = |s: &Vec<f64>| s.chunks_exact(3).map(|p| Vector::new(p[0], p[1], p[2])).collect::<Vec<_>>();
    let measured = strokes.iter().map(|s| measured(&vectors(s), *threshold)).sum();
    let simplified = paths_of!(eps_1e9, strokes).simplify(*threshold);
    lent.accepted(&bits_of!(simplified), 3, &[measured])
}

/// How many distances the rule measures.
fn measured(path: &[original::eps_1e9::vector::Vector], threshold: f64) -> usize {
    if path.len() < 3 {
        return 0;
    }
    let last = path.len() - 1;
    let (mut index, mut farthest) = (0, 0.0);
    for i in 1..last {
        let d = path[i].segment_distance(path[0], path[last]);
        if d > farthest {
            (index, farthest) = (i, d);
        }
    }
    let here = last - 1;
    if farthest > threshold {
        here + measured(&path[..=index], threshold) + measured(&path[index..], threshold)
    } else {
        here
    }
}

/// What the port leaves.
fn port(input: &Input) -> Left<u64> {
    let (mut room, mut starts) = (super::numbers(&input.lent.points), input.lent.starts.clone());
    let answer = ramikohy::lent::simplify(&input.points, &input.starts, input.threshold, &mut room, &mut starts);
    let counts = answer.map(|wrote| [wrote.points, wrote.starts, wrote.distances]);
    super::left(counts, Lent { points: patterns(&room), starts, ..input.lent.clone() })
}

/// Runs the port beside the original.
pub fn run(count: u64, seed: u64) -> Seen {
    let any = |random: &mut Random| if random.once_in(4) { make_near(random) } else { make(random) };
    super::run(std::iter::empty(), any, judged, port, (count, seed))
}
