//! `weld`: corners that lie near each other become one vertex.

use super::strokes::bits;
use super::{Left, Lent, any_pattern, dirty, patterns, room};
use crate::crowded;
use crate::random::Random;
use crate::runs::Seen;
use crate::torus;

#[derive(Clone, Debug)]
pub struct Input {
    /// Nine numbers a face.
    pub corners: Vec<f64>,
    /// Room for vertices, as the bits of their coordinates, and for indices.
    pub lent: Lent<u64>,
}

/// A random input: corners some parts of the cell's width apart, around places where cells change.
pub fn make(random: &mut Random) -> Input {
    let faces = random.below(7);
    let part = random.one_of(&[1e-7, 2.5e-7, 3e-7, 5e-7, 1e-6]);
    let about = random.one_of(&[0.0, 1.0, -1.0, 1000.0, -1048575.5]);
    let spread = 1 + random.below(9);
    let mut corners: Vec<f64> =
        (0..faces * 9).map(|_| about + (random.below(spread) as f64 - (spread / 2) as f64) * part).collect();
    if random.once_in(12) && !corners.is_empty() {
        let at = random.below(corners.len());
        corners[at] = random.one_of(&[-0.0, 1048576.0, -1048576.0, 1048576.0000000002, f64::NAN, f64::INFINITY]);
    }
    if random.once_in(16) {
        corners.pop();
    }
    let lengths = [12 * faces, 3 * faces, 3 * faces].map(|n| room(random, n));
    let lent = dirty(random, [lengths[0], lengths[1] * 3, lengths[2]], any_pattern);
    Input { corners, lent }
}

/// A number whose difference from others like it is the limit or a few f64 from it, or so small that its square is subnormal.
fn brink(random: &mut Random) -> f64 {
    let about: f64 = random.one_of(&[0.0, 1e-6, 1e-6, 7e-7, 5e-7, 1e-160, 1e-162, 5e-324]);
    let off = random.below(7) as i64 - 3;
    let x = f64::from_bits((about.to_bits() as i64 + off).max(0) as u64);
    random.one_of(&[x, -x])
}

/// The same; one in four by such numbers, and one in four around a few places whose cells share a bucket, with long ways to some
/// of them.
fn make_crowded(random: &mut Random) -> Input {
    let mut input = make(random);
    if random.once_in(4) {
        input.corners.iter_mut().for_each(|x| *x = brink(random));
    } else if random.once_in(3) {
        let low = random.one_of(&[0, 3, 16]);
        let places: Vec<[f64; 3]> = (0..1 + random.below(18)).map(|_| crowded::in_first_bucket(random, low)).collect();
        let part = random.one_of(&[2.5e-7, 5e-7, 1e-6]);
        for corner in input.corners.chunks_exact_mut(3) {
            let place = random.one_of(&places);
            corner.copy_from_slice(&place.map(|x| x + (random.below(7) as f64 - 3.0) * part));
        }
    }
    input
}

/// The torus of the benchmarks, with the most faces that a call takes, and with one more; a small one jittered by less than a
/// cell; and corners made for the table.
fn always() -> impl Iterator<Item = Input> {
    let torus = torus::wavy(256, 128).corners();
    let over = [&torus[..], &torus[..3]].concat();
    let mut random = Random::new(9);
    let mut jittered = torus::wavy(24, 12).corners();
    jittered.as_flattened_mut().iter_mut().for_each(|x| *x += (random.unit() - 0.5) * 1.5e-6);
    let crowded = [crowded::one_bucket(6144, 0), crowded::one_bucket(6144, 12), crowded::long_ways(6144)];
    [torus, over, jittered].into_iter().chain(crowded).map(|corners| Input {
        lent: Lent {
            scratch: vec![7; 4 * corners.len()],
            points: vec![5; 3 * corners.len()],
            starts: vec![9; corners.len()],
            ..Lent::default()
        },
        corners: corners.concat(),
    })
}

/// What the rules and the original say that the call leaves.
pub fn judged(input: &Input) -> Left<u64> {
    use original::eps_1e9::{mesh, vector::Vector};
    let Input { corners, lent } = input;
    let status = crate::reading::weld(corners, lent.scratch.len(), lent.points.len(), lent.starts.len());
    if status != 0 {
        return lent.refused(status);
    }
    let corners: Vec<Vector> = corners.chunks_exact(3).map(|p| Vector::new(p[0], p[1], p[2])).collect();
    let (vertices, indices) = mesh::weld(&corners);
    let mut lent = lent.clone();
    for (place, x) in lent.points.iter_mut().zip(vertices.iter().flat_map(|v| [v.x, v.y, v.z])) {
        *place = bits(x);
    }
    for (place, &i) in lent.starts.iter_mut().zip(&indices) {
        *place = i as u32;
    }
    lent.scratch.fill(0);
    Left { status: 0, counts: vec![vertices.len(), indices.len()], lent }
}

/// What the port leaves.
fn port(input: &Input) -> Left<u64> {
    let (mut room, mut lent) = (super::numbers(&input.lent.points), input.lent.clone());
    let answer = ramikohy::lent::weld(&input.corners, &mut lent.scratch, &mut room, &mut lent.starts);
    lent.points = patterns(&room);
    super::left(answer.map(|wrote| [wrote.vertices, wrote.indices]), lent)
}

/// Runs the port beside the original.
pub fn run(count: u64, seed: u64) -> Seen {
    super::run(always(), make_crowded, judged, port, (count, seed))
}
