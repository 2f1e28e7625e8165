//! `splice`: strokes on vertex numbers, joined where their ends are equal.

use super::strokes::{split, table};
use super::{Left, Lent, dirty, room};
use crate::random::Random;
use crate::runs::Seen;
use std::collections::BTreeMap;

#[derive(Clone, Debug)]
pub struct Input {
    pub points: Vec<u32>,
    pub starts: Vec<u32>,
    pub lent: Lent<u32>,
}

/// A random input: few different numbers, so that many ends are equal.
pub fn make(random: &mut Random) -> Input {
    let (most, kinds) = if random.once_in(50) { (400, 60) } else { (16, 6) };
    let kinds = 1 + random.below(kinds);
    let points: Vec<u32> = (0..random.below(most)).map(|_| random.below(kinds) as u32).collect();
    let starts = table(random, points.len());
    let lengths = [8 * starts.len(), points.len(), starts.len()].map(|n| room(random, n));
    let lent = dirty(random, lengths, |bits| bits as u32);
    Input { points, starts, lent }
}

/// Every choice of `n` from a list.
fn choices<T: Clone>(list: &[T], n: usize) -> Vec<Vec<T>> {
    let mut all = vec![Vec::new()];
    for _ in 0..n {
        all = all
            .iter()
            .flat_map(|some| list.iter().map(|one| [&some[..], std::slice::from_ref(one)].concat()))
            .collect();
    }
    all
}

/// Every list of up to four strokes of up to two points on three numbers, with room for all of it.
pub fn all_small() -> impl Iterator<Item = Input> {
    let strokes: Vec<Vec<u32>> = (0..3).flat_map(|n| choices(&[0, 1, 2], n)).collect();
    (0..5).flat_map(move |n| choices(&strokes, n)).map(|list| of_strokes(&list))
}

/// Lists at the limits of strokes and of points, and one past them.
fn at_limits() -> impl Iterator<Item = Input> {
    let sizes = [(196_608, 3), (196_609, 3), (2, 1_048_576), (2, 1_048_577)];
    sizes.into_iter().map(|(strokes, points)| {
        let (scratch, room, starts) = (vec![7; 8 * strokes], vec![5; points], vec![9; strokes]);
        Input {
            points: vec![1; points],
            starts: (0..strokes).map(|i| i.min(points) as u32).collect(),
            lent: Lent { scratch, points: room, starts, ..Lent::default() },
        }
    })
}

/// These strokes, with just the room that they need, and something in it.
pub fn of_strokes(strokes: &[Vec<u32>]) -> Input {
    let starts: Vec<u32> = (0..strokes.len()).map(|i| strokes[..i].iter().map(|s| s.len() as u32).sum()).collect();
    let points = strokes.concat();
    let [words, room] = [8 * starts.len(), points.len()];
    let (scratch, room, marks) = (vec![7; words], vec![5; room], vec![9; starts.len()]);
    let lent = Lent { scratch, points: room, starts: marks, ..Lent::default() };
    Input { points, starts, lent }
}

/// What the rules and the original say that the call leaves.
pub fn judged(input: &Input) -> Left<u32> {
    use original::eps_1e9::path::Paths;
    let Input { points, starts, lent } = input;
    let status = crate::reading::splice(points, starts, lent.scratch.len(), lent.points.len(), lent.starts.len());
    if status != 0 {
        return lent.refused(status);
    }
    let mut paths = Paths::new();
    for stroke in split(points, starts, 1) {
        paths.new_path().extend(stroke);
    }
    let spliced: Vec<Vec<u32>> = paths.splice_exact().iter_paths().map(|p| p.to_vec()).collect();
    lent.accepted(&spliced, 1, &[])
}

/// What must hold of every accepted splice: each pair of neighbours is drawn as often as before, and a vertex ends one open
/// stroke if an odd number of strokes' ends met there, and none otherwise; so fewer open strokes there cannot be.
pub fn is_sound(input: &Input, left: &Left<u32>) -> bool {
    joins(&split(&input.points, &input.starts, 1), left)
}

/// The same of strokes that were joined to what an accepted call left.
pub fn joins(before: &[Vec<u32>], left: &Left<u32>) -> bool {
    let [points, starts] = [left.counts[0], left.counts[1]];
    joined(before, &split(&left.lent.points[..points], &left.lent.starts[..starts], 1))
}

/// The same of strokes of any points, before and after.
pub fn joined<P: Ord + Copy>(before: &[Vec<P>], after: &[Vec<P>]) -> bool {
    let odd: Vec<P> = ends(before).into_iter().filter(|(_, n)| n % 2 == 1).map(|(v, _)| v).collect();
    let open = ends(after);
    pairs(before) == pairs(after) && open.values().all(|&n| n == 1) && open.keys().copied().eq(odd)
}

/// How often each undirected pair of neighbours is drawn.
fn pairs<P: Ord + Copy>(strokes: &[Vec<P>]) -> BTreeMap<(P, P), usize> {
    let mut bag = BTreeMap::new();
    for w in strokes.iter().flat_map(|s| s.windows(2)) {
        *bag.entry((w[0].min(w[1]), w[0].max(w[1]))).or_default() += 1;
    }
    bag
}

/// How many ends of open strokes each vertex has.
fn ends<P: Ord + Copy>(strokes: &[Vec<P>]) -> BTreeMap<P, usize> {
    let mut bag = BTreeMap::new();
    for s in strokes.iter().filter(|s| s.first() != s.last()) {
        *bag.entry(s[0]).or_default() += 1;
        *bag.entry(s[s.len() - 1]).or_default() += 1;
    }
    bag
}

/// What the port leaves. What must hold of every accepted splice is asked of it too.
fn port(input: &Input) -> Left<u32> {
    let mut lent = input.lent.clone();
    let Lent { scratch, points, starts, .. } = &mut lent;
    let answer = ramikohy::lent::splice(&input.points, &input.starts, scratch, points, starts);
    let left = super::left(answer.map(|wrote| [wrote.points, wrote.starts]), lent);
    assert!(left.status != 0 || is_sound(input, &left), "{input:?}");
    left
}

/// Runs the port beside the original.
pub fn run(count: u64, seed: u64) -> Seen {
    super::run(all_small().chain(at_limits()), make, judged, port, (count, seed))
}
