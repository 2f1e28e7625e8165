//! Corners made for the table of a weld (crates/mesh_weld/specs/InnerTable): coarse cells that share a bucket, and
//! cells whose way through the tree of their bucket is long. Those of f32 are what a file can hold.

use crate::random::Random;
use std::sync::OnceLock;

type Point = [f64; 3];
type Cell = [u64; 3];

const SIDE: f64 = 1e-6;
/// How many cells wide a coarse cell is, and the number of the cell that begins at 0.
const WIDE: u64 = 2;
const ZERO: u64 = 1 << 54;
/// The coarse cell of 0, and how far from it the cells of a coordinate are taken, of some 524,000,000,000.
const HOME: u64 = ZERO / WIDE;
const FAR: u64 = 450_000_000_000;
/// How far every coarse cell holds an f32: up to 32 they lie nearer to each other than a coarse cell is wide.
const DENSE: u64 = 15_900_000;
const PRIME: u64 = 4_294_967_291;
const TIMES: [u64; 3] = [625_341_585, 461_845_907, 668_265_263];

fn coarse(p: Point) -> Cell {
    p.map(|x| ((x / SIDE).floor() as i64 + ZERO as i64) as u64 / WIDE)
}

fn folded(c: u64) -> u64 {
    (c % (1 << 32) + c / (1 << 32)) % (1 << 32)
}

fn hash([x, y, z]: Cell) -> u64 {
    (folded(x) * TIMES[0] + folded(y) * TIMES[1] + folded(z) * TIMES[2]) % PRIME
}

/// Where a coarse cell begins.
fn from(cell: u64) -> f64 {
    (cell * WIDE).wrapping_sub(ZERO) as i64 as f64 * SIDE
}

/// A point in the midst of a coarse cell, where a coordinate can lie so.
fn within(cell: Cell) -> Option<Point> {
    let p = cell.map(|c| from(c) + SIDE);
    (coarse(p) == cell && p.iter().all(|x| x.abs() <= 1048576.0)).then_some(p)
}

/// The nearest f32 to each coordinate.
fn singles(p: Point) -> Point {
    p.map(|x| x as f32 as f64)
}

/// A point of f32 in a coarse cell, where it holds one.
fn singles_within(cell: Cell) -> Option<Point> {
    within(cell).map(singles).filter(|&p| coarse(p) == cell)
}

/// A number to a power, by the prime.
fn power(base: u64, n: u64) -> u64 {
    (0..64).rev().fold(1, |r, k| {
        let square = r as u128 * r as u128 % PRIME as u128;
        let times = if n >> k & 1 == 1 { base as u128 } else { 1 };
        (square * times % PRIME as u128) as u64
    })
}

/// A corner whose coarse cell has the hash 0, and so bucket 0 of any number: x and y at random, so far, but for their
/// lowest bits, which are zero, and z solved for, until there is such a corner.
fn solved(random: &mut Random, low: u32, far: u64, within: fn(Cell) -> Option<Point>) -> Point {
    let share = power(TIMES[2], PRIME - 2);
    loop {
        let [x, y] = [(); 2].map(|_| (HOME + random.below(far as usize) as u64) >> low << low);
        let left = PRIME - hash([x, y, 0]);
        let z = (left as u128 * share as u128 % PRIME as u128) as u64;
        let high = HOME >> 32;
        let cell = [x, y, (high << 32) + (z.wrapping_sub(high) & 0xffff_ffff)];
        if let Some(p) = within(cell).filter(|_| hash(cell) == 0) {
            return p;
        }
    }
}

pub fn in_first_bucket(random: &mut Random, low: u32) -> Point {
    solved(random, low, FAR, within)
}

pub fn singles_in_first_bucket(random: &mut Random, low: u32) -> Point {
    solved(random, low, DENSE, singles_within)
}

pub fn one_bucket(count: usize, low: u32) -> Vec<Point> {
    let mut random = Random::new(5);
    (0..count).map(|_| in_first_bucket(&mut random, low)).collect()
}

pub fn singles_in_one_bucket(count: usize, low: u32) -> Vec<Point> {
    let mut random = Random::new(5);
    (0..count).map(|_| singles_in_first_bucket(&mut random, low)).collect()
}

/// A corner of a coarse cell that shares a bucket of `buckets` with `home`, and the first `bits` bits of its way.
fn beside(random: &mut Random, home: Cell, buckets: usize, bits: usize) -> Point {
    let bucket = |cell: Cell| (hash(cell) as usize * buckets) >> 32;
    let kept = [bits + 2, bits + 1, bits].map(|b| (1 << (b / 3)) - 1);
    loop {
        let cell = [0, 1, 2].map(|a| {
            let any = HOME - FAR + random.bits() % (2 * FAR);
            any & !kept[a] | home[a] & kept[a]
        });
        if let Some(p) = within(cell).filter(|_| bucket(cell) == bucket(home)) {
            return p;
        }
    }
}

/// Steps from a coarse cell that keep the first `bits` bits of its way and, since the hash is a sum, nearly always its
/// bucket. None goes so far on an axis; flat ones leave x as it is.
fn steps(random: &mut Random, bits: usize, flat: bool, far: u64) -> Vec<Cell> {
    let shift = [if flat { 63 } else { (bits + 2) / 3 }, (bits + 1) / 3, bits / 3];
    let any = |random: &mut Random| shift.map(|s| (random.bits() % far) >> s << s);
    let near = |cell: &Cell| hash(*cell).min(PRIME - hash(*cell)) < 2_000 && *cell != [0; 3];
    (0..30_000_000).map(|_| any(random)).filter(near).take(8).collect()
}

/// Such steps for each number of bits, the fewest first.
fn mixed_steps() -> &'static [Vec<Cell>] {
    static MADE: OnceLock<Vec<Vec<Cell>>> = OnceLock::new();
    let mut random = Random::new(77);
    MADE.get_or_init(|| (0..92).map(|bits| steps(&mut random, bits, false, FAR / 2)).collect())
}

fn flat_steps() -> &'static [Vec<Cell>] {
    static MADE: OnceLock<Vec<Vec<Cell>>> = OnceLock::new();
    let mut random = Random::new(78);
    MADE.get_or_init(|| (0..80).map(|bits| steps(&mut random, bits, true, FAR / 2)).collect())
}

/// Those to coarse cells that hold an f32; with more bits there are next to none.
fn dense_steps() -> &'static [Vec<Cell>] {
    static MADE: OnceLock<Vec<Vec<Cell>>> = OnceLock::new();
    let mut random = Random::new(80);
    MADE.get_or_init(|| (0..51).map(|bits| steps(&mut random, bits, false, DENSE - 1000)).collect())
}

/// Steps of multiples of 2^32 coarse cells: they keep the first 96 bits of a way and, by their hash, often its bucket.
fn far_steps() -> Vec<Cell> {
    let wide = |k: usize| [k % 243, k / 243 % 243, k / 243 / 243].map(|j| j as i64 - 121);
    let sum = |j: &[i64; 3]| (0..3).map(|a| j[a] * TIMES[a] as i64).sum::<i64>().rem_euclid(PRIME as i64) as u64;
    let near = |j: &[i64; 3]| sum(j).min(PRIME - sum(j)) < 10_900 && *j != [0; 3];
    (0..243 * 243 * 243).map(wide).filter(near).map(|j| j.map(|j| (j << 32) as u64)).collect()
}

/// Strangers on the ways to the eight coarse cells about a place: one for each list of steps that has one in the bucket. Those that
/// share the fewest bits come first: each then stays on the way.
fn strangers(middle: Cell, buckets: usize, steps: &[Vec<Cell>]) -> Vec<Point> {
    let bucket = |cell: Cell| (hash(cell) as usize * buckets) >> 32;
    let turned = |step: &Cell| [1, u64::MAX].map(|sign| step.map(|s| s.wrapping_mul(sign)));
    let mut found = vec![];
    for d in 0..8 {
        let home = [0, 1, 2].map(|a| middle[a] - (d >> a & 1));
        let beside = |step: Cell| [0, 1, 2].map(|a| home[a].wrapping_add(step[a]));
        let on_way = |steps: &Vec<Cell>| {
            let cells = steps.iter().flat_map(turned).map(beside);
            cells.filter(|&cell| bucket(cell) == bucket(home)).find_map(within)
        };
        found.extend(steps.iter().filter_map(on_way));
    }
    found
}

/// The vertices of eight coarse cells about a corner, as full as they can lie.
fn packed(centre: Point) -> impl Iterator<Item = Point> {
    let grid = |i: i32| [i % 10 - 5, i / 10 % 10 - 5, i / 100 - 5];
    let part = 1.0002 * SIDE / 2f64.sqrt();
    (0..1000).map(grid).filter(|k| k.iter().sum::<i32>() % 2 == 0).map(move |k| beside_by(centre, k, part))
}

/// The point some parts away from another.
fn beside_by(centre: Point, parts: [i32; 3], part: f64) -> Point {
    [0, 1, 2].map(|a| centre[a] + (parts[a] as f64 + 0.3) * part)
}

/// The k-th of the corners in the midst of eight packed cells.
fn amid(centre: Point, k: usize) -> Point {
    beside_by(centre, [(k % 7) as i32, (k / 7 % 5) as i32, 0], 1e-7)
}

/// Eight coarse cells about a corner, as full as vertices lie, with ways of 90 vertices to each; and all other corners in their
/// midst, so that each looks through all eight.
pub fn long_ways(count: usize) -> Vec<Point> {
    let mut random = Random::new(6);
    let middle = [(); 3].map(|_| HOME + random.below(1_000_000) as u64);
    let centre = middle.map(from);
    let mut corners = vec![];
    for d in 0..8 {
        let home = [0, 1, 2].map(|a| middle[a] - (d >> a & 1));
        corners.extend((0..90).map(|bits| beside(&mut random, home, 2 * count, bits)));
    }
    corners.extend(packed(centre));
    corners.extend((0..count - corners.len()).map(|k| amid(centre, k)));
    corners
}

/// The lists' corners, each in its own order, the lists in a mixed one.
fn mixed(random: &mut Random, mut lists: Vec<Vec<Point>>) -> Vec<Point> {
    let mut corners = vec![];
    lists.iter_mut().for_each(|list| list.reverse());
    while !lists.is_empty() {
        let place = random.below(lists.len());
        match lists[place].pop() {
            Some(corner) => corners.push(corner),
            None => drop(lists.swap_remove(place)),
        }
    }
    corners
}

/// Packed cells at each of these places behind their strangers, the places in a mixed order, so that each step of a
/// look is far from the last; and all other corners in their midst.
fn asked_mixed(random: &mut Random, count: usize, middles: &[Cell], past: impl Fn(Cell) -> Vec<Point>) -> Vec<Point> {
    let list = |middle: &Cell| {
        let mut full: Vec<Point> = packed(middle.map(from)).collect();
        (1..full.len()).rev().for_each(|i| full.swap(i, random.below(i + 1)));
        [past(*middle), full].concat()
    };
    let lists = middles.iter().map(list).collect();
    let mut corners = mixed(random, lists);
    let more = count - corners.len();
    corners.extend((0..more).map(|k| amid(middles[random.below(middles.len())].map(from), k)));
    corners
}

/// The same at sixty places of 196,608 corners.
pub fn many_long_ways(count: usize) -> Vec<Point> {
    let mut random = Random::new(77);
    let any = |random: &mut Random| HOME + random.below(100_000_000_000) as u64 - 50_000_000_000;
    let middles: Vec<Cell> = (0..count / 3277).map(|_| [(); 3].map(|_| any(&mut random))).collect();
    asked_mixed(&mut random, count, &middles, |middle| strangers(middle, 2 * count, mixed_steps()))
}

/// Twelve vertices just near enough to a corner, as far from each other as they can lie there.
fn icosahedron(centre: Point) -> impl Iterator<Item = Point> {
    let golden = (1.0 + 5f64.sqrt()) / 2.0;
    let part = 0.956 * SIDE / (1.0 + golden * golden).sqrt();
    let sign = |odd: usize| (odd % 2 * 2) as f64 - 1.0;
    (0..12).map(move |i| {
        let mut p = [0.0, sign(i) * part, sign(i / 2) * golden * part];
        p.rotate_right(i / 4);
        [0, 1, 2].map(|a| centre[a] + p[a])
    })
}

/// What lies about a place: twelve vertices near its corner, and the eight coarse cells full besides.
fn about(centre: Point) -> Vec<Point> {
    let near: Vec<Point> = icosahedron(centre).collect();
    let apart = |p: &Point, q: &Point| (0..3).map(|a| (p[a] - q[a]).powi(2)).sum::<f64>() >= SIDE * SIDE;
    let room = |p: &Point| near.iter().all(|q| apart(p, q)) && apart(p, &centre);
    near.iter().copied().chain(packed(centre).filter(room)).collect()
}

/// Corners asked for in turn at each of these places, past its strangers.
fn asked_in_turn(count: usize, middles: &[Cell], past: impl Fn(Cell) -> Vec<Point>) -> Vec<Point> {
    let past = middles.iter().flat_map(|&middle| past(middle));
    let mut corners: Vec<Point> = past.chain(middles.iter().flat_map(|middle| about(middle.map(from)))).collect();
    let more = count - corners.len();
    corners.extend((0..more).map(|k| middles[k % middles.len()].map(from)));
    corners
}

/// Twenty-four places of 196,608 corners; x of each by `x`, y and z near 0.
fn places(count: usize, x: impl Fn(u64) -> u64) -> Vec<Cell> {
    let mut random = Random::new(79);
    let mut any = || HOME + random.below(4_000_000_000) as u64 - 2_000_000_000;
    (0..count / 8192).map(|_| [x(any()), any(), any()]).collect()
}

/// The dearest corners that were found: the longest ways, and as many near vertices as a corner can have.
pub fn longest_ways(count: usize) -> Vec<Point> {
    let far = far_steps().into_iter().map(|step| vec![step]);
    let steps: Vec<Vec<Cell>> = mixed_steps().iter().cloned().chain(far).collect();
    asked_in_turn(count, &places(count, |x| x), |middle| strangers(middle, 2 * count, &steps))
}

/// Ways past strangers whose x differs from the corner's by so little that its square is subnormal, which some processors take a
/// hundred times as long for.
pub fn subnormal_ways(count: usize) -> Vec<Point> {
    let put = |[x, y, z]: Point| [1e-160f64.copysign(x), y, z];
    let past = |middle| strangers(middle, 2 * count, flat_steps()).into_iter().map(put).collect();
    asked_in_turn(count, &places(count, |_| HOME), past)
}

/// Long ways to the cells about 0, where vertices can be near a corner with differences on one or two axes whose squares are
/// subnormal: eighteen of them, and the cells full besides.
pub fn origin_ways(count: usize) -> Vec<Point> {
    let (asked, tiny): (Point, f64) = ([1e-160; 3], 1e-310);
    let mut near: Vec<Point> = vec![];
    for (a, s) in (0..6).map(|i| (i / 2, if i % 2 == 0 { -1.0 } else { 1.0 })) {
        let mut p = [tiny; 3];
        p[a] = s * 0.9e-6;
        near.push(p);
        for t in [-1.0, 1.0] {
            let mut p = [tiny, s * 0.9999e-6, t * 0.9999e-6];
            p.rotate_right(a);
            near.push(p);
        }
    }
    let far = far_steps().into_iter().map(|step| vec![step]);
    let steps: Vec<Vec<Cell>> = mixed_steps().iter().cloned().chain(far).collect();
    let mut corners = strangers([HOME; 3], 2 * count, &steps);
    let apart = |p: &Point, q: &Point| (0..3).map(|a| (p[a] - q[a]).powi(2)).sum::<f64>() >= SIDE * SIDE;
    let full = packed([0.0; 3]).filter(|p| near.iter().chain([&asked]).all(|q| apart(p, q)));
    corners.extend(near.iter().copied().chain(full));
    corners.resize(count, asked);
    corners
}

/// The coarse cells of an axis that share the lowest 19 bits with this one and hold an f32, each with its part of the
/// hash.
fn sharing(home: u64, axis: usize) -> Vec<(u64, u64)> {
    let holds = |cell: u64| {
        let x = (from(cell) + SIDE) as f32 as f64;
        coarse([x; 3])[0] == cell
    };
    let most = FAR >> 19;
    let cells = (0..2 * most).map(|k| home + (k << 19) - (most << 19));
    cells.filter(|&cell| holds(cell)).map(|cell| (cell, folded(cell) * TIMES[axis] % PRIME)).collect()
}

/// Adds some more strangers of f32 that share the first `bits` bits of a coarse cell's way, 57 or more, and its bucket.
fn add_far(found: &mut Vec<Point>, more: usize, home: Cell, axes: [&[(u64, u64)]; 3], bits: usize, buckets: u64) {
    let kept = [bits + 2, bits + 1, bits].map(|b| (1u64 << (b / 3)) - 1);
    let share = |a: usize| axes[a].iter().copied().filter(move |(cell, _)| (cell ^ home[a]) & kept[a] == 0);
    let [xs, ys, zs]: [Vec<(u64, u64)>; 3] = [0, 1, 2].map(|a| share(a).collect());
    let bucket = |sum: u64| (sum % PRIME * buckets) >> 32;
    let (wanted, enough) = (bucket(hash(home)), found.len() + more);
    for (&(x, p), &(y, q)) in xs.iter().flat_map(|x| ys.iter().map(move |y| (x, y))) {
        let cells = zs.iter().filter(|(_, r)| bucket(p + q + r) == wanted).map(|&(z, _)| [x, y, z]);
        let points = cells.filter(|&cell| cell != home).filter_map(singles_within);
        let new: Vec<Point> = points.filter(|point| !found.contains(point)).collect();
        found.extend(new);
        if found.len() >= enough {
            return;
        }
    }
}

/// Strangers of f32 on the ways to the eight coarse cells about a place near 0: those up to 32, and behind them as
/// many, farther off, as there are that keep to a way.
fn single_strangers(middle: Cell, buckets: usize) -> Vec<Point> {
    let mut found: Vec<Point> = strangers(middle, buckets, dense_steps()).into_iter().map(singles).collect();
    let lists = [0, 1, 2].map(|a| [0, 1].map(|d| sharing(middle[a] - d, a)));
    for d in 0..8 {
        let home = [0, 1, 2].map(|a| middle[a] - (d >> a & 1));
        let axes = [0, 1, 2].map(|a| &lists[a][(d >> a & 1) as usize][..]);
        let mut far = vec![];
        for (bits, more) in [(57, 12)].into_iter().chain((58..68).map(|bits| (bits, 1))) {
            add_far(&mut far, more, home, axes, bits, buckets as u64);
        }
        found.extend(far);
    }
    found
}

/// So many places so near 0 that f32 lie there as dense as the vertices of packed cells ask for. None is below 0, where
/// the hash of a step would change on the way.
fn single_places(random: &mut Random, count: usize) -> Vec<Cell> {
    (0..count).map(|_| [(); 3].map(|_| HOME + 12 * (1 + random.below(70)) as u64)).collect()
}

/// The dearest corners of f32 that were found, asked for in turn: the longest ways, and as many near vertices as a
/// corner can have. No difference of two f32 has a subnormal square.
pub fn longest_single_ways(count: usize) -> Vec<Point> {
    let middles = single_places(&mut Random::new(81), count / 8192);
    let corners = asked_in_turn(count, &middles, |middle| single_strangers(middle, 2 * count));
    corners.into_iter().map(singles).collect()
}

/// The same ways at forty places of 196,608 corners, in a mixed order: with more of them fewer corners are asked for.
pub fn many_single_ways(count: usize) -> Vec<Point> {
    let mut random = Random::new(82);
    let middles = single_places(&mut random, count / 4900);
    let corners = asked_mixed(&mut random, count, &middles, |middle| single_strangers(middle, 2 * count));
    corners.into_iter().map(singles).collect()
}
