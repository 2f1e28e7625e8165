//! `chop_adaptive`: strokes on coordinates, halved until the pieces are short on the screen.

use super::strokes::{bits, bits_of, coordinates, paths_of, split, table};
use super::{Left, Lent, any_pattern, dirty, patterns, room};
use crate::random::Random;
use crate::reading;
use crate::runs::Seen;

/// The tolerances for which the original is built.
pub const TOLERANCES: [f64; 3] = [1e-9, 1e-6, 0.25];

#[derive(Clone, Debug)]
pub struct Input {
    pub points: Vec<f64>,
    pub starts: Vec<u32>,
    pub matrix: [f64; 16],
    pub width: f64,
    pub height: f64,
    pub step: f64,
    pub tolerance: f64,
    /// Points lent, as the bits of their coordinates.
    pub lent: Lent<u64>,
}

/// A random input, its room about as much as it needs.
pub fn make(random: &mut Random) -> Input {
    let count = random.below(8);
    let points = coordinates(random, count);
    let starts = table(random, points.len() / 3);
    let steps = [1.0, 2.0, 2.5, 0.1, 0.0, 1048577.0, f64::NAN, 1e-30];
    let mut pick = |good: usize, list: &[f64]| {
        let among = if random.once_in(8) { list.len() } else { good };
        list[random.below(among)]
    };
    let step = pick(4, &steps);
    let [width, height] = [(); 2].map(|()| pick(3, &[10.0, 3.0, 0.0, 1048577.0, -1.0, f64::NAN]));
    let tolerance = pick(3, &[1e-9, 1e-6, 0.25, 1e-60, 1e-60, 0.0, 1.0, f64::NAN]);
    let mut matrix = [0.0; 16];
    (matrix[0], matrix[5], matrix[10], matrix[15]) = (1.0, 1.0, 1.0, 1.0);
    if random.once_in(2) {
        matrix.iter_mut().for_each(|x| *x += random.unit() - 0.5);
    }
    if random.once_in(16) {
        matrix[random.below(16)] = random.one_of(&[f64::NAN, 1048577.0, 0.0]);
    }
    let lent = dirty(random, [0, 1 << 14, 64], any_pattern);
    let mut input = Input { points, starts, matrix, width, height, step, tolerance, lent };
    let written = if status_before(&input) == 0 { walked(&input) } else { Err(0) };
    let (points, strokes) = match written {
        Ok((strokes, _)) => (strokes.iter().map(|s| s.len() / 3).sum(), strokes.len()),
        Err(_) => (random.below(64), 64),
    };
    let lengths = [0, room(random, points) * 3, room(random, strokes)];
    input.lent = dirty(random, lengths, any_pattern);
    input
}

/// What it is refused for before the walk: 1, 2 and 4.
fn status_before(input: &Input) -> u32 {
    let status = reading::cut(&input.points, &input.starts, input.step);
    let fits = reading::view_fits(&input.matrix, input.width, input.height, input.tolerance);
    if status == 0 && !fits { reading::NUMBER } else { status }
}

/// A position on the screen, in the original's order of operations.
fn seen(m: &[f64; 16], p: [f64; 3]) -> [f64; 3] {
    let row = |i: usize| m[4 * i] * p[0] + m[4 * i + 1] * p[1] + m[4 * i + 2] * p[2] + m[4 * i + 3];
    let w = row(3);
    [row(0) / w, row(1) / w, row(2) / w]
}

fn square(a: [f64; 3], b: [f64; 3]) -> f64 {
    let d = [a[0] - b[0], a[1] - b[1], a[2] - b[2]];
    d[0] * d[0] + d[1] * d[1] + d[2] * d[2]
}

/// The walk: the strokes so far, how many points they have, and the halvings.
struct Walk<'a> {
    input: &'a Input,
    strokes: Vec<Vec<u64>>,
    points: usize,
    halvings: usize,
}

impl Walk<'_> {
    fn point(&mut self, p: [f64; 3]) -> Result<(), u32> {
        self.points += 1;
        if self.points * 3 > self.input.lent.points.len() || self.points > reading::MOST_POINTS {
            return Err(reading::ROOM);
        }
        self.strokes.last_mut().unwrap().extend(p.map(bits));
        Ok(())
    }

    /// A stroke's first point comes with its start.
    fn first_point(&mut self, p: [f64; 3]) -> Result<(), u32> {
        self.strokes.push(Vec::new());
        if self.strokes.len() > self.input.lent.starts.len() { Err(reading::ROOM) } else { self.point(p) }
    }

    fn span(&mut self, a: [f64; 3], b: [f64; 3], depth: u32) -> Result<(), u32> {
        let input = self.input;
        let (sa, sb) = (seen(&input.matrix, a), seen(&input.matrix, b));
        let outside = sa[0] < 0.0 && sb[0] < 0.0
            || sa[1] < 0.0 && sb[1] < 0.0
            || sa[0] > input.width && sb[0] > input.width
            || sa[1] > input.height && sb[1] > input.height;
        if outside || square(sa, sb) < input.step * input.step || square(a, b) < input.tolerance {
            return self.point(b);
        }
        if depth == 0 {
            return Err(reading::DEEP);
        }
        self.halvings += 1;
        let middle = [0, 1, 2].map(|i| (a[i] + b[i]) * 0.5);
        self.span(a, middle, depth - 1)?;
        self.span(middle, b, depth - 1)
    }
}

/// What a cut comes to by the rules: its strokes, as bits, and its halvings; or the refusal that the walk meets first.
pub fn walked(input: &Input) -> Result<(Vec<Vec<u64>>, usize), u32> {
    let mut walk = Walk { input, strokes: Vec::new(), points: 0, halvings: 0 };
    for stroke in split(&input.points, &input.starts, 3).iter().filter(|s| !s.is_empty()) {
        let points: Vec<[f64; 3]> = stroke.chunks_exact(3).map(|p| [p[0], p[1], p[2]]).collect();
        walk.first_point(points[0])?;
        points.windows(2).try_for_each(|w| walk.span(w[0], w[1], 64))?;
    }
    Ok((walk.strokes, walk.halvings))
}

/// What the rules and the original say that the call leaves. The strokes are the original's where it is built for the
/// tolerance, and those of the rules' walk otherwise; the counts and refusals are the rules'.
pub fn judged(input: &Input) -> Left<u64> {
    let status = status_before(input);
    if status != 0 {
        return input.lent.refused(status);
    }
    match walked(input) {
        Err(status) => input.lent.refused(status),
        Ok((strokes, halvings)) => {
            let strokes = if TOLERANCES.contains(&input.tolerance) { cut_by_original(input) } else { strokes };
            input.lent.accepted(&strokes, 3, &[halvings])
        }
    }
}

/// The original's cut, by the build that has this tolerance.
fn cut_by_original(input: &Input) -> Vec<Vec<u64>> {
    macro_rules! cut {
        ($original:ident) => {{
            use original::$original::{matrix::Matrix, shape::RenderArgs, vector::Vector};
            let [x00, x01, x02, x03, x10, x11, x12, x13, x20, x21, x22, x23, x30, x31, x32, x33] = input.matrix;
            let args = RenderArgs {
                screen_mat: Matrix { x00, x01, x02, x03, x10, x11, x12, x13, x20, x21, x22, x23, x30, x31, x32, x33 },
                eye: Vector::default(),
                up: Vector::default(),
                width: input.width,
                height: input.height,
                step: input.step,
            };
            let paths = paths_of!($original, split(&input.points, &input.starts, 3));
            bits_of!(paths.chop_adaptive(&args))
        }};
    }
    match TOLERANCES.iter().position(|&t| t == input.tolerance) {
        Some(0) => cut!(eps_1e9),
        Some(1) => cut!(eps_1e6),
        Some(2) => cut!(eps_quarter),
        _ => panic!("the original is not built for this tolerance"),
    }
}

/// What the port leaves.
fn port(input: &Input) -> Left<u64> {
    let (mut room, mut starts) = (super::numbers(&input.lent.points), input.lent.starts.clone());
    let Input { matrix, width, height, step, tolerance, .. } = *input;
    let view = ramikohy::View { matrix: ramikohy::Matrix(matrix), width, height, step, tolerance };
    let answer = ramikohy::lent::chop_adaptive(&input.points, &input.starts, &view, &mut room, &mut starts);
    let counts = answer.map(|wrote| [wrote.points, wrote.starts, wrote.halvings]);
    super::left(counts, Lent { points: patterns(&room), starts, ..input.lent.clone() })
}

/// Runs the port beside the original.
pub fn run(count: u64, seed: u64) -> Seen {
    super::run(std::iter::empty(), make, judged, port, (count, seed))
}
