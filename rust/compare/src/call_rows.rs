//! Stored rows of the calls on lent lists: an input, and what the rules and the original say that the call leaves, one to a
//! line. The programs `replay`, `replay_strokes`, `replay_meshes`, `replay_sheets` and `replay_stl` work them out by the proved crates.
//!
//! A row is words of hexadecimal digits with one space between: the call's number, the status, how many numbers each
//! list of the input has, the other numbers, the lists and, where the status is 0, the counts and what was written;
//! where it is 7 or 10, the face. Every list that is lent has [`LENT`] elements; a drawing's and a contour's have their
//! own lengths, `DRAWN` and `CONTOURED`, and of those lent to a call on files the row says how long they are.

use crate::calls::strokes::bits;
use crate::calls::{Left, Lent, adaptive, chop, contour, draw, read_sheet, read_stl, section};
use crate::calls::{simplify, splice, weld, write_sheet, write_stl};
use crate::random::Random;

/// The elements of each list that a row's call is lent.
pub const LENT: usize = 96;

/// The points and starts that reading a sheet is lent.
const READ: [usize; 2] = [10, 3];

/// The words, numbers, points and starts that a drawing is lent: scratch for five faces, and room for four.
const DRAWN: [usize; 4] = [330, 22, 27, 13];

/// The words, numbers, coordinates and starts that a contour is lent: scratch for sixteen faces, and room for
/// thirteen.
const CONTOURED: [usize; 4] = [260, 130, 80, 13];

/// The most words that a row may have: what the programs hold.
const MOST_WORDS: usize = 247;

/// How many rows each call has.
const ROWS: usize = 300;

/// How many rows more have a span that is halved too often, which few random inputs have.
const DEEP_ROWS: usize = 20;

/// How many rows more have a flat face, of each kind.
const FLAT_ROWS: usize = 30;

/// Every row of a call that `replay` is run on, the same each time.
pub fn rows() -> Vec<String> {
    let mut random = Random::new(2);
    let mut all = Vec::new();
    all.extend(made(&mut random, chop_row));
    all.extend(made(&mut random, splice_row));
    all
}

/// Every row that `replay_meshes` is run on, the same each time. They have numbers of their own.
pub fn mesh_rows() -> Vec<String> {
    let mut random = Random::new(4);
    let mut all = Vec::new();
    all.extend(made(&mut random, draw_row));
    all.extend(made(&mut random, weld_row));
    all.extend(made(&mut random, section_row));
    all.extend(made(&mut random, alike_row).into_iter().take(FLAT_ROWS));
    all.extend(made(&mut random, no_length_row).into_iter().take(FLAT_ROWS));
    all.extend(made(&mut random, contour_row));
    all
}

/// Every row that `replay_strokes` is run on, the same each time. They have numbers of their own.
pub fn stroke_rows() -> Vec<String> {
    let mut random = Random::new(3);
    let mut all = Vec::new();
    all.extend(made(&mut random, simplify_row));
    all.extend(made(&mut random, adaptive_row));
    all.extend(made(&mut random, deep_row).into_iter().take(DEEP_ROWS));
    all
}

/// Every row that `replay_sheets` is run on, the same each time. They have numbers of their own.
pub fn sheet_rows() -> Vec<String> {
    let mut random = Random::new(5);
    let mut all = Vec::new();
    all.extend(made(&mut random, write_sheet_row));
    all.extend(made(&mut random, read_sheet_row));
    all
}

/// Every row that `replay_stl` is run on, the same each time. They have numbers of their own.
pub fn stl_rows() -> Vec<String> {
    let mut random = Random::new(6);
    let mut all = Vec::new();
    all.extend(made(&mut random, read_stl_row));
    all.extend(made(&mut random, write_stl_row));
    all
}

/// The first rows of random inputs that are short enough.
fn made(random: &mut Random, row: fn(&mut Random) -> Option<Vec<u64>>) -> Vec<String> {
    let short = |words: &Vec<u64>| words.len() <= MOST_WORDS;
    let text = |words: Vec<u64>| words.iter().map(|w| format!("{w:x}")).collect::<Vec<_>>().join(" ");
    std::iter::repeat_with(|| row(random)).flatten().filter(short).map(text).take(ROWS).collect()
}

/// What is lent: as long as it is in `replay`, with something in it.
fn lent<P: Copy>(fill: P) -> Lent<P> {
    Lent { scratch: vec![7; LENT], points: vec![fill; LENT], starts: vec![7; LENT], ..Lent::default() }
}

fn words(list: &[u32]) -> impl Iterator<Item = u64> + '_ {
    list.iter().map(|&x| x as u64)
}

fn byte_words(list: &[u8]) -> impl Iterator<Item = u64> + '_ {
    list.iter().map(|&b| b as u64)
}

fn reals(list: &[f64]) -> impl Iterator<Item = u64> + '_ {
    list.iter().map(|&x| bits(x))
}

/// A row of its number, the status, the sizes, the numbers and the lists; none where a list is too long for `replay`.
fn row<P: Copy + Into<u64>>(
    number: u64,
    sizes: &[usize],
    lists: Vec<u64>,
    left: &Left<P>,
    width: usize,
) -> Option<Vec<u64>> {
    if sizes.iter().any(|&n| n >= LENT) {
        return None;
    }
    let mut row = vec![number, left.status as u64];
    row.extend(sizes.iter().map(|&n| n as u64));
    row.extend(lists);
    if left.status == 0 {
        row.extend(left.counts.iter().map(|&n| n as u64));
        row.extend(left.lent.points[..left.counts[0] * width].iter().map(|&x| x.into()));
        row.extend(words(&left.lent.starts[..left.counts[1]]));
    }
    Some(row)
}

fn chop_row(random: &mut Random) -> Option<Vec<u64>> {
    let input = chop::Input { lent: lent(bits(9.0)), ..chop::make(random) };
    let lists = [bits(input.step)].into_iter().chain(reals(&input.points)).chain(words(&input.starts)).collect();
    row(21, &[input.points.len(), input.starts.len()], lists, &chop::judged(&input), 3)
}

fn splice_row(random: &mut Random) -> Option<Vec<u64>> {
    let input = splice::Input { lent: lent(7), ..splice::make(random) };
    let lists = words(&input.points).chain(words(&input.starts)).collect();
    row(22, &[input.points.len(), input.starts.len()], lists, &splice::judged(&input), 1)
}

fn draw_row(random: &mut Random) -> Option<Vec<u64>> {
    drawing_row(draw::make_any(random))
}

/// A row of status 7: the lowest flat face has two equal corners.
fn alike_row(random: &mut Random) -> Option<Vec<u64>> {
    drawing_row(draw::make_flat(random)).filter(|row| row[1] == 7)
}

/// A row of status 10: it has three.
fn no_length_row(random: &mut Random) -> Option<Vec<u64>> {
    drawing_row(draw::make_flat(random)).filter(|row| row[1] == 10)
}

/// None where two vertices have the same coordinates: the original's points have no numbers. With no place of a face before, there is
/// one afterwards where a face is at fault.
fn drawing_row(input: draw::Input) -> Option<Vec<u64>> {
    let [words_lent, numbers, points, starts] = DRAWN;
    let lent = Lent {
        scratch: vec![7; words_lent],
        numbers: vec![bits(9.0); numbers],
        points: vec![7; points],
        starts: vec![7; starts],
        face: None,
    };
    let input = draw::Input { lent, ..input };
    let (sizes, left) = ([input.vertices.len(), input.indices.len(), input.flips.len()], draw::judged(&input));
    let sight = [input.mode as u64, bits(input.cos_theta)].into_iter().chain(reals(&input.eye));
    let sight = sight.chain([bits(input.tolerance)]);
    let mesh = reals(&input.vertices).chain(words(&input.indices)).chain(words(&input.flips));
    let lists = sight.chain(mesh).chain(left.lent.face.map(u64::from)).collect();
    let told_apart = left.status != 0 || draw::all_apart(&input);
    row(1, &sizes, lists, &left, 1).filter(|_| told_apart)
}

fn weld_row(random: &mut Random) -> Option<Vec<u64>> {
    let input = weld::Input { lent: lent(bits(9.0)), ..weld::make(random) };
    row(2, &[input.corners.len()], reals(&input.corners).collect(), &weld::judged(&input), 3)
}

fn section_row(random: &mut Random) -> Option<Vec<u64>> {
    let input = section::Input { lent: lent(bits(9.0)), ..section::make(random) };
    let numbers = [bits(input.tolerance)].into_iter().chain(reals(&input.plane));
    let lists = numbers.chain(reals(&input.vertices)).chain(words(&input.indices)).collect();
    row(3, &[input.vertices.len(), input.indices.len()], lists, &section::judged(&input), 3)
}

fn contour_row(random: &mut Random) -> Option<Vec<u64>> {
    let [words_lent, numbers, points, starts] = CONTOURED;
    let lent = Lent {
        scratch: vec![7; words_lent],
        numbers: vec![bits(9.0); numbers],
        points: vec![bits(9.0); points],
        starts: vec![7; starts],
        face: None,
    };
    let input = contour::Input { lent, ..contour::make(random) };
    let numbers = [bits(input.tolerance)].into_iter().chain(reals(&input.plane));
    let lists = numbers.chain(reals(&input.vertices)).chain(words(&input.indices)).collect();
    row(4, &[input.vertices.len(), input.indices.len()], lists, &contour::judged(&input), 3)
}

fn simplify_row(random: &mut Random) -> Option<Vec<u64>> {
    let input = simplify::Input { lent: lent(bits(9.0)), ..simplify::make(random) };
    let lists = [bits(input.threshold)].into_iter().chain(reals(&input.points)).chain(words(&input.starts)).collect();
    row(1, &[input.points.len(), input.starts.len()], lists, &simplify::judged(&input), 3)
}

fn adaptive_row(random: &mut Random) -> Option<Vec<u64>> {
    walk_row(adaptive::Input { lent: lent(bits(9.0)), ..adaptive::make(random) })
}

/// A row of status 8: steps and tolerance are so small that halving does not end in time.
fn deep_row(random: &mut Random) -> Option<Vec<u64>> {
    let input = adaptive::Input { lent: lent(bits(9.0)), step: 1e-30, tolerance: 1e-60, ..adaptive::make(random) };
    walk_row(input).filter(|row| row[1] == 8)
}

fn walk_row(input: adaptive::Input) -> Option<Vec<u64>> {
    let numbers = reals(&input.matrix).chain([input.width, input.height, input.step, input.tolerance].map(bits));
    let lists = numbers.chain(reals(&input.points)).chain(words(&input.starts)).collect();
    row(2, &[input.points.len(), input.starts.len()], lists, &adaptive::judged(&input), 3)
}

fn write_sheet_row(random: &mut Random) -> Option<Vec<u64>> {
    let input = write_sheet::Input { lent: write_sheet::lent(vec![7; LENT]), ..write_sheet::make(random) };
    let left = write_sheet::judged(&input);
    let sizes = [input.numbers.len(), input.starts.len()].map(|n| n as u64);
    let mut row = [[1, left.status as u64], sizes, [input.mode as u64, input.vertices as u64]].concat();
    row.extend(words(&input.numbers).chain(words(&input.starts)));
    row.extend(written(&left));
    Some(row).filter(|_| input.numbers.len() < LENT && input.starts.len() < LENT)
}

/// The count of bytes that a call wrote, and the bytes; nothing where it was refused.
fn written(left: &Left<u8>) -> Vec<u64> {
    let bytes = |&count: &usize| [count as u64].into_iter().chain(byte_words(&left.lent.points[..count]));
    left.counts.iter().flat_map(bytes).collect()
}

fn read_sheet_row(random: &mut Random) -> Option<Vec<u64>> {
    let [points, starts] = READ;
    let lent = Lent { points: vec![7; points], starts: vec![7; starts], ..Lent::default() };
    let input = read_sheet::Input { lent, ..read_sheet::make(random) };
    row(2, &[input.bytes.len()], byte_words(&input.bytes).collect(), &read_sheet::judged(&input), 1)
}

/// As much is lent as the input came with; how many bytes the file has stands after that, since it may have more than `LENT`. Of
/// files with no face and of bytes that are no file few are taken: they are much alike.
fn read_stl_row(random: &mut Random) -> Option<Vec<u64>> {
    let input = read_stl::make(random);
    let sizes = [input.lent.scratch.len(), input.lent.points.len(), input.lent.starts.len()];
    let scratch = vec![7; sizes[0]];
    let lent = Lent { scratch, points: vec![bits(9.0); sizes[1]], starts: vec![7; sizes[2]], ..Lent::default() };
    let input = read_stl::Input { lent, ..input };
    let left = read_stl::judged(&input);
    let alike = input.bytes.len() == 84 || left.status == 11;
    let lists = [input.bytes.len() as u64].into_iter().chain(byte_words(&input.bytes)).collect();
    row(1, &sizes, lists, &left, 3).filter(|_| !alike || random.once_in(4))
}

/// The same of meshes with no face.
fn write_stl_row(random: &mut Random) -> Option<Vec<u64>> {
    let input = write_stl::make(random);
    let input = write_stl::Input { lent: write_sheet::lent(vec![7; input.lent.points.len()]), ..input };
    let left = write_stl::judged(&input);
    let sizes = [input.vertices.len(), input.indices.len(), input.lent.points.len()].map(|n| n as u64);
    let mut row = [&[2, left.status as u64], &sizes[..]].concat();
    row.extend(reals(&input.vertices).chain(words(&input.indices)));
    row.extend(written(&left));
    let short = input.vertices.len() < LENT && input.indices.len() < LENT && input.lent.points.len() <= MOST_WORDS;
    Some(row).filter(|_| short && (!input.indices.is_empty() || random.once_in(4)))
}
