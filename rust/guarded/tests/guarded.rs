//! Every C function over inputs good, damaged and refused, in memory where any touch outside of what is lent dies.

use guarded::buffer::Slice;
use guarded::call::{Answer, Call};
use guarded::files::{bytes_of, read_stl_of, write_stl_of};
use guarded::meshes::{contour_of, draw_of};
use guarded::pages::Side;
use guarded::rows::{self, Row};
use guarded::source::{Source, Strokes, random_bytes};
use guarded::strokes::{chop_of, splice_of};
use guarded::{CALLS, arithmetic, largest};
use ramikohy::Sight;
use std::collections::{BTreeMap, BTreeSet};
use std::os::unix::process::ExitStatusExt;
use std::path::Path;
use std::process::Command;

/// The inputs of each function.
const COUNT: u64 = 2000;

/// The statuses that each function met over random bytes.
fn tried() -> BTreeMap<&'static str, BTreeSet<u32>> {
    let mut met: BTreeMap<_, BTreeSet<u32>> = BTreeMap::new();
    for (maker, make) in arithmetic::MAKERS.iter().chain(&CALLS).enumerate() {
        for i in 0..COUNT {
            let bytes = random_bytes(maker as u64 * COUNT + i, 400);
            let mut source = Source::new(&bytes);
            let short = source.byte() as usize;
            let call = make(&mut source);
            met.entry(call.name).or_default().insert(call.try_all(short));
        }
    }
    met
}

/// The refusals that the random bytes do not come to by themselves: too short a buffer is tried of every accepted call, and what
/// is above a limit in `the_largest_calls_do_too`.
#[test]
fn every_function_keeps_to_what_it_is_lent() {
    let met = tried();
    let statuses = |name: &str| met[name].iter().copied().collect::<Vec<_>>();
    assert_eq!(statuses("ramikohy_normalize"), [0, 255]);
    assert_eq!(statuses("ramikohy_sqrt"), [0, 4]);
    assert_eq!(statuses("ramikohy_chop"), [0, 1, 2, 4, 6]);
    assert_eq!(statuses("ramikohy_splice"), [0, 1, 2]);
    assert_eq!(statuses("ramikohy_chop_adaptive"), [0, 1, 2, 4, 6, 8]);
    assert_eq!(statuses("ramikohy_simplify"), [0, 1, 2, 4]);
    assert_eq!(statuses("ramikohy_weld"), [0, 1, 4]);
    assert_eq!(statuses("ramikohy_section"), [0, 1, 3, 4]);
    assert_eq!(statuses("ramikohy_contour"), [0, 1, 3, 4]);
    assert_eq!(statuses("ramikohy_draw"), [0, 1, 3, 4, 7, 10]);
    assert_eq!(statuses("ramikohy_write_sheet"), [0, 1, 2, 3, 4]);
    assert_eq!(statuses("ramikohy_read_sheet"), [0, 9]);
    assert_eq!(statuses("ramikohy_read_stl"), [0, 4, 11]);
    assert_eq!(statuses("ramikohy_write_stl"), [0, 1, 3, 4]);
}

#[test]
fn every_function_of_the_header_is_tried() {
    let header = Path::new(env!("CARGO_MANIFEST_DIR")).join("../../include/ramikohy.h");
    let text = std::fs::read_to_string(header).unwrap();
    let named = |part: &str| part.split('(').next().filter(|name| !name.contains(' ')).map(|n| format!("ramikohy_{n}"));
    let declared: BTreeSet<String> = text.split(" ramikohy_").skip(1).filter_map(named).collect();
    let makers = arithmetic::MAKERS.iter().chain(&CALLS);
    let names: Vec<&str> = makers.flat_map(|make| make(&mut Source::new(&[])).name.split(' ')).collect();
    assert_eq!(names.len(), declared.len());
    assert!(names.iter().all(|name| declared.contains(*name)), "{names:?} but {declared:?}");
}

#[test]
fn the_largest_calls_do_too() {
    for large in largest::all() {
        assert_eq!(large.call.try_all(0), large.status, "{}: {}", large.call.name, large.what);
    }
}

/// What the fuzzer kept, the fewest inputs that cover what it covered: each meets the status that it met.
#[test]
fn the_fuzzers_inputs_do_too() {
    let corpus = Path::new(env!("CARGO_MANIFEST_DIR")).join("../../fuzz/corpus.txt");
    let text = std::fs::read_to_string(corpus).unwrap();
    let rows: Vec<Row> = text.lines().map(|line| rows::read(line).expect(line)).collect();
    for row in &rows {
        assert_eq!(guarded::one(&row.bytes), (row.name.as_str(), row.status));
    }
    assert!(rows.len() > 100);
}

/// Two strokes that join.
fn two() -> Call {
    splice_of(&Strokes { points: vec![1, 2, 2, 3], starts: vec![0, 2] }, 2)
}

/// The same call with something done to it: `work` has the function itself and its buffers.
fn altered(work: impl Fn(&Call, &[Slice]) -> Answer + Send + Sync + 'static) -> Call {
    Call { work: Box::new(move |b| work(&two(), b)), ..two() }
}

/// Tells splice that a buffer is one word longer than it is, at a side where an unreadable page lies.
fn lie(buffer: usize, side: Side) {
    let call = altered(move |splice, b| {
        let mut told = b.to_vec();
        told[buffer] = told[buffer].longer(4, side);
        (splice.work)(&told)
    });
    call.guarded(&call.buffers, side);
}

/// The lies that are told: of the points, of scratch and of the room, at the end and at the start.
const LIES: [(usize, Side); 5] = [(0, Side::End), (0, Side::Start), (2, Side::End), (2, Side::Start), (3, Side::Start)];

/// The guard pages catch: told that a buffer is one element longer than it is, the call dies. Each lie is told by this test again, as
/// a process of its own; one that tells none lives.
#[test]
fn guard_pages_catch() {
    if let Ok(number) = std::env::var("GUARDED_LIE") {
        match LIES.get(number.parse::<usize>().unwrap()) {
            Some(&(buffer, side)) => return lie(buffer, side),
            None => return assert_eq!(two().try_all(0), 0),
        }
    }
    let ended = |number: usize| {
        let mut child = Command::new(std::env::current_exe().unwrap());
        child.args(["--exact", "guard_pages_catch"]).env("GUARDED_LIE", number.to_string());
        child.output().unwrap().status
    };
    for (number, told) in LIES.iter().enumerate() {
        assert!(matches!(ended(number).signal(), Some(7 | 11)), "{told:?}");
    }
    assert!(ended(LIES.len()).success());
}

/// Whether the call is found wrong.
fn is_seen(call: Call) -> bool {
    std::panic::catch_unwind(std::panic::AssertUnwindSafe(|| call.try_all(0))).is_err()
}

/// A check that cannot fail shows nothing: a function that is wrong in one way is seen, each.
#[test]
fn a_wrong_function_is_seen() {
    let poke = |b: &[Slice], at: usize, k: usize| {
        // SAFETY: the buffer has more than k words.
        unsafe { *b[at].to::<u32>().add(k) += 1 };
    };
    let poked = |at: usize, k: usize| {
        altered(move |splice, b| {
            let answer = (splice.work)(b);
            poke(b, at, k);
            answer
        })
    };
    let refused = |status: u32, pokes: bool| {
        altered(move |_, b| {
            (0..pokes as usize).for_each(|k| poke(b, 3, k));
            Answer { status, value: 0 }
        })
    };
    assert!(!is_seen(two()));
    assert!(is_seen(poked(0, 3)), "an input changed");
    assert!(is_seen(poked(2, 17)), "scratch is not zero");
    assert!(is_seen(poked(3, 1)), "another pair is drawn");
    assert!(is_seen(poked(3, 5)), "room past what is written changed");
    assert!(is_seen(poked(5, 0)), "a count too high");
    assert!(is_seen(refused(3, false)), "a refusal that splice has not");
    assert!(!is_seen(refused(6, false)), "a refusal that splice has");
    assert!(is_seen(refused(6, true)), "a refusal that changes something");
    assert!(is_seen(refused(0, false)), "nothing done");
}

/// A square of two faces and a third face, drawn in a mode.
fn with_third(third: [u32; 3], mode: u32) -> Call {
    let vertices = [0.0, 0.0, 0.0, 1.0, 0.0, 0.0, 1.0, 1.0, 0.0, 0.0, 1.0, 0.0, 2.0, 0.0, 0.0];
    let sight = Sight { mode, cos_theta: 0.0, eye: [0.0, 0.0, 5.0], tolerance: 1e-9 };
    draw_of(&vertices, &[&[0, 1, 2, 0, 2, 3][..], &third].concat(), &[], sight, 1)
}

/// The same with another answer, and something else in the place of a face.
fn told(third: [u32; 3], mode: u32, status: Option<u32>, face: Option<u32>) -> Call {
    let work = move |b: &[Slice]| {
        let answer = (with_third(third, mode).work)(b);
        // SAFETY: it is the place of a face.
        face.iter().for_each(|&face| unsafe { *b[10].to() = face });
        Answer { status: status.unwrap_or(answer.status), ..answer }
    };
    Call { work: Box::new(work), ..with_third(third, mode) }
}

/// The wrong face, or a face where none belongs, is seen.
#[test]
fn a_wrong_face_is_seen() {
    let (twice, line) = ([1, 1, 2], [0, 1, 4]);
    assert_eq!([twice, line].map(|third| with_third(third, 2).try_all(0)), [7, 10]);
    assert!(!is_seen(told(twice, 1, None, None)));
    assert!(is_seen(told(twice, 1, None, Some(2))), "a face with an accepted drawing");
    assert!(is_seen(told(twice, 2, Some(4), None)), "a face with a refusal that carries none");
    assert!(is_seen(told(twice, 2, None, Some(u32::MAX))), "a face that there is not");
    assert!(is_seen(told(twice, 2, None, Some(1))), "another face");
    assert!(is_seen(told(line, 2, None, Some(3))), "one past the last");
    assert!(is_seen(told(line, 2, None, Some(0))), "a face that has a normal");
    assert!(is_seen(told(twice, 2, Some(10), None)), "two corners alike as three");
    assert!(is_seen(told(line, 2, Some(7), None)), "three corners as two alike");
}

/// A file of one face is read; its last corner is the first but for the sign of a zero.
fn one_read() -> Call {
    read_stl_of(&bytes_of(&[-0.0, 0.0, 0.0, 1.0, 0.0, 0.0, 0.0, 0.0, 0.0], 0xFF), 1)
}

/// That face is written.
fn one_written() -> Call {
    write_stl_of(&[-0.0, 0.0, 0.0, 1.0, 0.0, 0.0], &[0, 1, 0], 1)
}

/// A file that is cut off anywhere is none, and nothing behind the cut is read.
#[test]
fn a_file_that_is_cut_off_is_none() {
    let file = bytes_of(&[0.5; 18], 0xFF);
    assert_eq!(read_stl_of(&file, 1).try_all(0), 0);
    for len in 0..file.len() {
        assert_eq!(read_stl_of(&file[..len], 1).try_all(0), 11, "{len} bytes");
    }
}

/// A call that turns a bit of a buffer when it is done.
fn turned(of: fn() -> Call, buffer: usize, bit: usize) -> Call {
    let work = move |b: &[Slice]| {
        let answer = (of().work)(b);
        // SAFETY: the buffer has more bits.
        unsafe { *b[buffer].to::<u8>().add(bit / 8) ^= 1 << (bit % 8) };
        answer
    };
    Call { work: Box::new(work), ..of() }
}

/// A file or a mesh that is wrong in one bit is seen.
#[test]
fn a_wrong_file_is_seen() {
    assert!(!is_seen(one_read()) && !is_seen(one_written()));
    assert!(is_seen(turned(one_read, 2, 63)), "a zero without its sign");
    assert!(is_seen(turned(one_read, 2, 192)), "another vertex");
    assert!(is_seen(turned(one_read, 3, 64)), "a corner at another vertex");
    assert!(is_seen(turned(one_read, 3, 33)), "an index of no vertex");
    assert!(is_seen(turned(one_read, 4, 0)), "a vertex too many");
    assert!(is_seen(turned(one_written, 2, 0)), "a header that is not zero");
    assert!(is_seen(turned(one_written, 2, 8 * 80 + 1)), "another count");
    assert!(is_seen(turned(one_written, 2, 8 * 84)), "a normal that is not zero");
    assert!(is_seen(turned(one_written, 2, 8 * 100 - 1)), "a zero without its sign");
    assert!(is_seen(turned(one_written, 2, 8 * 108)), "another corner");
    assert!(is_seen(turned(one_written, 2, 8 * 133)), "bytes after the face that are not zero");
}

/// Two faces that share an edge, cut to one stroke of three points.
fn one_cut() -> Call {
    let vertices = [0.0, 0.0, -1.0, 0.0, 0.0, 1.0, 1.0, 0.0, -1.0, 0.0, 1.0, -1.0];
    contour_of(&vertices, &[0, 1, 2, 1, 0, 3], [[0.0; 3], [0.0, 0.0, 1.0]], 1e-9, 1)
}

/// An outline that is wrong in one bit is seen.
#[test]
fn a_wrong_outline_is_seen() {
    assert!(!is_seen(one_cut()));
    assert!(is_seen(turned(one_cut, 4, 32 * 20)), "scratch of words is not zero");
    assert!(is_seen(turned(one_cut, 5, 64 * 9 + 63)), "scratch of numbers is -0");
    assert!(is_seen(turned(one_cut, 6, 64 * 2 + 63)), "a -0");
    assert!(is_seen(turned(one_cut, 6, 64 * 9)), "room past what is written changed");
    assert!(is_seen(turned(one_cut, 7, 0)), "another start");
    assert!(is_seen(turned(one_cut, 8, 0)), "a point too few");
    assert!(is_seen(turned(one_cut, 9, 0)), "no stroke");
}

/// A chop that rewrites the first NaN of its room with the same value, in another pattern: refused, and accepted with that room past
/// what it writes.
#[test]
fn a_nan_that_changes_its_pattern_is_seen() {
    fn chop(room: usize) -> Call {
        chop_of(&Strokes { points: vec![0.0, 0.0, 0.0, 1.0, 0.0, 0.0], starts: vec![0] }, 0.5, [room, 1])
    }
    let quiet = |room: usize, at: usize| Call {
        work: Box::new(move |b| {
            let answer = (chop(room).work)(b);
            // SAFETY: the room has more than `at` numbers.
            unsafe { *b[2].to::<u64>().add(at) |= 1 << 51 };
            answer
        }),
        ..chop(room)
    };
    assert!(!is_seen(chop(2)) && !is_seen(chop(5)));
    assert!(is_seen(quiet(2, 0)), "a refusal that changes a NaN's pattern");
    assert!(is_seen(quiet(5, 10)), "a NaN's pattern past what is written");
}
