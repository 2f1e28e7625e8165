//! The stored rows, worked out by the archive as it is compiled for this machine. (The program `replay` works them out
//! by the proved crate itself.) These need no original.

use compare::arithmetic::FUNCTIONS;
use compare::rows;
use std::path::Path;

fn stored() -> String {
    stored_for("replay")
}

/// What a program is run on.
fn stored_for(program: &str) -> String {
    let crates = Path::new(env!("CARGO_MANIFEST_DIR")).join("../../crates");
    std::fs::read_to_string(crates.join(program).join("stdin")).unwrap()
}

/// Whether a row is one of the arithmetic; those of the calls are replayed by the program alone.
fn of_arithmetic(line: &&str) -> bool {
    u64::from_str_radix(line.split(' ').next().unwrap(), 16).is_ok_and(|number| number as usize <= FUNCTIONS.len())
}

fn agrees(line: &str) -> bool {
    rows::read(line).is_some_and(|(function, operands, answer)| function.same(answer, (function.port)(&operands)))
}

#[test]
fn every_stored_answer_is_the_archives() {
    let text = stored();
    let mut counts = vec![0; FUNCTIONS.len()];
    for line in text.lines().filter(of_arithmetic) {
        assert!(agrees(line), "{line}");
        counts[usize::from_str_radix(&line[..2], 16).unwrap() - 1] += 1;
    }
    assert!(counts.iter().all(|&n| n >= 300), "{counts:?}");
    assert!(counts[0] >= 1000);
}

/// A comparison that cannot fail shows nothing: each row with one bit of its last word changed is seen. (A NaN is
/// answered by every pattern of a NaN, and a refusal has no last word of its own.)
#[test]
fn a_damaged_answer_is_seen() {
    let mut seen = 0;
    for line in stored().lines().filter(of_arithmetic) {
        let (function, _, answer) = rows::read(line).unwrap();
        let last = answer.values[function.values - 1];
        if answer.status == 0 && (function.name == "floor" || !f64::from_bits(last).is_nan()) {
            assert!(!agrees(&format!("{}{:016x}", &line[..line.len() - 16], last ^ 1)), "{line}");
            seen += 1;
        }
    }
    assert!(seen > 5000);
}

/// The rows are what the maker makes, so anyone can make them again.
#[test]
#[cfg(original)]
fn the_stored_rows_are_the_makers() {
    let programs = [
        ("", "replay"),
        ("strokes", "replay_strokes"),
        ("meshes", "replay_meshes"),
        ("sheets", "replay_sheets"),
        ("stl", "replay_stl"),
    ];
    for (word, program) in programs {
        let made = std::process::Command::new(env!("CARGO_BIN_EXE_rows")).arg(word).output().unwrap();
        assert!(made.status.success());
        assert_eq!(String::from_utf8(made.stdout).unwrap(), stored_for(program));
    }
}
