//! A short differential run of every call. Where the original is missing it says so, and `stored.rs` is what is left.

use compare::{HAS_ORIGINAL, NO_ORIGINAL, runs};

#[test]
fn every_call_answers_as_the_original() {
    if !HAS_ORIGINAL {
        println!("{NO_ORIGINAL}");
        return;
    }
    for name in runs::names() {
        let seen = runs::run(name, 2000, 42).unwrap();
        assert_eq!(seen.differ, 0, "{name}: {seen}");
        assert!(seen.cases >= 2000);
    }
}

/// The judge sees a wrong answer: the operands of a difference exchanged.
#[test]
#[cfg(original)]
fn a_wrong_answer_is_seen() {
    use compare::arithmetic::{FUNCTIONS, Function};
    let by_name = |name: &str| FUNCTIONS.iter().find(|f| f.name == name).unwrap();
    let wrong = Function { port: by_name("add").port, ..*by_name("sub") };
    assert!(runs::run_function(&wrong, 1000, 1).differ > 500);
}
