//! Differential runs: the same inputs to both sides, and everything that comes back compared.

use crate::arithmetic::{FUNCTIONS, Function, MOST_OPERANDS};
use crate::numbers::SPECIAL;
use crate::random::Random;
use std::collections::BTreeMap;

/// What a run came to.
#[derive(Debug, Default)]
pub struct Seen {
    pub cases: u64,
    /// Cases that must be refused, or answered that there is none, by their status.
    pub refused: BTreeMap<u32, u64>,
    pub differ: u64,
    /// The first case that differs, in words.
    pub first: Option<String>,
}

impl Seen {
    /// Counts a case of this status; one that differs is said in words.
    pub fn case(&mut self, status: u32, same: bool, words: impl FnOnce() -> String) {
        self.cases += 1;
        if status != 0 {
            *self.refused.entry(status).or_default() += 1;
        }
        if !same {
            self.differ += 1;
            self.first.get_or_insert_with(words);
        }
    }
}

impl std::fmt::Display for Seen {
    fn fmt(&self, f: &mut std::fmt::Formatter<'_>) -> std::fmt::Result {
        let by_status: Vec<String> = self.refused.iter().map(|(status, count)| format!("{status}: {count}")).collect();
        write!(f, "{} cases, {} without a value", self.cases, self.refused.values().sum::<u64>())?;
        if !by_status.is_empty() {
            write!(f, " ({})", by_status.join(", "))?;
        }
        write!(f, ", {} differ", self.differ)?;
        self.first.iter().try_for_each(|case| write!(f, "\n  first: {case}"))
    }
}

/// The names of all calls that can be compared.
pub fn names() -> Vec<&'static str> {
    #[cfg(not(original))]
    let calls: [&str; 0] = [];
    #[cfg(original)]
    let calls: Vec<&str> = crate::calls::LINKED.iter().map(|call| call.name).collect();
    FUNCTIONS.iter().map(|f| f.name).chain(calls.iter().copied()).collect()
}

/// Runs a call by its name on `count` inputs and those that are tried always; none if there is no such call.
pub fn run(name: &str, count: u64, seed: u64) -> Option<Seen> {
    #[cfg(original)]
    if let Some(call) = crate::calls::LINKED.iter().find(|call| call.name == name) {
        return Some((call.run)(count, seed));
    }
    FUNCTIONS.iter().find(|f| f.name == name).map(|f| run_function(f, count, seed))
}

/// Runs a function of the arithmetic: on every choice of special numbers where its operands are few, with their
/// neighbours where it has one, and then on `count` random inputs.
pub fn run_function(function: &Function, count: u64, seed: u64) -> Seen {
    let mut seen = Seen::default();
    let mut operands = [0.0; MOST_OPERANDS];
    match function.operands {
        1 => {
            SPECIAL.iter().flat_map(|x| [*x, x.next_up(), x.next_down()]).for_each(|x| judge(function, &[x], &mut seen))
        }
        3 => triples().for_each(|p| judge(function, &p, &mut seen)),
        _ => {}
    }
    let mut random = Random::new(seed);
    for _ in 0..count {
        function.fill(&mut random, &mut operands);
        judge(function, &operands[..function.operands], &mut seen);
    }
    seen
}

/// Every choice of three special numbers.
fn triples() -> impl Iterator<Item = [f64; 3]> {
    let all = || SPECIAL.iter().copied();
    all().flat_map(move |x| all().flat_map(move |y| all().map(move |z| [x, y, z])))
}

/// One case.
#[cfg(original)]
fn judge(function: &Function, operands: &[f64], seen: &mut Seen) {
    let (theirs, ours) = ((function.original)(operands), (function.port)(operands));
    seen.case(theirs.status, function.same(theirs, ours), || format!("{operands:?}: {theirs:x?} but {ours:x?}"));
}

/// Where the original is missing there is nothing to judge by.
#[cfg(not(original))]
fn judge(_: &Function, _: &[f64], _: &mut Seen) {}
