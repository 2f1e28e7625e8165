//! `compare CALL COUNT SEED`: runs the port beside the original and says how many answers differ. CALL is a name, or `all`.
//! Exits 0 only if the original is there and none differs.

use compare::{HAS_ORIGINAL, NO_ORIGINAL, runs};
use std::process::ExitCode;

fn main() -> ExitCode {
    let words: Vec<String> = std::env::args().skip(1).collect();
    let [call, count, seed] = words.as_slice() else { return usage() };
    let (Ok(count), Ok(seed)) = (count.parse(), seed.parse()) else { return usage() };
    if !HAS_ORIGINAL {
        eprintln!("{NO_ORIGINAL}");
        return ExitCode::FAILURE;
    }
    let calls = if call == "all" { runs::names() } else { vec![call.as_str()] };
    let mut differ = 0;
    for call in calls {
        let Some(seen) = runs::run(call, count, seed) else { return usage() };
        println!("{call}: {seen}");
        differ += seen.differ;
    }
    if differ == 0 { ExitCode::SUCCESS } else { ExitCode::FAILURE }
}

fn usage() -> ExitCode {
    eprintln!("usage: compare CALL COUNT SEED, where CALL is all or one of: {}", runs::names().join(" "));
    ExitCode::from(2)
}
