//! Memory: a call takes no more stack than its bound, and the archive calls no allocator.

use guarded::source::{Source, random_bytes};
use guarded::{CALLS, arithmetic, largest, stack};
use std::collections::BTreeMap;
use std::path::Path;
use std::process::Command;

/// The most bytes of stack that a function may take: about twice what was measured (docs/TESTING.md), so that another machine's
/// frames fit; of simplify, which takes the most, little more than was measured.
fn bound(name: &str) -> usize {
    match name {
        "ramikohy_simplify" => 400_000,
        "ramikohy_chop_adaptive" => 64 << 10,
        "ramikohy_draw" => 6 << 10,
        "ramikohy_splice" | "ramikohy_contour" => 4 << 10,
        _ => 2 << 10,
    }
}

/// The most that was seen of each function.
fn measured() -> BTreeMap<&'static str, usize> {
    let mut most = BTreeMap::new();
    let mut measure = |call: &guarded::call::Call, due: Option<u32>| {
        let (status, used) = stack::used(call, bound(call.name));
        assert!(due.is_none_or(|due| due == status), "{}: status {status}", call.name);
        let seen: &mut usize = most.entry(call.name).or_default();
        *seen = used.max(*seen);
    };
    for (maker, make) in arithmetic::MAKERS.iter().chain(&CALLS).enumerate() {
        for i in 0..30 {
            measure(&make(&mut Source::new(&random_bytes((maker * 30 + i) as u64, 400))), None);
        }
    }
    largest::all().iter().for_each(|large| measure(&large.call, Some(large.status)));
    most
}

#[test]
fn every_function_keeps_to_its_stack() {
    for (name, used) in measured() {
        println!("{name}: {used} bytes of stack, at most {}", bound(name));
        assert!(used <= bound(name), "{name}: {used} bytes of stack");
    }
}

/// What the archive takes from elsewhere: nothing that asks for memory, and nothing that ends the run.
#[test]
fn the_archive_calls_no_allocator() {
    let archive = Path::new(env!("CARGO_MANIFEST_DIR")).join("../../target/native/libramikohy.a");
    let Ok(said) = Command::new("nm").arg("--undefined-only").arg(&archive).output() else {
        return println!("skipped: there is no nm here");
    };
    assert!(said.status.success(), "{said:?}");
    let text = String::from_utf8(said.stdout).unwrap();
    let wanted: Vec<&str> = text.lines().filter_map(|line| line.trim().strip_prefix("U ")).collect();
    println!("the archive takes {wanted:?} from elsewhere");
    assert!(wanted.iter().all(|name| ["memset", "memcpy", "memmove", "memcmp"].contains(name)), "{wanted:?}");
}
