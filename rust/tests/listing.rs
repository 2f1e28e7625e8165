//! `tools/list` tells failure by its status: 0 listed, 1 refused, 2 not built, not read or not written.

use ramikohy::{Strokes, write_sheet};
use std::io::Write;
use std::path::{Path, PathBuf};
use std::process::{Command, Stdio};

fn root() -> PathBuf {
    Path::new(env!("CARGO_MANIFEST_DIR")).join("..")
}

/// Its status, and what it wrote to standard output and to standard error.
fn run(lister: &Path, words: &[&str], input: &[u8], out: Stdio) -> (Option<i32>, String, String) {
    let mut child = Command::new(lister);
    let mut child = child.args(words).stdin(Stdio::piped()).stdout(out).stderr(Stdio::piped()).spawn().unwrap();
    let _ = child.stdin.take().unwrap().write_all(input); // one that is not built reads nothing
    let said = child.wait_with_output().unwrap();
    let text = |bytes: Vec<u8>| String::from_utf8(bytes).unwrap();
    (said.status.code(), text(said.stdout), text(said.stderr))
}

#[test]
fn its_status_tells_failure() {
    let lister = root().join("tools/list");
    if !root().join("crates/list/out/list").exists() {
        return println!("SKIPPED: the program list is not built (tools/proved list)");
    }
    let strokes: Strokes<u32> = [[1, 0, 2, 1].as_slice()].into_iter().collect();
    let sheet = write_sheet(1, 3, &strokes).unwrap();
    let (listed, refused) = ("1 3 1 4\n1 0 2 1\n".to_string(), "refused 9\n".to_string());
    assert_eq!(run(&lister, &[], &sheet, Stdio::piped()), (Some(0), listed, String::new()));
    let (status, out, err) = run(&lister, &[], &sheet[..43], Stdio::piped());
    assert_eq!((status, out), (Some(1), refused));
    assert!(err.contains("refused"));
    let full = std::fs::OpenOptions::new().write(true).open("/dev/full").unwrap();
    let (status, _, err) = run(&lister, &[], &sheet, full.into());
    assert_eq!(status, Some(2));
    assert!(err.contains("could not be written"));
    let folder = std::fs::File::open(root()).unwrap();
    let said = Command::new(&lister).stdin(folder).output().unwrap();
    assert_eq!(said.status.code(), Some(2), "a folder is no sheet that was read");
    assert!(said.stdout.is_empty());
}

#[test]
fn it_says_how_it_is_used_and_that_it_is_not_built() {
    let lister = root().join("tools/list");
    let (status, usage, _) = run(&lister, &["--help"], b"", Stdio::piped());
    assert!(status == Some(0) && usage.contains("Status: 0 listed"));
    let (status, out, err) = run(&lister, &["a.sheet"], b"", Stdio::piped());
    assert_eq!((status, out, err), (Some(2), String::new(), usage));
    let elsewhere = std::env::temp_dir().join(format!("ramikohy-{}", std::process::id()));
    std::fs::create_dir_all(elsewhere.join("tools")).unwrap();
    let copy = elsewhere.join("tools/list");
    std::fs::copy(&lister, &copy).unwrap();
    let (status, out, err) = run(&copy, &[], b"", Stdio::piped());
    std::fs::remove_dir_all(&elsewhere).unwrap();
    assert!(status == Some(2) && out.is_empty() && err.contains("not built yet"));
}
