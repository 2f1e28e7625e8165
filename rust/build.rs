//! Has the proved library compiled for the processor that this is built for, and links it.

use std::path::{Path, PathBuf};
use std::process::Command;

fn main() {
    let root = Path::new(env!("CARGO_MANIFEST_DIR")).join("..");
    let out = PathBuf::from(std::env::var_os("OUT_DIR").unwrap());
    // What the proofs read, and not what rt leaves beside it (crates/*/out).
    let crates = std::fs::read_dir(root.join("crates")).unwrap().map(|entry| entry.unwrap().path());
    let read = crates.flat_map(|of| ["src", "specs", "proofs"].map(|part| of.join(part))).filter(|part| part.exists());
    let tools =
        ["crates.txt", "tools/build", "tools/crates", "tools/native-lib", "tools/proved"].map(|part| root.join(part));
    for part in read.chain(tools) {
        println!("cargo::rerun-if-changed={}", part.display());
    }
    println!("cargo::rerun-if-env-changed=RAMIKOHY_ARCHIVE");
    if let Some(archive) = std::env::var_os("RAMIKOHY_ARCHIVE") {
        println!("cargo::rerun-if-changed={}", root.join(archive).display());
    }
    let processor = std::env::var("CARGO_CFG_TARGET_ARCH").unwrap();
    let mut maker = Command::new("tools/native-lib");
    maker.current_dir(&root).arg("ramikohy").arg(out.join("libramikohy.a")).arg(processor);
    match maker.status() {
        Ok(status) if status.success() => {}
        other => panic!("tools/native-lib ramikohy: {other:?} (is rt on the PATH?)"),
    }
    println!("cargo::rustc-link-search=native={}", out.display());
    println!("cargo::rustc-link-lib=static=ramikohy");
}
