//! Copies the original's files to the build's own folder, with the few changes that it takes to build them alone, once
//! for each value of EPS. Each change must apply as often as is said here, so another text of the original is refused.

use std::path::{Path, PathBuf};
use std::{env, fs};

/// The original's files that are built.
const FILES: [&str; 12] =
    ["bounding_box", "filter", "hit", "matrix", "mesh", "path", "plane", "ray", "shape", "tree", "triangle", "vector"];

/// The values of EPS, with the name of the module that has each.
const TOLERANCES: [(&str, &str); 3] = [("eps_1e9", "1e-9"), ("eps_1e6", "1e-6"), ("eps_quarter", "0.25")];

fn main() {
    println!("cargo::rustc-check-cfg=cfg(original)");
    println!("cargo::rerun-if-env-changed=RAMIKOHY_ORIGINAL");
    println!("cargo::rerun-if-changed=stand_ins");
    println!("cargo::rerun-if-changed=build.rs");
    let folder = folder();
    let sources = folder.join("src");
    println!("cargo::rerun-if-changed={}", sources.display());
    if !sources.join("vector.rs").is_file() {
        // A folder that appears later may have older dates than this build: as long as there is none, look at every build.
        println!("cargo::rerun-if-changed=look-again-at-every-build");
        println!("cargo::metadata=present=0");
        return;
    }
    let out = PathBuf::from(env::var_os("OUT_DIR").unwrap());
    let mut root = String::new();
    for (module, eps) in TOLERANCES {
        let to = out.join(module);
        write_modules(&sources, &to, eps);
        let file = to.join("mod.rs");
        root += &format!(
            "/// The original with EPS = {eps}.\n#[allow(warnings, clippy::all)]\n#[path = {file:?}]\npub mod {module};\n"
        );
    }
    fs::write(out.join("original.rs"), root).unwrap();
    println!("cargo::rustc-cfg=original");
    println!("cargo::metadata=present=1");
}

/// The folder of the original: RAMIKOHY_ORIGINAL, or `../shared/docs/src`, both from the project's root.
fn folder() -> PathBuf {
    let root = Path::new(env!("CARGO_MANIFEST_DIR")).join("../..");
    root.join(env::var_os("RAMIKOHY_ORIGINAL").unwrap_or("../shared/docs/src".into()))
}

/// One copy of the original, with this EPS.
fn write_modules(sources: &Path, to: &Path, eps: &str) {
    fs::create_dir_all(to).unwrap();
    let mut root = String::new();
    for name in FILES {
        let text = fs::read_to_string(sources.join(name).with_extension("rs")).unwrap();
        fs::write(to.join(name).with_extension("rs"), changed(name, text)).unwrap();
        root += &format!("pub mod {name};\n");
    }
    for name in ["axis", "common", "rand"] {
        let text = stand_in(name).replace("@EPS@", eps);
        fs::write(to.join(name).with_extension("rs"), text).unwrap();
        root += &format!("pub mod {name};\n");
    }
    root += "pub use matrix::Matrix;\npub use shape::TransformedShape;\n";
    fs::write(to.join("mod.rs"), root).unwrap();
}

fn stand_in(name: &str) -> String {
    let file = Path::new(env!("CARGO_MANIFEST_DIR")).join("stand_ins").join(name);
    fs::read_to_string(file.with_extension("rs")).unwrap()
}

/// A file's text as it is built: in a module of its own, with no word of the two crates that are not here, and the
/// face added to the key by which edges are sorted.
fn changed(name: &str, text: String) -> String {
    let mut text = text.replace("crate::", "super::");
    let mut once = |from: &str, to: &str| {
        assert_eq!(text.matches(from).count(), 1, "{name}.rs: `{from}`");
        text = text.replace(from, to);
    };
    match name {
        "vector" => once("use rand::Rng;", "use super::rand::Rng;"),
        "path" => once("use bon::bon;", ""),
        "mesh" => {
            once("use bon::{Builder, bon};", "");
            once("#[derive(Debug, Clone, Builder)]", "#[derive(Debug, Clone)]");
            once("edges.sort_unstable_by_key(|e| (e.0, e.1));", "edges.sort_unstable_by_key(|e| (e.0, e.1, e.2));");
        }
        _ => {}
    }
    text = without_attributes(text, "bon");
    text = without_attributes(text, "builder");
    if name == "mesh" {
        text += &stand_in("mesh_more");
    }
    text
}

/// The text with each attribute `#[NAME]` and `#[NAME(..)]` taken out.
fn without_attributes(mut text: String, name: &str) -> String {
    for start in [format!("#[{name}]"), format!("#[{name}(")] {
        while let Some(at) = text.find(&start) {
            let mut open = 0;
            let end = text[at..].find(|c| {
                open += (c == '[') as i32 - (c == ']') as i32;
                c == ']' && open == 0
            });
            text.replace_range(at..=at + end.expect("an attribute that ends"), "");
        }
    }
    text
}
