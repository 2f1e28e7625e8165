//! Says to the code whether the original is there to be compared with.

fn main() {
    println!("cargo::rustc-check-cfg=cfg(original)");
    println!("cargo::rerun-if-env-changed=DEP_ORIGINAL_PRESENT");
    if std::env::var("DEP_ORIGINAL_PRESENT").as_deref() == Ok("1") {
        println!("cargo::rustc-cfg=original");
    }
}
