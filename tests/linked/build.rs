//! Links the static library of the box, from where `make` puts it, and writes the calls of include/calls.txt in Rust.

use std::env;
use std::fs;
use std::path::PathBuf;
use std::process::Command;

fn main() {
    let root = PathBuf::from(env::var("CARGO_MANIFEST_DIR").unwrap_or_default()).join("../..");
    let libraries = root.join("target/staticlib");
    println!("cargo:rustc-link-search=native={}", libraries.display());
    println!("cargo:rustc-link-lib=static=host");
    let (script, list) = (root.join("tests/calls.py"), root.join("include/calls.txt"));
    for made_from in [&libraries.join("libhost.a"), &script, &list] {
        println!("cargo:rerun-if-changed={}", made_from.display());
    }
    let made = Command::new("python3").arg(&script).arg("rust").output();
    let made = made.expect("python3 runs tests/calls.py");
    let said = String::from_utf8_lossy(&made.stderr);
    assert!(made.status.success(), "tests/calls.py: {}", said);
    let out = PathBuf::from(env::var("OUT_DIR").unwrap_or_default());
    fs::write(out.join("calls.rs"), made.stdout).expect("calls.rs is written");
}
