//! Links the engine's static library, which `rt lib` writes, the engine as it was before, if
//! `harness/before` has built it, and the C code of the Rattle toolchain that they allocate by.
use std::path::{Path, PathBuf};
use std::process::Command;

/// The folder of the toolchain: the one with the guide whose path `rt doc` prints.
fn toolchain() -> PathBuf {
    let output = Command::new("rt")
        .arg("doc")
        .output()
        .expect("rt is on the path");
    let guide = String::from_utf8(output.stdout).expect("rt doc prints a path");
    let folder = Path::new(guide.trim()).parent();
    folder
        .expect("the guide stands in the toolchain's folder")
        .to_path_buf()
}

/// Links `lib<name>.a` of a folder.
fn link(folder: &Path, name: &str) {
    println!("cargo::rustc-link-search=native={}", folder.display());
    println!("cargo::rustc-link-lib=static={name}");
}

fn main() {
    let harness = Path::new(env!("CARGO_MANIFEST_DIR"));
    let (engine, before) = (
        harness.join("../crates/engine/out"),
        harness.join("target/before"),
    );
    for library in [engine.join("libengine.a"), before.join("libbefore.a")] {
        println!("cargo::rerun-if-changed={}", library.display());
    }
    link(&engine, "engine");
    println!("cargo::rustc-check-cfg=cfg(before)");
    if before.join("libbefore.a").exists() {
        println!("cargo::rustc-cfg=before");
        link(&before, "before");
    }
    link(&toolchain().join("c"), "libc_c");
}
