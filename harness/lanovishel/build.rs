//! Makes the proved static library with `tools/build lanovishel` and links it.
//! `LANOVISHEL_STATICLIB` may name a ready archive instead.
use std::{
    env, fs,
    path::{Path, PathBuf},
    process::Command,
};

const ARCHIVE: &str = "liblanovishel.a";

fn main() {
    println!("cargo::rerun-if-env-changed=LANOVISHEL_STATICLIB");
    let made = match env::var_os("LANOVISHEL_STATICLIB") {
        Some(ready) => PathBuf::from(ready),
        None => prove(&Path::new(env!("CARGO_MANIFEST_DIR")).join("../..")),
    };
    println!("cargo::rerun-if-changed={}", made.display());
    // A copy under the name that is linked.
    let folder = PathBuf::from(env::var_os("OUT_DIR").unwrap());
    fs::copy(&made, folder.join(ARCHIVE))
        .unwrap_or_else(|error| panic!("{}: {error}", made.display()));
    println!("cargo::rustc-link-search=native={}", folder.display());
    println!("cargo::rustc-link-lib=static=lanovishel");
}

/// Proves the crate `lanovishel` of the project and what exports it, and names the archive that this wrote.
fn prove(project: &Path) -> PathBuf {
    let mut sources = vec![project.join("crates.txt")];
    for folder in fs::read_dir(project.join("crates")).unwrap() {
        let folder = folder.unwrap().path();
        sources.extend(["src", "specs", "proofs"].map(|part| folder.join(part)));
    }
    for source in sources.iter().filter(|source| source.exists()) {
        println!("cargo::rerun-if-changed={}", source.display());
    }
    let proved = Command::new(project.join("tools/build"))
        .arg("lanovishel")
        .output()
        .expect("tools/build is in the project");
    assert!(
        proved.status.success(),
        "tools/build lanovishel failed:\n{}{}",
        String::from_utf8_lossy(&proved.stdout),
        String::from_utf8_lossy(&proved.stderr)
    );
    project.join("target/staticlib").join(ARCHIVE)
}
