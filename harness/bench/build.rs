//! Links functions of an earlier liblanovishel.a, which `LANOVISHEL_BEFORE` names, beside ours: its
//! `lanovishel_sqrt` is called `sqrt_before`, `lanovishel_check` is `check_before`, and its other
//! names are its own. Where none is named, the cfg `before` is not set.
use std::{
    env,
    path::{Path, PathBuf},
    process::Command,
};

fn main() {
    println!("cargo::rustc-check-cfg=cfg(before)");
    println!("cargo::rerun-if-env-changed=LANOVISHEL_BEFORE");
    if let Some(archive) = env::var_os("LANOVISHEL_BEFORE") {
        let archive = PathBuf::from(archive);
        println!("cargo::rerun-if-changed={}", archive.display());
        let folder = PathBuf::from(env::var_os("OUT_DIR").unwrap());
        rename(&archive, &folder.join("libbefore.a"));
        println!("cargo::rustc-link-search=native={}", folder.display());
        println!("cargo::rustc-link-lib=static=before");
        println!("cargo::rustc-cfg=before");
    }
}

fn rename(archive: &Path, renamed: &Path) {
    let names = ["sqrt", "check"].map(|name| {
        [
            format!("--redefine-sym=lanovishel_{name}={name}_before"),
            format!("--keep-global-symbol={name}_before"),
        ]
    });
    let status = Command::new("objcopy")
        .args(names.concat())
        .args([archive, renamed])
        .status()
        .expect("objcopy is on the path");
    assert!(status.success(), "objcopy {}", archive.display());
}
