//! Names the folder of liblr1.a to the linker: that of the variable LR1_LIB_DIR, or the folder that
//! `tools/build --library` fills, or the one that pkg-config knows.

use std::env;
use std::path::{Path, PathBuf};
use std::process::{exit, Command};

const ARCHIVE: &str = "liblr1.a";

fn main() {
    println!("cargo:rerun-if-env-changed=LR1_LIB_DIR");
    let folder = folder();
    let archive = folder.join(ARCHIVE);
    if !archive.is_file() {
        eprintln!("there is no {}", archive.display());
        eprintln!("run `tools/build --library` at the top of the repository, or set LR1_LIB_DIR");
        exit(1);
    }
    println!("cargo:rerun-if-changed={}", archive.display());
    println!("cargo:rustc-link-search=native={}", folder.display());
    println!("cargo:rustc-link-lib=static=lr1");
}

fn folder() -> PathBuf {
    if let Some(given) = env::var_os("LR1_LIB_DIR") {
        return given.into();
    }
    let built = Path::new(&env::var_os("CARGO_MANIFEST_DIR").expect("cargo sets it")).join("../../../built");
    if built.join(ARCHIVE).is_file() {
        return built;
    }
    installed().unwrap_or(built)
}

/// The folder that pkg-config prints.
fn installed() -> Option<PathBuf> {
    let ran = Command::new("pkg-config")
        .args(["--variable=libdir", "lr1"])
        .output()
        .ok()?;
    let folder = String::from_utf8(ran.stdout).ok()?;
    (ran.status.success() && !folder.trim().is_empty()).then(|| folder.trim().into())
}
