//! Finds the static archive of the proved code and links it.
//!
//! Looked at in this order: the folder that `HIRGWAMO_LIB_DIR` names, the folder
//! `target/part` of the repository that this crate stands in, and the folder that
//! pkg-config tells for the package `hirgwamo`.

use std::env;
use std::path::{Path, PathBuf};
use std::process::{exit, Command};

const ARCHIVE: &str = "libhirgwamo.a";
const SETTING: &str = "HIRGWAMO_LIB_DIR";
const BESIDE: &str = "../target/part";

fn main() {
    for name in [SETTING, "PKG_CONFIG", "PKG_CONFIG_PATH", "PKG_CONFIG_LIBDIR"] {
        println!("cargo:rerun-if-env-changed={name}");
    }
    println!("cargo:rerun-if-changed=build.rs");
    match folder() {
        Ok(folder) => link(&folder),
        Err(sentence) => {
            eprintln!("hirgwamo: {sentence}");
            exit(1);
        }
    }
}

fn link(folder: &Path) {
    println!("cargo:rerun-if-changed={}", folder.join(ARCHIVE).display());
    println!("cargo:rustc-link-search=native={}", folder.display());
    println!("cargo:rustc-link-lib=static=hirgwamo");
}

/// The folder that has the archive, or a sentence that says what to do.
fn folder() -> Result<PathBuf, String> {
    if let Some(told) = env::var_os(SETTING).map(PathBuf::from) {
        return if has_archive(&told) {
            Ok(told)
        } else {
            Err(format!(
                "{SETTING} is {}, where there is no {ARCHIVE}; set it to the folder that has that file",
                told.display()
            ))
        };
    }
    let manifest = env::var_os("CARGO_MANIFEST_DIR").map(PathBuf::from).unwrap_or_default();
    let beside = manifest.join(BESIDE);
    let found = if has_archive(&beside) { Some(beside) } else { installed() };
    found.ok_or_else(|| {
        format!("{ARCHIVE} was not found; set {SETTING} to the folder that has it, or install the library so that `pkg-config --libs hirgwamo` tells where it is")
    })
}

fn has_archive(folder: &Path) -> bool {
    folder.join(ARCHIVE).is_file()
}

/// The first folder that pkg-config tells and that has the archive. Folders of
/// the system are asked for too: rustc looks for an archive only where it is told.
fn installed() -> Option<PathBuf> {
    let tool = env::var_os("PKG_CONFIG").unwrap_or_else(|| "pkg-config".into());
    let told = Command::new(tool)
        .args(["--libs-only-L", "hirgwamo"])
        .env("PKG_CONFIG_ALLOW_SYSTEM_LIBS", "1")
        .output()
        .ok()
        .filter(|output| output.status.success())?;
    let words = String::from_utf8(told.stdout).ok()?;
    words
        .split_whitespace()
        .filter_map(|word| word.strip_prefix("-L"))
        .map(PathBuf::from)
        .find(|path| has_archive(path))
}
