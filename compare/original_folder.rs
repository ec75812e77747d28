// Shared by the build scripts: where the original's source files stand, and how a crate takes them in unchanged.

use std::path::{Path, PathBuf};
use std::{env, fs};

/// The variable that names the folder with the original's files.
const VARIABLE: &str = "SCAN_SRC";

/// The folder used if the variable is not set, seen from a package of this workspace.
const DEFAULT: &str = "../../../shared/docs/src";

/// One of the original's files or folders.
pub fn original(name: &str) -> PathBuf {
    println!("cargo:rerun-if-env-changed={VARIABLE}");
    let package = env::var("CARGO_MANIFEST_DIR").expect("cargo names the package");
    let folder = env::var(VARIABLE).map_or_else(|_| Path::new(&package).join(DEFAULT), PathBuf::from);
    let path = folder.join(name);
    let path = path.canonicalize().unwrap_or_else(|e| panic!("{VARIABLE}: {}: {e}", path.display()));
    println!("cargo:rerun-if-changed={}", path.display());
    path
}

/// Writes the module lines that the crate includes.
pub fn write_modules(lines: &str) {
    let out = env::var("OUT_DIR").expect("cargo names the folder for made files");
    fs::write(Path::new(&out).join("original.rs"), lines).expect("made files can be written");
}
