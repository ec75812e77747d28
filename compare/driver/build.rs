//! Links the monitor's archive into the program `compare` where the variable names one.

use std::env;

const VARIABLE: &str = "BINEFDAR_ARCHIVE";

fn main() {
    println!("cargo:rustc-check-cfg=cfg(archive)");
    println!("cargo:rerun-if-env-changed={VARIABLE}");
    if let Some(path) = env::var(VARIABLE).ok().filter(|path| !path.is_empty()) {
        println!("cargo:rerun-if-changed={path}");
        println!("cargo:rustc-link-arg-bin=compare={path}");
        println!("cargo:rustc-cfg=archive");
    }
}
