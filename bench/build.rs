//! Links the monitor's archive, which the variable names; `bench/run` sets it.

use std::env;

const VARIABLE: &str = "BINEFDAR_ARCHIVE";

fn main() {
    println!("cargo:rerun-if-env-changed={VARIABLE}");
    if let Some(path) = env::var(VARIABLE).ok().filter(|path| !path.is_empty()) {
        println!("cargo:rerun-if-changed={path}");
        println!("cargo:rustc-link-arg-bins={path}");
    }
}
