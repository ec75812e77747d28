//! The original's PMTL oracle, its files unchanged, over the `scan_core` beside this crate.

include!(concat!(env!("OUT_DIR"), "/original.rs"));

pub use files::oracle::{Pmtl, PmtlOracle};
