#[path = "../original_folder.rs"]
mod original_folder;

fn main() {
    // A module block with a path, so that the oracle's own `mod numset` is found in `oracle/`.
    let folder = original_folder::original("scan_pmtl/src");
    original_folder::original("scan_pmtl/src/oracle.rs");
    original_folder::original("scan_pmtl/src/oracle/numset.rs");
    original_folder::write_modules(&format!("#[path = {folder:?}]\nmod files {{\n    pub mod oracle;\n}}\n"));
}
