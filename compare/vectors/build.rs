#[path = "../original_folder.rs"]
mod original_folder;

fn main() {
    let file = original_folder::original("scan_pmtl/src/oracle/numset.rs");
    original_folder::write_modules(&format!("#[path = {file:?}]\n#[allow(dead_code)]\nmod numset;\n"));
}
