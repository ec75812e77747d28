#[path = "../original_folder.rs"]
mod original_folder;

fn main() {
    let file = original_folder::original("scan_core/src/oracle.rs");
    original_folder::write_modules(&format!("#[path = {file:?}]\nmod oracle;\n"));
}
