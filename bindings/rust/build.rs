//! Links the static library, from the folder that CRAFTY_ARCHIVE names, or from where `rt lib` in crates/crafty_c writes it.

fn main() {
    let written = concat!(env!("CARGO_MANIFEST_DIR"), "/../../crates/crafty_c/out");
    let folder = std::env::var("CRAFTY_ARCHIVE").unwrap_or_else(|_| written.to_string());
    println!("cargo:rerun-if-env-changed=CRAFTY_ARCHIVE");
    println!("cargo:rerun-if-changed={folder}/libcrafty_c.a");
    println!("cargo:rustc-link-search=native={folder}");
}
