//! Links the archive that `include/archive` writes.

use std::path::Path;

fn main() {
    let folder = Path::new(env!("CARGO_MANIFEST_DIR")).join("../../target/staticlib");
    println!("cargo::rustc-link-search=native={}", folder.display());
    println!("cargo::rerun-if-changed={}", folder.join("libssr.a").display());
    println!("cargo::rustc-link-lib=static=ssr");
}
