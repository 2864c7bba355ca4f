//! Links the proved first walk: `tools/build.sh tree_c` in the repository's root makes it.

use std::path::PathBuf;

fn main() {
    let here = PathBuf::from(std::env::var("CARGO_MANIFEST_DIR").expect("cargo sets it"));
    let library = here.join("../../target/staticlib");
    println!("cargo:rustc-link-search=native={}", library.display());
    println!("cargo:rustc-link-lib=static=tree_c");
    println!(
        "cargo:rerun-if-changed={}",
        library.join("libtree_c.a").display()
    );
}
