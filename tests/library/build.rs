//! The crate `tsilmogar` links the proved analyser, or the archive that `TSILMOGAR_LIBRARY` names; this is for the stand-in.

use std::env;

fn main() {
    println!("cargo:rerun-if-env-changed=TSILMOGAR_LIBRARY");
    println!("cargo:rustc-check-cfg=cfg(standin)");
    let archive = env::var("TSILMOGAR_LIBRARY").unwrap_or_default();
    if archive.ends_with("libstandin.a") {
        println!("cargo:rustc-cfg=standin");
        // It brings a second copy of Rust's standard library.
        println!("cargo:rustc-link-arg=-Wl,--allow-multiple-definition");
    }
}
