//! Links the proved analyser, which `tools/build.sh analyze` makes in the repository's root. `TSILMOGAR_LIBRARY` may name
//! another archive, or the folder of one.

use std::env;
use std::path::{Path, PathBuf};

const FILE: &str = "libanalyze.a";

fn archive() -> PathBuf {
    println!("cargo:rerun-if-env-changed=TSILMOGAR_LIBRARY");
    let here = env::var("CARGO_MANIFEST_DIR").expect("cargo sets it");
    let usual = || Path::new(&here).join("../../target/staticlib").join(FILE);
    let named = env::var_os("TSILMOGAR_LIBRARY").map_or_else(usual, PathBuf::from);
    if named.is_dir() {
        return named.join(FILE);
    }
    named
}

/// NAME of a file libNAME.a.
fn name_of(archive: &Path) -> Option<&str> {
    archive.file_stem()?.to_str()?.strip_prefix("lib")
}

fn main() {
    let archive = archive();
    println!("cargo:rerun-if-changed={}", archive.display());
    let Ok(archive) = archive.canonicalize() else {
        eprintln!(
            "\nThe proved analyser is not at {}.\n\
             Run `tools/build.sh analyze` in the repository's root, or set TSILMOGAR_LIBRARY to the archive's path.\n",
            archive.display()
        );
        std::process::exit(1);
    };
    let (Some(folder), Some(name)) = (archive.parent(), name_of(&archive)) else {
        eprintln!("\n{} is not called libNAME.a.\n", archive.display());
        std::process::exit(1);
    };
    println!("cargo:rustc-link-search=native={}", folder.display());
    println!("cargo:rustc-link-lib=static={name}");
}
