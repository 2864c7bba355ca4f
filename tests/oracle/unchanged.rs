//! The build script of both crates that compile the Rust's own `analyze.rs`: writes `unchanged.rs`, which points the
//! compiler at that file, and `lines.rs`, which says on which of its lines `arridx` is called.

use std::path::{Path, PathBuf};
use std::{env, fs};

const FILE: &str = "docs/src/crates/jrsonnet-evaluator/src/analyze.rs";

/// Beside the checkout, which is three folders above either crate, unless the environment says where.
fn shared() -> PathBuf {
    println!("cargo::rerun-if-env-changed=TSILMOGAR_SHARED");
    let manifest = env::var("CARGO_MANIFEST_DIR").expect("cargo sets it");
    let beside = || Path::new(&manifest).join("../../../../shared");
    env::var_os("TSILMOGAR_SHARED").map_or_else(beside, PathBuf::from)
}

/// The one line that holds a text.
fn line_of(source: &str, text: &str) -> usize {
    let mut lines = source
        .lines()
        .enumerate()
        .filter(|(_, line)| line.contains(text));
    let (found, _) = lines
        .next()
        .unwrap_or_else(|| panic!("no line with {text}"));
    assert!(lines.next().is_none(), "two lines with {text}");
    found + 1
}

fn main() {
    let path = shared().join(FILE);
    let path = path
        .canonicalize()
        .unwrap_or_else(|e| panic!("{}: {e}", path.display()));
    println!("cargo::rerun-if-changed={}", path.display());
    let source = fs::read_to_string(&path).expect("the file is text");
    let module = format!("#[path = {path:?}]\npub mod analyze;\n");
    let lines = format!(
        "pub const SPEC: u32 = {};\npub const DRAINED: u32 = {};\n",
        line_of(&source, "arridx(*dest_count)"),
        line_of(&source, "arridx(i)"),
    );
    let out = PathBuf::from(env::var_os("OUT_DIR").expect("cargo sets it"));
    fs::write(out.join("unchanged.rs"), module).expect("writable");
    fs::write(out.join("lines.rs"), lines).expect("writable");
}
