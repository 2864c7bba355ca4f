//! The Rust's `analyze.rs` once more, to measure it: compiled as it stands and against the same stand-ins as the
//! judge's, but with an `arridx` that notes nothing.

include!(concat!(env!("OUT_DIR"), "/unchanged.rs"));

// The file asks its crate for these and for `arr`.
use jrsonnet_evaluator::{error, gc, names, obj};

use jrsonnet_interner::IStr;
pub use jrsonnet_ir::Expr;

/// Stands in for the evaluator's `arr`.
mod arr {
    pub fn arridx(index: usize) -> u32 {
        u32::try_from(index).expect("indices are below 2^32")
    }
}

/// External names, as the Rust takes them.
pub type Externals = Vec<(IStr, analyze::LocalId)>;

/// The Rust's tree of packed bytes that the first walk accepts, and its externals; names are interned.
pub fn read(tree: &[u8]) -> (Externals, Expr) {
    let (names, expr) = judge::read(tree);
    let externals = names.into_iter().zip((0..).map(analyze::LocalId));
    (externals.collect(), expr)
}

/// What is measured, and nothing else.
pub fn analyze(externals: Externals, expr: &Expr) -> analyze::AnalysisReport {
    analyze::analyze_root(expr, externals)
}
