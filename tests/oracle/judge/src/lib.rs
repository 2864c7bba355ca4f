//! The judge: the Rust's own `analyze.rs`, compiled as it stands, on packed trees of document 01.
//!
//! Around it stand the modules that it asks its crate for (`arr`, and those that `plain` has too) and a bridge: `reader`
//! builds the Rust's tree, `writer` and `diagnostics` pack what comes out of it, `rounds` tells the rounds of the
//! settling loops from the calls of `arridx`.

mod arr;
mod diagnostics;
mod reader;
mod rounds;
mod writer;

include!(concat!(env!("OUT_DIR"), "/unchanged.rs"));

// The file asks its crate for these and for `arr`.
use jrsonnet_evaluator::{error, gc, names, obj};

use jrsonnet_interner::IStr;
pub use reader::read;
use wire::Answer;

/// What the Rust says of a tree that the first walk accepts; anything else may panic.
pub fn run(tree: &[u8]) -> Answer {
    let (externals, expr) = read(tree);
    let context = externals
        .into_iter()
        .zip(0..)
        .map(|(name, id)| (name, analyze::LocalId(id)));
    arr::forget_calls();
    let report = analyze::analyze_root(&expr, context.collect());
    let rounds = rounds::count(&expr, arr::take_calls());
    Answer {
        number: 0,
        place: 0,
        out: writer::write(&expr, &report),
        diagnostics: diagnostics::write(&report.diagnostics_list),
        errored: report.errored,
        rounds,
        depths: [
            report.root_analysis.object_dependent_depth,
            report.root_analysis.local_dependent_depth,
            report.root_analysis.local_dependent_depth_max,
        ],
    }
}

/// A name's number, which the Rust carries as decimal text.
fn number_of(name: &IStr) -> u32 {
    name.as_str()
        .parse()
        .expect("a name is a number in decimal")
}

#[cfg(test)]
mod tests;
