//! The proved name-resolution analyser for Rust.
//!
//! It takes a packed tree (document 01, `01-scope.md`) and answers the tree with each name as a numbered slot, and what
//! is wrong with it. For every tree, buffers and limits the library's answer is proved to be the document's
//! (docs/PROOFS.md); this crate lends it memory and reads what it wrote, and is tested, not proved.
//!
//! ```
//! // local x = 1; x
//! let tree = [
//!     &b"JT\0\0\0\0"[..],
//!     b"LO\x01\0\0\0",
//!     b"BV\x05\0\0\0\x09\0\0\0",
//!     b"TV\x03\0\0\0",
//!     b"VA\x05\0\0\0\x08\0\0\0",
//! ]
//! .concat();
//! let analysis = tsilmogar::analyze(&tree)?;
//! assert!(!analysis.errored() && analysis.diagnostics().next().is_none());
//! for record in analysis.records() {
//!     let record = record?;
//!     if &record.mark == b"LS" {
//!         assert_eq!(record.fields.get(0), Some(0)); // x is slot 0 of its frame
//!     }
//! }
//! # Ok::<(), Box<dyn std::error::Error>>(())
//! ```
#![deny(unsafe_code)]
#![warn(missing_docs)]

mod analysis;
mod analyzer;
mod diagnostics;
mod records;
mod refusal;
#[allow(unsafe_code)]
pub mod sys;

pub use analysis::{Analysis, Depths};
pub use analyzer::{Analyzer, Limits};
pub use diagnostics::{Code, Diagnostic, Diagnostics, Level};
pub use records::{Damaged, Numbers, Record, Records};
pub use refusal::{Kind, Refusal};

/// Analyses one packed tree with the usual limits. An [`Analyzer`] keeps its memory for the next tree.
pub fn analyze(tree: &[u8]) -> Result<Analysis, Refusal> {
    Analyzer::default().analyze(tree)
}
