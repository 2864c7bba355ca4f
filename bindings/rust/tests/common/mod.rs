//! The stored calls (tests/README.md), and what several tests share.
#![allow(dead_code)]

use tsilmogar::Limits;
use wire::Lent;
pub use wire::stored::StoredCall;

const STORED: &str = concat!(env!("CARGO_MANIFEST_DIR"), "/../../crates/gate_calls/stdin");

pub const NOTHING: Limits = Limits {
    locals: 0,
    frames: 0,
    captures: 0,
    references: 0,
    output: 0,
    diagnostics: 0,
};

pub fn stored() -> Vec<StoredCall> {
    wire::stored::unpack(&std::fs::read(STORED).expect("the stored calls"))
}

/// What a stored call was lent, where its tables fit its limits.
pub fn limits_of(lent: &Lent) -> Limits {
    Limits {
        locals: lent.max_locals,
        frames: lent.max_frames,
        captures: lent.max_captures,
        references: lent.max_references,
        output: lent.out as usize,
        diagnostics: lent.diagnostics as usize,
    }
}
