//! The Rust's diagnostics as `DG` records: the code and the name come from the message's text.

use wire::put;

use crate::analyze::{DiagLevel, Diagnostic};

/// Each message's beginning and its code; a name follows where the beginning ends with a colon and a blank.
const MESSAGES: [(&str, u32); 10] = [
    ("undefined local: ", 1),
    ("local is already defined in the current frame: ", 2),
    ("`self` used outside of object", 3),
    ("`super` used outside of object", 4),
    ("`$` used outside of object", 5),
    ("import path must be a string literal", 6),
    ("unused local: ", 7),
    ("local is only referenced by unused siblings: ", 8),
    ("local could be hoisted to an outer scope: ", 9),
    (
        "do not define identity functions manually, use std.id instead",
        10,
    ),
];

pub fn write(diagnostics: &[Diagnostic]) -> Vec<u8> {
    let mut bytes = vec![];
    for diagnostic in diagnostics {
        let level = match diagnostic.level {
            DiagLevel::Error => 0,
            DiagLevel::Warning => 1,
        };
        let (code, name) = code_and_name(&diagnostic.message);
        let span = diagnostic
            .span
            .as_ref()
            .expect("only externals have no span, and none is reported");
        put(&mut bytes, b"DG", &[level, code, name, span.0]);
    }
    bytes
}

fn code_and_name(message: &str) -> (u32, u32) {
    for (beginning, code) in MESSAGES {
        if let Some(rest) = message.strip_prefix(beginning) {
            return (code, name(beginning, rest));
        }
    }
    panic!("a message without a code: {message}")
}

fn name(beginning: &str, rest: &str) -> u32 {
    if beginning.ends_with(": ") {
        return rest.parse().expect("a name is a number in decimal");
    }
    assert!(rest.is_empty(), "a longer message than known: {rest}");
    0
}
