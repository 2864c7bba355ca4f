//! What two answers differ in, as text.

use wire::Answer;
use wire::text::{dump_diagnostics, dump_output};

/// The names of the fields that differ; none if the answers are equal.
pub fn differing(one: &Answer, other: &Answer) -> Vec<&'static str> {
    let fields = [
        ("number", one.number == other.number),
        ("place", one.place == other.place),
        ("output", one.out == other.out),
        ("diagnostics", one.diagnostics == other.diagnostics),
        ("errored", one.errored == other.errored),
        ("rounds", one.rounds == other.rounds),
        ("depths", one.depths == other.depths),
    ];
    fields
        .into_iter()
        .filter(|(_, equal)| !equal)
        .map(|(name, _)| name)
        .collect()
}

pub fn show(answer: &Answer) -> String {
    format!(
        "number {} place {} errored {} rounds {} depths {:?}\n    output: {}\n    diagnostics: {}",
        answer.number,
        answer.place,
        answer.errored,
        answer.rounds,
        answer.depths,
        dump_output(&answer.out),
        dump_diagnostics(&answer.diagnostics),
    )
}
