//! Case 9 of document 01 through the library: the number and place that the document has, and the model's whole answer.
//!
//! `edges` for all, `edges --only TEXT` for those whose name has the text in it.

use std::process::ExitCode;
use std::time::Instant;

use library::call::call;
use library::edges::{Edge, edges};
use library::tally::Tally;
use trials::{arguments, with_deep_stack};
use wire::Answer;

fn main() -> ExitCode {
    with_deep_stack(run)
}

fn run() -> ExitCode {
    let only = arguments::value("--only", String::new());
    let mut tally = Tally::default();
    for (i, edge) in edges().iter().enumerate() {
        if edge.what.contains(&only) {
            one(i as u64, edge, &mut tally);
        }
    }
    tally.end()
}

fn one(seed: u64, edge: &Edge, tally: &mut Tally) {
    let begun = Instant::now();
    let seen = call(&edge.lent, &edge.tree, seed);
    let seconds = begun.elapsed().as_secs_f64();
    let as_said = tally.enter(edge.what, &edge.lent, &edge.tree, &seen, &wanted(edge));
    let word = if as_said {
        "as document 01 says"
    } else {
        "DIFFERENT"
    };
    println!(
        "{}: {} at {}, {word} ({seconds:.1} s)",
        edge.what, seen.answer.number, seen.answer.place
    );
}

/// The model's answer, which must be what document 01 says.
fn wanted(edge: &Edge) -> Answer {
    let answer = model::analyze(&edge.lent, &edge.tree);
    assert_eq!(
        (answer.number, answer.place),
        (edge.number, edge.place),
        "the model on {}",
        edge.what
    );
    answer
}
