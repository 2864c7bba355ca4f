//! Runs generated trees through the Rust and through the model and compares their answers.
//!
//! `compare --trees N --seed S --mode mixed|small|deep|wide|printable`, or `compare --every E` for every tree of E
//! expressions.

use std::hash::{DefaultHasher, Hash, Hasher};
use std::panic::{AssertUnwindSafe, catch_unwind};
use std::process::ExitCode;

use trials::coverage::Coverage;
use trials::differences::{differing, show};
use trials::{arguments, roomy, trees, with_deep_stack};
use wire::Answer;
use wire::text::dump_tree;

const SHOWN: u64 = 5;

fn main() -> ExitCode {
    with_deep_stack(compare)
}

#[derive(Default)]
struct Tally {
    coverage: Coverage,
    refused: u64,
    panics: u64,
    differences: u64,
    digest: DefaultHasher,
}

fn compare() -> ExitCode {
    let mut tally = Tally::default();
    let what = trees::asked_for(arguments::mode(), &mut |seed, tree| {
        one(tree, seed, &mut tally);
    });
    tally.coverage.print();
    println!("{what}");
    println!("refused by the first walk: {}", tally.refused);
    println!("panics of the Rust: {}", tally.panics);
    println!("differences: {}", tally.differences);
    println!(
        "digest of all answers of the Rust: {:016x}",
        tally.digest.finish()
    );
    ExitCode::from(u8::from(
        tally.refused + tally.panics + tally.differences > 0,
    ))
}

/// One tree, by its seed or number.
fn one(tree: &[u8], seed: u64, tally: &mut Tally) {
    let (number, place) = model::first_walk(None, tree);
    if number != 0 {
        tally.refused += 1;
        report(
            tally.refused,
            seed,
            tree,
            &format!("refusal {number} at {place}"),
        );
        return;
    }
    let Ok(judged) = catch_unwind(AssertUnwindSafe(|| judge::run(tree))) else {
        tally.panics += 1;
        return report(tally.panics, seed, tree, "the Rust panics");
    };
    tally.coverage.enter(tree, &judged);
    hash(&judged, &mut tally.digest);
    let modelled = model::analyze(&roomy(), tree);
    let fields = differing(&judged, &modelled);
    if !fields.is_empty() {
        tally.differences += 1;
        let both = format!(
            "{fields:?}\n  Rust {}\n  model {}",
            show(&judged),
            show(&modelled)
        );
        report(tally.differences, seed, tree, &both);
    }
}

fn hash(answer: &Answer, digest: &mut DefaultHasher) {
    answer.out.hash(digest);
    answer.diagnostics.hash(digest);
    (answer.errored, answer.rounds, answer.depths).hash(digest);
}

fn report(count: u64, seed: u64, tree: &[u8], what: &str) {
    if count <= SHOWN {
        println!("seed {seed}: {what}\n  tree: {}", dump_tree(tree));
    }
}
