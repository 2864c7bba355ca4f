//! Runs generated trees through the library and through the Rust and compares whole answers.
//!
//! `library --trees N --seed S --mode mixed|small|deep|wide|printable`, or `library --every E`.

use std::process::ExitCode;

use library::call::call;
use library::tally::Tally;
use library::tight::roomier;
use trials::{arguments, trees, with_deep_stack};

fn main() -> ExitCode {
    with_deep_stack(compare)
}

fn compare() -> ExitCode {
    let mut tally = Tally::default();
    let what = trees::asked_for(arguments::mode(), &mut |seed, tree| {
        one(seed, tree, &mut tally)
    });
    println!("{what}");
    tally.end()
}

fn one(seed: u64, tree: &[u8], tally: &mut Tally) {
    let needed = model::needed(tree).expect("generated trees are accepted");
    let lent = roomier(seed, &needed);
    let seen = call(&lent, tree, seed);
    tally.enter(
        &format!("seed {seed}"),
        &lent,
        tree,
        &seen,
        &judge::run(tree),
    );
}
