//! Damaged trees and tight limits through the library, compared with the model.
//!
//! `tight --calls N --seed S`, `--mode ..` for trees of one kind instead of all in turn.

use std::process::ExitCode;

use generator::Mode;
use library::call::call;
use library::tally::Tally;
use library::tight::calls;
use trials::{arguments, with_deep_stack};

fn main() -> ExitCode {
    with_deep_stack(compare)
}

fn compare() -> ExitCode {
    let wanted: u64 = arguments::value("--calls", 10_000);
    let first: u64 = arguments::value("--seed", 1);
    let one_kind = std::env::args().any(|word| word == "--mode");
    let mut tally = Tally::default();
    let mut seed = first;
    while tally.calls() < wanted {
        let mode = if one_kind {
            arguments::mode()
        } else {
            Mode::ALL[seed as usize % Mode::ALL.len()]
        };
        one_tree(seed, mode, wanted, &mut tally);
        seed += 1;
    }
    println!("trees {} from seed {first}", seed - first);
    tally.end()
}

fn one_tree(seed: u64, mode: Mode, wanted: u64, tally: &mut Tally) {
    for (i, (lent, tree)) in calls(seed, mode).into_iter().enumerate() {
        if tally.calls() < wanted {
            let seen = call(&lent, &tree, seed + i as u64);
            let what = format!("seed {seed}, mode {mode:?}, call {i}");
            tally.enter(&what, &lent, &tree, &seen, &model::analyze(&lent, &tree));
        }
    }
}
