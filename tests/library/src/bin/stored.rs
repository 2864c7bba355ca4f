//! Replays the stored calls through the library.

use std::process::ExitCode;

use library::call::call;
use library::tally::Tally;
use trials::with_deep_stack;
use wire::stored::unpack;

const STORED: &str = concat!(env!("CARGO_MANIFEST_DIR"), "/../stored/calls.bin");

fn main() -> ExitCode {
    with_deep_stack(replay)
}

fn replay() -> ExitCode {
    let mut tally = Tally::default();
    let bytes = std::fs::read(STORED).expect("the stored calls");
    for (i, stored) in unpack(&bytes).iter().enumerate() {
        let seen = call(&stored.lent, &stored.tree, i as u64);
        tally.enter(
            &format!("call {i}"),
            &stored.lent,
            &stored.tree,
            &seen,
            &stored.answer,
        );
    }
    tally.end()
}
