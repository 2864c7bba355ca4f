//! Stands in for the evaluator's `arr`: `arridx`, which also notes from where it was called.

use std::cell::RefCell;
use std::panic::Location;

/// Where the file calls `arridx`: once a spec and round, and once a local at a frame's end.
mod lines {
    include!(concat!(env!("OUT_DIR"), "/lines.rs"));
}

/// The calls of `arridx` in order; equal ones that follow each other are counted.
#[derive(Clone, Copy, Debug, PartialEq, Eq)]
pub enum Call {
    /// in `iter_specs`, once for each spec of a frame in each round
    Spec,
    /// at a frame's end, once for each of its locals
    Drained,
    /// anywhere else: the next id is asked for
    NextId,
}

thread_local! {
    static CALLS: RefCell<Vec<(Call, usize)>> = const { RefCell::new(vec![]) };
}

#[track_caller]
pub fn arridx(index: usize) -> u32 {
    note(match Location::caller().line() {
        lines::SPEC => Call::Spec,
        lines::DRAINED => Call::Drained,
        _ => Call::NextId,
    });
    u32::try_from(index).expect("indices are below 2^32")
}

fn note(call: Call) {
    CALLS.with_borrow_mut(|calls| match calls.last_mut() {
        Some((last, times)) if *last == call => *times += 1,
        _ => calls.push((call, 1)),
    });
}

pub fn forget_calls() {
    CALLS.with_borrow_mut(Vec::clear);
}

pub fn take_calls() -> Vec<(Call, usize)> {
    CALLS.take()
}
