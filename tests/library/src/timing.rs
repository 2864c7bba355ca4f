//! One tree and the time of a call with it, of the library and of the Rust.
//!
//! The Rust is given its own tree, built before the clock starts, and what it answers is dropped after the clock stops.
//! The library is given packed bytes, exactly the limits and buffers that they need, and zeroes its tables in the call.

use std::hint::black_box;
use std::time::{Duration, Instant};

use plain::{Expr, Externals};
use wire::Lent;

use crate::call::Memory;

/// Calls are repeated until they take this long, at most so often: short rounds are seldom disturbed.
const LEAST: Duration = Duration::from_micros(100);
const MOST: usize = 64;

/// An accepted tree in both forms, and what the library is lent for it.
pub struct Subject {
    pub tree: Vec<u8>,
    pub needed: Lent,
    memory: Memory,
    expr: Expr,
    externals: Externals,
}

impl Subject {
    /// None for a tree that is refused.
    pub fn new(tree: Vec<u8>) -> Option<Subject> {
        let needed = model::needed(&tree)?;
        let (externals, expr) = plain::read(&tree);
        Some(Subject {
            memory: Memory::new(&needed, 3),
            tree,
            needed,
            expr,
            externals,
        })
    }

    /// So many calls of the library.
    pub fn library(&mut self, count: usize) -> Duration {
        timed(vec![(); count], |()| {
            self.memory.call(black_box(&self.tree))
        })
    }

    /// So many calls of the Rust; it keeps the externals, so each has its own.
    pub fn rust(&mut self, count: usize) -> Duration {
        let lists = vec![self.externals.clone(); count];
        timed(lists, |externals| {
            plain::analyze(externals, black_box(&self.expr))
        })
    }

    /// No figure without the right answer: stops unless the library's last call gave it.
    pub fn was_answered_as_by_the_rust(&self) {
        let seen = self.memory.seen();
        assert!(seen.faults.is_empty(), "{:?}", seen.faults);
        assert!(
            seen.answer == judge::run(&self.tree),
            "another answer than the Rust's"
        );
    }
}

/// A subject that answers right, and how often a round calls each side.
pub struct Timed {
    pub subject: Subject,
    counts: [usize; 2],
}

impl Timed {
    pub fn new(mut subject: Subject) -> Timed {
        subject.library(1);
        subject.was_answered_as_by_the_rust();
        let counts = [
            repeats(|count| subject.library(count)),
            repeats(|count| subject.rust(count)),
        ];
        Timed { subject, counts }
    }

    /// A round that doesn't pay for what the allocator has to clear up after another tree.
    pub fn second_round(&mut self) -> [f64; 2] {
        self.round();
        self.round()
    }

    /// Seconds that a call of the library and one of the Rust take.
    pub fn round(&mut self) -> [f64; 2] {
        let [library, rust] = self.counts;
        [
            self.subject.library(library).as_secs_f64() / library as f64,
            self.subject.rust(rust).as_secs_f64() / rust as f64,
        ]
    }
}

/// How many calls take the least time.
fn repeats(mut calls: impl FnMut(usize) -> Duration) -> usize {
    let mut count = 1;
    while count < MOST && calls(count) < LEAST {
        count *= 2;
    }
    count
}

/// One call for each of what is given; what the calls give is dropped when the clock has stopped.
fn timed<A, T>(mut given: Vec<A>, mut work: impl FnMut(A) -> T) -> Duration {
    let mut answers = Vec::with_capacity(given.len());
    let begun = Instant::now();
    for one in given.drain(..) {
        answers.push(black_box(work(one)));
    }
    begun.elapsed()
}

/// The middle one and both ends.
pub struct Spread {
    pub median: f64,
    pub least: f64,
    pub greatest: f64,
}

/// Of figures of which there is at least one.
pub fn spread(mut figures: Vec<f64>) -> Spread {
    figures.sort_by(f64::total_cmp);
    Spread {
        median: figures[figures.len() / 2],
        least: figures[0],
        greatest: figures[figures.len() - 1],
    }
}

#[cfg(test)]
mod tests {
    use super::*;

    #[test]
    fn the_middle_and_the_ends() {
        let Spread {
            median,
            least,
            greatest,
        } = spread(vec![3.0, 9.0, 1.0]);
        assert_eq!([median, least, greatest], [3.0, 1.0, 9.0]);
    }

    #[test]
    fn every_call_is_made_once_with_what_is_given() {
        let mut seen = vec![];
        timed(vec![1, 2, 3], |one| seen.push(one));
        assert_eq!(seen, [1, 2, 3]);
    }
}
