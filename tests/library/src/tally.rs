//! What a run counts: calls, refusals by number, a digest of all answers, differences.

use std::collections::BTreeMap;
use std::hash::{DefaultHasher, Hash, Hasher};
use std::process::ExitCode;

use trials::differences::{differing, show};
use wire::text::dump_tree;
use wire::{Answer, Lent};

use crate::call::Seen;

const SHOWN: u64 = 5;
/// Longer trees are not printed.
const PRINTED: usize = 20_000;

#[derive(Default)]
pub struct Tally {
    calls: u64,
    differences: u64,
    numbers: BTreeMap<u32, u64>,
    digest: DefaultHasher,
}

impl Tally {
    /// Whether the call was answered as wanted, with nothing else to be seen.
    pub fn enter(
        &mut self,
        what: &str,
        lent: &Lent,
        tree: &[u8],
        seen: &Seen,
        wanted: &Answer,
    ) -> bool {
        self.calls += 1;
        *self.numbers.entry(seen.answer.number).or_default() += 1;
        hash(&seen.answer, &mut self.digest);
        let fields = differing(&seen.answer, wanted);
        if fields.is_empty() && seen.faults.is_empty() {
            return true;
        }
        self.differences += 1;
        if self.differences <= SHOWN {
            println!("{what}: {fields:?} {:?}", seen.faults);
            println!(
                "  wanted {}\n  library {}",
                show(wanted),
                show(&seen.answer)
            );
            println!("  lent {lent:?}\n  tree: {}", printed(tree));
        }
        false
    }

    pub fn calls(&self) -> u64 {
        self.calls
    }

    /// The counts, and 1 if there is a difference or no call at all.
    pub fn end(&self) -> ExitCode {
        println!("calls: {}", self.calls);
        println!("calls by number: {:?}", self.numbers);
        println!("differences: {}", self.differences);
        println!(
            "digest of all answers of the library: {:016x}",
            self.digest.finish()
        );
        ExitCode::from(u8::from(self.differences > 0 || self.calls == 0))
    }
}

fn printed(tree: &[u8]) -> String {
    if tree.len() > PRINTED {
        return format!("{} bytes", tree.len());
    }
    dump_tree(tree)
}

/// An accepted call counts as in the oracle's `compare`, so that the digests of the same trees are equal.
fn hash(answer: &Answer, digest: &mut DefaultHasher) {
    if answer.number != 0 {
        return (answer.number, answer.place).hash(digest);
    }
    answer.out.hash(digest);
    answer.diagnostics.hash(digest);
    (answer.errored, answer.rounds, answer.depths).hash(digest);
}

#[cfg(test)]
mod tests {
    use super::*;

    #[test]
    fn faults_and_other_answers_are_differences() {
        let wanted = Answer::refused(2, 6);
        let lent = Lent::exact([0; 4], 0, 0);
        let mut tally = Tally::default();
        let mut enter = |answer: Answer, faults: Vec<String>| {
            tally.enter("test", &lent, b"", &Seen { answer, faults }, &wanted)
        };
        assert!(enter(Answer::refused(2, 6), vec![]));
        assert!(!enter(Answer::refused(2, 7), vec![]));
        assert!(!enter(Answer::refused(3, 6), vec![]));
        assert!(!enter(Answer::refused(2, 6), vec!["left".into()]));
        assert_eq!((tally.calls, tally.differences), (4, 3));
        assert_eq!(tally.numbers, [(2, 3), (3, 1)].into());
    }
}
