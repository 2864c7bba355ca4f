//! One call of the library: what it is lent, and all that can be seen after it.

use tsilmogar::sys::{self, Table};
use wire::{Answer, Lent};

use crate::lending::{Lending, Number};

/// The answer, and what it has that no answer may have.
#[derive(Debug)]
pub struct Seen {
    pub answer: Answer,
    pub faults: Vec<String>,
}

/// All that a call writes to.
pub struct Memory {
    limits: [u32; 4],
    out: Lending<u8>,
    diagnostics: Lending<u8>,
    tables: [Lending<u32>; 4],
    report: Lending<u64>,
}

const TABLES: [&str; 4] = ["locals", "frames", "captures", "references"];

/// A call with garbage in all that is lent.
pub fn call(lent: &Lent, tree: &[u8], seed: u64) -> Seen {
    let mut memory = Memory::new(lent, seed);
    let given = tree.to_vec();
    memory.call(&given);
    let mut seen = memory.seen();
    if given != tree {
        seen.faults.push("the tree was written to".into());
    }
    seen
}

impl Memory {
    pub fn new(lent: &Lent, seed: u64) -> Memory {
        Memory {
            limits: lent.limits(),
            out: Lending::new(lent.out as usize, seed),
            diagnostics: Lending::new(lent.diagnostics as usize, seed),
            tables: lent
                .tables()
                .map(|length| Lending::new(length as usize, seed)),
            report: Lending::new(9, seed),
        }
    }

    pub fn call(&mut self, tree: &[u8]) {
        let [max_locals, max_frames, max_captures, max_references] = self.limits;
        let [locals, frames, captures, references] = &mut self.tables;
        let lent = sys::Lent {
            output: self.out.lent_mut(),
            diagnostics: self.diagnostics.lent_mut(),
            locals: table(locals, max_locals),
            frames: table(frames, max_frames),
            captures: table(captures, max_captures),
            references: table(references, max_references),
            report: self.report.lent_mut().try_into().expect("nine numbers"),
        };
        sys::analyze(tree, lent);
    }

    /// What stands there after a call.
    pub fn seen(&self) -> Seen {
        let mut faults = vec![];
        let [number, place, out, diagnostics, errored, rest @ ..] = self.numbers();
        let [rounds, object, local, most] = rest.map(|value| narrow(value, &mut faults));
        let answer = Answer {
            number: narrow(number, &mut faults),
            place,
            out: written("output", &self.out, out, &mut faults),
            diagnostics: written("diagnostics", &self.diagnostics, diagnostics, &mut faults),
            errored: flag(errored, &mut faults),
            rounds,
            depths: [object, local, most],
        };
        for (name, table) in TABLES.iter().zip(&self.tables) {
            left(name, table, 0, &mut faults);
        }
        guarded("report", &self.report, &mut faults);
        Seen { answer, faults }
    }

    fn numbers(&self) -> [u64; 9] {
        self.report.lent().try_into().expect("nine numbers")
    }
}

fn table(lending: &mut Lending<u32>, limit: u32) -> Table<'_> {
    let numbers = lending.lent_mut();
    Table { numbers, limit }
}

/// The bytes before the length; those past it must be 0.
fn written(name: &str, buffer: &Lending<u8>, length: u64, faults: &mut Vec<String>) -> Vec<u8> {
    let length = usize::try_from(length).unwrap_or(usize::MAX);
    left(name, buffer, length, faults);
    let Some(bytes) = buffer.lent().get(..length) else {
        faults.push(format!(
            "{name}: {length} bytes in a buffer of {}",
            buffer.length()
        ));
        return vec![];
    };
    bytes.to_vec()
}

/// What isn't 0 from a place on, and guards that were written to.
fn left<T: Number>(name: &str, lending: &Lending<T>, from: usize, faults: &mut Vec<String>) {
    if let Some((at, value)) = lending.not_zero(from) {
        faults.push(format!(
            "{name}: {value} is left at {at} of {}",
            lending.length()
        ));
    }
    guarded(name, lending, faults);
}

fn guarded<T: Number>(name: &str, lending: &Lending<T>, faults: &mut Vec<String>) {
    if !lending.guards_stand() {
        faults.push(format!("{name}: written to beside it"));
    }
}

fn narrow(value: u64, faults: &mut Vec<String>) -> u32 {
    u32::try_from(value).unwrap_or_else(|_| {
        faults.push(format!("{value} in the report"));
        0
    })
}

fn flag(value: u64, faults: &mut Vec<String>) -> bool {
    if value > 1 {
        faults.push(format!("errored is {value}"));
    }
    value == 1
}

#[cfg(test)]
mod tests {
    use super::*;
    use wire::text::parse;

    #[test]
    fn worked_case_1() {
        let tree = parse("JT 0, LO 1, BV 5 9, TV 3, VA 5 8");
        let seen = call(&Lent::exact([1, 3, 0, 0], 60, 9), &tree, 3);
        assert_eq!(seen.faults, Vec::<String>::new());
        let out = parse("TV 3, SH 0 0, BV 0, LS 0, SH 1 0, LO 1, SH 0 0");
        assert_eq!((seen.answer.number, seen.answer.out), (0, out));
        assert_eq!(
            (seen.answer.rounds, seen.answer.depths),
            (2, [u32::MAX, 0, 0])
        );
    }

    /// As after a call that wrote nothing.
    #[test]
    fn garbage_that_stays_is_seen() {
        let faults = Memory::new(&Lent::exact([1; 4], 3, 3), 4).seen().faults;
        for name in [
            "output",
            "diagnostics",
            "locals",
            "frames",
            "captures",
            "references",
            "errored",
        ] {
            assert!(
                faults.iter().any(|fault| fault.starts_with(name)),
                "{name} in {faults:?}"
            );
        }
    }
}
