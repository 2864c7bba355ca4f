//! Memory that is lent to the analyser and grows where it says that there is too little.

use crate::analysis::Analysis;
use crate::refusal::{Kind, Refusal};
use crate::sys::{self, ENTRY_NUMBERS, Lent, Table};

/// How much there is of each of the six things that a call is lent. A table's entry takes 64 bytes.
#[derive(Clone, Copy, Debug, PartialEq, Eq)]
pub struct Limits {
    /// Live locals: externals, binds, parameters, and one for each object.
    pub locals: u32,
    /// Open frames; [`Limits::FRAMES_ENOUGH`] are enough for every tree.
    pub frames: u32,
    /// Captures in open frames.
    pub captures: u32,
    /// References kept in open frames.
    pub references: u32,
    /// Bytes of output, those that are taken back later among them.
    pub output: usize,
    /// Bytes of diagnostics, 18 for each.
    pub diagnostics: usize,
}

impl Limits {
    /// A level of nesting opens two frames at a time at most, there are 200 levels, and the root is one.
    pub const FRAMES_ENOUGH: u32 = 401;

    /// What an analyser usually starts with: 353,344 bytes in all.
    pub const START: Limits = Limits {
        locals: 1024,
        frames: Limits::FRAMES_ENOUGH,
        captures: 1024,
        references: 1024,
        output: 65_536,
        diagnostics: 65_536,
    };

    /// What it usually grows to at most: 64 MiB for each of the six but the frames, 320 MiB in all.
    pub const CAP: Limits = Limits {
        locals: 1 << 20,
        frames: Limits::FRAMES_ENOUGH,
        captures: 1 << 20,
        references: 1 << 20,
        output: 1 << 26,
        diagnostics: 1 << 26,
    };
}

/// One of the six: so many entries, never more than its cap.
#[derive(Clone, Debug)]
struct Room<T> {
    memory: Vec<T>,
    entries: usize,
    cap: usize,
    numbers_each: usize,
}

impl<T: Clone + Default> Room<T> {
    /// Starts smaller where there isn't so much memory.
    fn new(start: usize, cap: usize, numbers_each: usize) -> Room<T> {
        let mut room = Room {
            memory: Vec::new(),
            entries: 0,
            cap,
            numbers_each,
        };
        room.take(start.min(cap));
        room
    }

    /// Twice as many entries, up to the cap; tells whether there are more than before.
    fn grow(&mut self) -> bool {
        let wanted = self.entries.saturating_mul(2).max(1).min(self.cap);
        wanted > self.entries && self.take(wanted)
    }

    /// Has that many entries, no fewer than before; false where the memory for them can't be had.
    fn take(&mut self, entries: usize) -> bool {
        let Some(length) = entries.checked_mul(self.numbers_each) else {
            return false;
        };
        let more = length - self.memory.len();
        if self.memory.try_reserve_exact(more).is_err() {
            return false;
        }
        self.memory.resize(length, T::default());
        self.entries = entries;
        true
    }
}

impl Room<u8> {
    fn of_bytes(start: usize, cap: usize) -> Room<u8> {
        Room::new(start, cap, 1)
    }
}

impl Room<u32> {
    fn of_entries(start: u32, cap: u32) -> Room<u32> {
        Room::new(start as usize, cap as usize, ENTRY_NUMBERS)
    }

    fn table(&mut self) -> Table<'_> {
        Table {
            numbers: &mut self.memory,
            limit: u32::try_from(self.entries).expect("no more than the cap"),
        }
    }
}

/// Analyses trees with memory of its own.
///
/// Where a call is refused because there was too little of one of the six (6 to 10 and 17), that one is doubled and the
/// tree analysed again, until it is accepted, refused for another reason, or the cap is reached; then the refusal
/// stands. What has grown stays so for the next tree. Every call clears all of it, so that a small tree is
/// dearer after a large one; a new analyser gives the memory back.
#[derive(Clone, Debug)]
pub struct Analyzer {
    output: Room<u8>,
    diagnostics: Room<u8>,
    locals: Room<u32>,
    frames: Room<u32>,
    captures: Room<u32>,
    references: Room<u32>,
}

impl Default for Analyzer {
    /// From [`Limits::START`] to [`Limits::CAP`].
    fn default() -> Analyzer {
        Analyzer::new(Limits::START, Limits::CAP)
    }
}

impl Analyzer {
    /// Starts with `start`, where that isn't above the cap, and grows to `cap`.
    pub fn new(start: Limits, cap: Limits) -> Analyzer {
        Analyzer {
            output: Room::of_bytes(start.output, cap.output),
            diagnostics: Room::of_bytes(start.diagnostics, cap.diagnostics),
            locals: Room::of_entries(start.locals, cap.locals),
            frames: Room::of_entries(start.frames, cap.frames),
            captures: Room::of_entries(start.captures, cap.captures),
            references: Room::of_entries(start.references, cap.references),
        }
    }

    /// Analyses a packed tree.
    ///
    /// The library calls itself for each level of nesting (the crate's README says how much stack that takes).
    pub fn analyze(&mut self, tree: &[u8]) -> Result<Analysis, Refusal> {
        loop {
            let report = self.call(tree);
            let Some(refusal) = Refusal::of_report(&report) else {
                return Ok(Analysis::new(
                    &report,
                    &self.output.memory,
                    &self.diagnostics.memory,
                ));
            };
            // Each of the six can be doubled only so often before its cap, so this comes to an end.
            if !self.grow(refusal.kind) {
                return Err(refusal);
            }
        }
    }

    fn call(&mut self, tree: &[u8]) -> [u64; 9] {
        let mut report = [0; 9];
        let lent = Lent {
            output: &mut self.output.memory,
            diagnostics: &mut self.diagnostics.memory,
            locals: self.locals.table(),
            frames: self.frames.table(),
            captures: self.captures.table(),
            references: self.references.table(),
            report: &mut report,
        };
        sys::analyze(tree, lent);
        report
    }

    /// More of what a refusal says there was too little of; false if it says no such thing or there can't be more.
    fn grow(&mut self, kind: Kind) -> bool {
        match kind {
            Kind::LocalsFull => self.locals.grow(),
            Kind::FramesFull => self.frames.grow(),
            Kind::CapturesFull => self.captures.grow(),
            Kind::OutputFull => self.output.grow(),
            Kind::DiagnosticsFull => self.diagnostics.grow(),
            Kind::ReferencesFull => self.references.grow(),
            _ => false,
        }
    }
}

#[cfg(test)]
mod tests {
    use super::*;

    /// The sizes from a start to the end of growing.
    fn sizes(start: usize, cap: usize, numbers_each: usize) -> Vec<usize> {
        let mut room = Room::<u32>::new(start, cap, numbers_each);
        let mut sizes = vec![room.entries];
        while room.grow() {
            assert_eq!(room.memory.len(), room.entries * numbers_each);
            sizes.push(room.entries);
        }
        sizes
    }

    #[test]
    fn rooms_double_to_their_cap() {
        assert_eq!(sizes(0, 0, 16), [0]);
        assert_eq!(sizes(0, 1, 16), [0, 1]);
        assert_eq!(sizes(0, 5, 16), [0, 1, 2, 4, 5]);
        assert_eq!(sizes(3, 24, 16), [3, 6, 12, 24]);
        assert_eq!(sizes(9, 4, 16), [4]);
        assert_eq!(sizes(7, 7, 1), [7]);
    }

    /// Where memory can't be had the room stays as it was.
    #[test]
    fn no_memory_is_no_growth() {
        let mut room = Room::<u32>::new(usize::MAX, usize::MAX, ENTRY_NUMBERS);
        assert_eq!((room.entries, room.memory.len()), (0, 0));
        assert!(room.grow() && room.entries == 1);
        assert!(!room.take(usize::MAX) && !room.take(usize::MAX / ENTRY_NUMBERS));
        assert_eq!((room.entries, room.memory.len()), (1, ENTRY_NUMBERS));
    }
}
