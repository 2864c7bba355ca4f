//! Why a tree was refused.

use std::error::Error;
use std::fmt;

/// The reasons that document 01 has for refusing a tree, with its numbers.
#[derive(Clone, Copy, Debug, PartialEq, Eq, Hash)]
pub enum Kind {
    /// A record's bytes run past the end.
    CutShort = 1,
    /// A mark isn't allowed there.
    WrongMark = 2,
    /// A flag, kind, set or visibility is out of range.
    OutOfRange = 3,
    /// An expression is nested deeper than 200 (the root is 1).
    NestedTooDeep = 4,
    /// Bytes follow the expression.
    BytesLeft = 5,
    /// A local beyond the limit.
    LocalsFull = 6,
    /// A frame beyond the limit.
    FramesFull = 7,
    /// A capture beyond the limit.
    CapturesFull = 8,
    /// An output record doesn't fit, later taken back or not.
    OutputFull = 9,
    /// A diagnostics record doesn't fit.
    DiagnosticsFull = 10,
    /// Over 65,535 external names, or a 65,536th local in one frame.
    TooManyLocals = 11,
    /// A 65,537th capture in one frame.
    TooManyCaptures = 12,
    /// A table is too short for its limit; only a caller of [`crate::sys`] can meet it.
    TableShort = 13,
    /// The tree is over 16,777,216 bytes.
    TreeLong = 14,
    /// A kept reference beyond the limit.
    ReferencesFull = 17,
}

/// What each means; the header for C has the same words.
const KINDS: [(Kind, &str); 15] = [
    (Kind::CutShort, "a record's bytes run past the end"),
    (Kind::WrongMark, "a mark isn't allowed there"),
    (
        Kind::OutOfRange,
        "a flag, kind, set or visibility is out of range",
    ),
    (
        Kind::NestedTooDeep,
        "an expression is nested deeper than 200",
    ),
    (Kind::BytesLeft, "bytes follow the expression"),
    (Kind::LocalsFull, "a local beyond the limit of live locals"),
    (Kind::FramesFull, "a frame beyond the limit of open frames"),
    (
        Kind::CapturesFull,
        "a capture beyond the limit of captures in open frames",
    ),
    (Kind::OutputFull, "an output record doesn't fit"),
    (Kind::DiagnosticsFull, "a diagnostics record doesn't fit"),
    (
        Kind::TooManyLocals,
        "over 65,535 external names, or a 65,536th local in one frame",
    ),
    (Kind::TooManyCaptures, "a 65,537th capture in one frame"),
    (
        Kind::TableShort,
        "a table is shorter than 16 numbers per entry of its limit",
    ),
    (Kind::TreeLong, "the tree is over 16,777,216 bytes"),
    (
        Kind::ReferencesFull,
        "a reference beyond the limit of references kept in open frames",
    ),
];

impl Kind {
    /// All of them, by number.
    pub fn all() -> impl Iterator<Item = Kind> {
        KINDS.iter().map(|row| row.0)
    }

    /// The reason with that number.
    pub fn of_number(number: u64) -> Option<Kind> {
        Kind::all().find(|kind| kind.number() == number)
    }

    /// Document 01's number for it.
    pub fn number(self) -> u64 {
        self as u64
    }
}

impl fmt::Display for Kind {
    /// What it means, in words.
    fn fmt(&self, f: &mut fmt::Formatter<'_>) -> fmt::Result {
        let row = KINDS.iter().find(|row| row.0 == *self);
        f.write_str(row.map_or("", |row| row.1))
    }
}

/// A tree that was refused: nothing of it is answered but why and where.
#[derive(Clone, Copy, Debug, PartialEq, Eq, Hash)]
pub struct Refusal {
    /// Why.
    pub kind: Kind,
    /// The offset in the tree of the record that was being handled; 0 for 13 and 14.
    pub place: u64,
}

impl Refusal {
    /// The refusal in a report, if it has one.
    ///
    /// # Panics
    /// For a number that document 01 doesn't have: that is no report of the library's.
    pub fn of_report(report: &[u64; 9]) -> Option<Refusal> {
        let [number, place, ..] = *report;
        if number == 0 {
            return None;
        }
        let kind =
            Kind::of_number(number).unwrap_or_else(|| panic!("no refusal has number {number}"));
        Some(Refusal { kind, place })
    }

    /// Document 01's number for it.
    pub fn number(&self) -> u64 {
        self.kind.number()
    }
}

impl fmt::Display for Refusal {
    fn fmt(&self, f: &mut fmt::Formatter<'_>) -> fmt::Result {
        let Refusal { kind, place } = self;
        write!(f, "refusal {} at byte {place}: {kind}", kind.number())
    }
}

impl Error for Refusal {}
