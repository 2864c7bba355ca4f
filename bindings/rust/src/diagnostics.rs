//! What the analyser has to say about a tree.

use std::fmt;

use crate::records::{Damaged, Record, Records};

/// How bad it is.
#[derive(Clone, Copy, Debug, PartialEq, Eq, Hash)]
pub enum Level {
    /// Static checking fails: the tree must not be evaluated.
    Error = 0,
    /// The tree may be evaluated.
    Warning = 1,
}

/// What it is about; the numbers are document 01's.
#[derive(Clone, Copy, Debug, PartialEq, Eq, Hash)]
pub enum Code {
    /// The name is not defined.
    Undefined = 1,
    /// The name is defined twice in one frame.
    DefinedTwice = 2,
    /// `self` outside of an object.
    SelfOutside = 3,
    /// `super` outside of an object.
    SuperOutside = 4,
    /// `$` outside of an object.
    DollarOutside = 5,
    /// An import's path is not literal.
    ImportComputed = 6,
    /// The name is not used.
    Unused = 7,
    /// The name is only used by unused siblings.
    UsedByUnused = 8,
    /// The name is used but could be hoisted.
    CouldBeHoisted = 9,
    /// A function that answers its parameter.
    Identity = 10,
}

const CODES: [(Code, &str); 10] = [
    (Code::Undefined, "the name is not defined"),
    (Code::DefinedTwice, "the name is defined twice in one frame"),
    (Code::SelfOutside, "self outside of an object"),
    (Code::SuperOutside, "super outside of an object"),
    (Code::DollarOutside, "$ outside of an object"),
    (Code::ImportComputed, "an import's path is not literal"),
    (Code::Unused, "the name is not used"),
    (
        Code::UsedByUnused,
        "the name is only used by unused siblings",
    ),
    (
        Code::CouldBeHoisted,
        "the name is used but could be hoisted",
    ),
    (Code::Identity, "a function that answers its parameter"),
];

impl Code {
    /// All of them, by number.
    pub fn all() -> impl Iterator<Item = Code> {
        CODES.iter().map(|row| row.0)
    }

    /// The code with that number.
    pub fn of_number(number: u32) -> Option<Code> {
        Code::all().find(|code| code.number() == number)
    }

    /// Document 01's number for it.
    pub fn number(self) -> u32 {
        self as u32
    }

    /// 1 to 6 are errors, 7 to 10 warnings.
    pub fn level(self) -> Level {
        if self.number() <= 6 {
            Level::Error
        } else {
            Level::Warning
        }
    }

    /// Whether it is about a name: 3 to 6 and 10 aren't.
    pub fn has_name(self) -> bool {
        matches!(self.number(), 1 | 2 | 7..=9)
    }
}

impl fmt::Display for Code {
    /// What it means, in words.
    fn fmt(&self, f: &mut fmt::Formatter<'_>) -> fmt::Result {
        let row = CODES.iter().find(|row| row.0 == *self);
        f.write_str(row.map_or("", |row| row.1))
    }
}

/// One diagnostic.
#[derive(Clone, Copy, Debug, PartialEq, Eq)]
pub struct Diagnostic {
    /// Error or warning.
    pub level: Level,
    /// What it is about.
    pub code: Code,
    /// The name, as the tree numbers it, where the code is about one.
    pub name: Option<u32>,
    /// The span, as the tree numbers it.
    pub span: u32,
}

impl Diagnostic {
    fn of_record(record: &Record<'_>) -> Option<Diagnostic> {
        let number = |at| record.fields.get(at);
        let (level, code) = (number(0)?, Code::of_number(number(1)?)?);
        let name = Some(number(2)?).filter(|_| code.has_name());
        let diagnostic = Diagnostic {
            level: code.level(),
            code,
            name,
            span: number(3)?,
        };
        (level == code.level() as u32).then_some(diagnostic)
    }
}

impl fmt::Display for Diagnostic {
    fn fmt(&self, f: &mut fmt::Formatter<'_>) -> fmt::Result {
        let level = match self.level {
            Level::Error => "error",
            Level::Warning => "warning",
        };
        write!(f, "{level} {} at span {}", self.code.number(), self.span)?;
        if let Some(name) = self.name {
            write!(f, ", name {name}")?;
        }
        write!(f, ": {}", self.code)
    }
}

/// Goes over diagnostics one by one; at anything else it says so and ends.
#[derive(Clone, Debug)]
pub struct Diagnostics<'a>(Records<'a>);

impl<'a> Diagnostics<'a> {
    /// Over the bytes of diagnostics.
    pub fn new(bytes: &'a [u8]) -> Diagnostics<'a> {
        Diagnostics(Records::of(bytes, |mark| (&mark == b"DG").then_some(4)))
    }
}

impl Iterator for Diagnostics<'_> {
    type Item = Result<Diagnostic, Damaged>;

    fn next(&mut self) -> Option<Self::Item> {
        let record = match self.0.next()? {
            Ok(record) => record,
            Err(damaged) => return Some(Err(damaged)),
        };
        let offset = record.offset;
        let read = Diagnostic::of_record(&record);
        if read.is_none() {
            self.0.end();
        }
        Some(read.ok_or(Damaged { offset }))
    }
}

impl std::iter::FusedIterator for Diagnostics<'_> {}
