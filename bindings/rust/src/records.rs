//! Records read from bytes: a mark of two letters, then numbers.

use std::error::Error;
use std::fmt;

/// Numbers of a record.
#[derive(Clone, Copy, PartialEq, Eq)]
pub struct Numbers<'a>(&'a [[u8; 4]]);

impl<'a> Numbers<'a> {
    /// How many there are.
    pub fn len(self) -> usize {
        self.0.len()
    }

    /// Whether there are none.
    pub fn is_empty(self) -> bool {
        self.0.is_empty()
    }

    /// The number at a position, if there are so many.
    pub fn get(self, at: usize) -> Option<u32> {
        self.0.get(at).copied().map(u32::from_le_bytes)
    }

    /// All of them in order.
    pub fn iter(self) -> impl ExactSizeIterator<Item = u32> + 'a {
        self.0.iter().copied().map(u32::from_le_bytes)
    }
}

impl fmt::Debug for Numbers<'_> {
    fn fmt(&self, f: &mut fmt::Formatter<'_>) -> fmt::Result {
        f.debug_list().entries(self.iter()).finish()
    }
}

/// A record of the output, where it begins, and its numbers.
///
/// | mark | fields | tail |
/// |---|---|---|
/// | `LS`, `CS` | slot, capture | |
/// | `SU`, `OX`, `FV`, `IY` | | |
/// | `BL` | 0 self, 1 super, 2 $, 3 name, 4 import | |
/// | `TV`, `UN`, `BI`, `ER`, `NA`, `PT` | constant, operator, operator, span, name, span | |
/// | `AR`, `IX`, `LO` | how many | |
/// | `AS`, `AT`, `IF`, `SC` | message-flag, message-flag, else-flag, set | |
/// | `AC` | how many | the constants |
/// | `BV` | slot | |
/// | `SH` | locals, how many captures | for each 0 local or 1 capture, and its number |
/// | `IM` | kind, span, path | |
/// | `FN` | named-flag, name, parameters kept | |
/// | `PA` | name, slot, default-flag | |
/// | `AP` | unnamed, named, tailstrict-flag, span | |
/// | `FH` | kind, name, plus-flag, visibility | |
/// | `OB` | this-flag, dollar-flag, super-flag, locals kept, assertions, fields, static-flag | |
#[derive(Clone, Copy, Debug, PartialEq, Eq)]
pub struct Record<'a> {
    /// Where it begins.
    pub offset: usize,
    /// Its mark, such as `b"LO"`.
    pub mark: [u8; 2],
    /// The numbers that every record with that mark has.
    pub fields: Numbers<'a>,
    /// The numbers after them, whose count one of the fields tells (`AC`, `SH`).
    pub tail: Numbers<'a>,
}

impl fmt::Display for Record<'_> {
    /// As document 01 writes it: `SH 1 1 0 0`.
    fn fmt(&self, f: &mut fmt::Formatter<'_>) -> fmt::Result {
        write!(f, "{}", self.mark.escape_ascii())?;
        self.fields
            .iter()
            .chain(self.tail.iter())
            .try_for_each(|number| write!(f, " {number}"))
    }
}

/// No whole record of the kind that is read begins there.
#[derive(Clone, Copy, Debug, PartialEq, Eq)]
pub struct Damaged {
    /// The offset.
    pub offset: usize,
}

impl fmt::Display for Damaged {
    fn fmt(&self, f: &mut fmt::Formatter<'_>) -> fmt::Result {
        write!(f, "no whole record begins at byte {}", self.offset)
    }
}

impl Error for Damaged {}

/// How many numbers a record with that mark has at least, if there is such a record.
type Width = fn([u8; 2]) -> Option<usize>;

/// Goes over an output record by record. Where a mark is unknown or a record is cut short it says so and ends; what the
/// numbers mean isn't judged.
#[derive(Clone, Debug)]
pub struct Records<'a> {
    bytes: &'a [u8],
    offset: usize,
    width: Width,
}

impl<'a> Records<'a> {
    /// Over the bytes of an output.
    pub fn new(output: &'a [u8]) -> Records<'a> {
        Records::of(output, output_width)
    }

    pub(crate) fn of(bytes: &'a [u8], width: Width) -> Records<'a> {
        Records {
            bytes,
            offset: 0,
            width,
        }
    }

    /// Nothing more is read.
    pub(crate) fn end(&mut self) {
        self.offset = self.bytes.len();
    }

    /// The whole record that begins at an offset, and where it ends.
    fn record(&self, offset: usize) -> Option<(Record<'a>, usize)> {
        let (mark, rest) = self.bytes[offset..].split_first_chunk()?;
        let (rest, _) = rest.as_chunks();
        let (fields, rest) = rest.split_at_checked((self.width)(*mark)?)?;
        let fields = Numbers(fields);
        let tail = Numbers(rest.get(..tail_length(mark, fields)?)?);
        let record = Record {
            offset,
            mark: *mark,
            fields,
            tail,
        };
        Some((record, offset + 2 + 4 * (fields.len() + tail.len())))
    }
}

impl<'a> Iterator for Records<'a> {
    type Item = Result<Record<'a>, Damaged>;

    fn next(&mut self) -> Option<Self::Item> {
        let offset = self.offset;
        if offset == self.bytes.len() {
            return None;
        }
        let Some((record, end)) = self.record(offset) else {
            self.end();
            return Some(Err(Damaged { offset }));
        };
        self.offset = end;
        Some(Ok(record))
    }
}

impl std::iter::FusedIterator for Records<'_> {}

fn output_width(mark: [u8; 2]) -> Option<usize> {
    Some(match &mark {
        b"OX" | b"SU" | b"FV" | b"IY" => 0,
        b"LS" | b"CS" | b"BL" | b"TV" | b"AC" | b"AR" | b"UN" | b"BI" | b"AS" | b"LO" | b"ER"
        | b"NA" | b"IX" | b"PT" | b"IF" | b"SC" | b"AT" | b"BV" => 1,
        b"SH" => 2,
        b"IM" | b"FN" | b"PA" => 3,
        b"AP" | b"FH" => 4,
        b"OB" => 7,
        _ => return None,
    })
}

/// How many numbers follow the fields.
fn tail_length(mark: &[u8; 2], fields: Numbers) -> Option<usize> {
    let (count, each) = match mark {
        b"AC" => (fields.get(0)?, 1),
        b"SH" => (fields.get(1)?, 2),
        _ => return Some(0),
    };
    usize::try_from(count).ok()?.checked_mul(each)
}
