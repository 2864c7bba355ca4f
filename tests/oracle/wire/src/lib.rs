//! The packed form of document 01 and what a call takes and answers: the one vocabulary of every program here.

pub mod stored;
pub mod text;

/// What a caller lends, as lengths: the limits L, F, C, R, the four tables in numbers, both buffers in bytes.
#[derive(Clone, Copy, Debug, PartialEq, Eq)]
pub struct Lent {
    pub max_locals: u32,
    pub max_frames: u32,
    pub max_captures: u32,
    pub max_references: u32,
    pub locals: u32,
    pub frames: u32,
    pub captures: u32,
    pub references: u32,
    pub out: u32,
    pub diagnostics: u32,
}

impl Lent {
    /// Tables of exactly 16 numbers an entry.
    pub fn exact(limits: [u32; 4], out: u32, diagnostics: u32) -> Lent {
        let [l, f, c, r] = limits;
        Lent {
            max_locals: l,
            max_frames: f,
            max_captures: c,
            max_references: r,
            locals: 16 * l,
            frames: 16 * f,
            captures: 16 * c,
            references: 16 * r,
            out,
            diagnostics,
        }
    }

    /// L, F, C and R.
    pub fn limits(&self) -> [u32; 4] {
        [
            self.max_locals,
            self.max_frames,
            self.max_captures,
            self.max_references,
        ]
    }

    /// The lengths of the four tables, in the same order.
    pub fn tables(&self) -> [u32; 4] {
        [self.locals, self.frames, self.captures, self.references]
    }
}

/// What a call answers. `number` 0 is acceptance; a refusal has every other field but `place` zero or empty.
#[derive(Clone, Debug, PartialEq, Eq)]
pub struct Answer {
    pub number: u32,
    pub place: u64,
    pub out: Vec<u8>,
    pub diagnostics: Vec<u8>,
    pub errored: bool,
    pub rounds: u32,
    /// object depth, local depth, greatest local depth
    pub depths: [u32; 3],
}

impl Answer {
    pub fn refused(number: u32, place: u64) -> Answer {
        Answer {
            number,
            place,
            out: vec![],
            diagnostics: vec![],
            errored: false,
            rounds: 0,
            depths: [0; 3],
        }
    }
}

/// Appends a record: its two-byte mark, then its numbers, lowest byte first.
pub fn put(bytes: &mut Vec<u8>, mark: &[u8; 2], numbers: &[u32]) {
    bytes.extend_from_slice(mark);
    for n in numbers {
        bytes.extend_from_slice(&n.to_le_bytes());
    }
}

/// The number at an offset, which must be there whole.
pub fn number(bytes: &[u8], at: usize) -> u32 {
    u32::from_le_bytes(bytes[at..at + 4].try_into().expect("four bytes"))
}
