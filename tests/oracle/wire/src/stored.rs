//! One stored call: what was lent, the tree, the answer and who gave it; packed, and as a line of text.

use crate::{Answer, Lent, number};

pub const BY_THE_RUST: u32 = 0;
pub const BY_THE_MODEL: u32 = 1;
pub const BY_HAND: u32 = 2;

const MAGIC: &[u8; 4] = b"TSLV";
/// Numbers before a call's bytes.
const HEADER: usize = 21;

#[derive(Clone, Debug, PartialEq, Eq)]
pub struct StoredCall {
    pub origin: u32,
    pub lent: Lent,
    pub tree: Vec<u8>,
    pub answer: Answer,
}

impl StoredCall {
    /// Its length in the packed file.
    pub fn length(&self) -> usize {
        4 * HEADER + self.tree.len() + self.answer.out.len() + self.answer.diagnostics.len()
    }

    /// Limits, tables, buffers, as `lent_of` reads them.
    fn lent_numbers(&self) -> Vec<u32> {
        let lent = &self.lent;
        let buffers = [lent.out, lent.diagnostics];
        [&lent.limits()[..], &lent.tables(), &buffers].concat()
    }

    fn header(&self) -> Vec<u32> {
        let answer = &self.answer;
        let [object, local, most] = answer.depths;
        let mut header = vec![self.origin];
        header.extend(self.lent_numbers());
        header.extend([self.tree.len() as u32, answer.number, answer.place as u32]);
        header.extend([answer.out.len() as u32, answer.diagnostics.len() as u32]);
        header.extend([
            u32::from(answer.errored),
            answer.rounds,
            object,
            local,
            most,
        ]);
        header
    }

    /// `L F C R tables.. out diagnostics TREE number place OUT DIAGNOSTICS errored rounds object local most origin`
    pub fn line(&self) -> String {
        let answer = &self.answer;
        let mut words: Vec<String> = self.lent_numbers().iter().map(u32::to_string).collect();
        words.extend([
            hex(&self.tree),
            answer.number.to_string(),
            answer.place.to_string(),
        ]);
        words.extend([hex(&answer.out), hex(&answer.diagnostics)]);
        words.extend([u32::from(answer.errored), answer.rounds].map(|n| n.to_string()));
        words.extend(answer.depths.map(|n| n.to_string()));
        words.push(self.origin.to_string());
        words.join(" ")
    }
}

impl StoredCall {
    /// The call of such a line, if it is one.
    pub fn from_line(line: &str) -> Option<StoredCall> {
        let words: Vec<&str> = line.split_whitespace().collect();
        let words: [&str; 21] = words.try_into().ok()?;
        let lent: Vec<u32> = words[..10]
            .iter()
            .map(|word| word.parse().ok())
            .collect::<Option<_>>()?;
        let number = |i: usize| words[i].parse::<u32>().ok();
        Some(StoredCall {
            origin: number(20)?,
            lent: lent_of(&lent),
            tree: unhex(words[10])?,
            answer: Answer {
                number: number(11)?,
                place: u64::from(number(12)?),
                out: unhex(words[13])?,
                diagnostics: unhex(words[14])?,
                errored: number(15)? == 1,
                rounds: number(16)?,
                depths: [number(17)?, number(18)?, number(19)?],
            },
        })
    }
}

fn unhex(word: &str) -> Option<Vec<u8>> {
    if word == "-" {
        return Some(vec![]);
    }
    let digits = (0..word.len()).step_by(2);
    digits
        .map(|at| u8::from_str_radix(word.get(at..at + 2)?, 16).ok())
        .collect()
}

fn hex(bytes: &[u8]) -> String {
    if bytes.is_empty() {
        return "-".into();
    }
    bytes.iter().map(|byte| format!("{byte:02x}")).collect()
}

pub fn pack(calls: &[StoredCall]) -> Vec<u8> {
    let mut bytes = MAGIC.to_vec();
    bytes.extend((calls.len() as u32).to_le_bytes());
    for call in calls {
        call.header()
            .iter()
            .for_each(|n| bytes.extend(n.to_le_bytes()));
        bytes.extend(&call.tree);
        bytes.extend(&call.answer.out);
        bytes.extend(&call.answer.diagnostics);
    }
    bytes
}

/// The calls of a packed file; panics on anything else.
pub fn unpack(bytes: &[u8]) -> Vec<StoredCall> {
    assert_eq!(&bytes[..4], MAGIC, "a file of calls");
    let mut at = 8;
    let calls = (0..number(bytes, 4))
        .map(|_| unpack_one(bytes, &mut at))
        .collect();
    assert_eq!(at, bytes.len(), "nothing after the last call");
    calls
}

fn lent_of(n: &[u32]) -> Lent {
    Lent {
        max_locals: n[0],
        max_frames: n[1],
        max_captures: n[2],
        max_references: n[3],
        locals: n[4],
        frames: n[5],
        captures: n[6],
        references: n[7],
        out: n[8],
        diagnostics: n[9],
    }
}

fn unpack_one(bytes: &[u8], at: &mut usize) -> StoredCall {
    let n: Vec<u32> = (0..HEADER).map(|i| number(bytes, *at + 4 * i)).collect();
    *at += 4 * HEADER;
    let mut part = |length: u32| {
        let from = *at;
        *at += length as usize;
        bytes[from..*at].to_vec()
    };
    StoredCall {
        origin: n[0],
        lent: lent_of(&n[1..11]),
        tree: part(n[11]),
        answer: Answer {
            number: n[12],
            place: u64::from(n[13]),
            out: part(n[14]),
            diagnostics: part(n[15]),
            errored: n[16] == 1,
            rounds: n[17],
            depths: [n[18], n[19], n[20]],
        },
    }
}
