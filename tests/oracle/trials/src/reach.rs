//! A walk over an output from its end, where each shape comes before what is read in it: every slot must lie within
//! its frame, and a capture's chain of captures is as long as the frames it goes through.

use wire::{number, text};

struct Record<'a> {
    mark: &'a [u8],
    numbers: Vec<u32>,
}

struct Frame {
    /// the locals, if the frame is defining
    locals: Option<u32>,
    /// for each capture, through how many frames it comes
    chains: Vec<u32>,
}

/// Of one output.
#[derive(Clone, Copy, Debug, Default)]
pub struct Reach {
    pub longest_chain: u32,
    pub captures: u32,
}

/// Panics where a slot or source is outside its frame, or records don't fit together.
pub fn reach(output: &[u8]) -> Reach {
    let mut walk = Walk {
        records: records(output),
        frames: vec![],
        reach: Reach::default(),
    };
    walk.inside(true, Walk::expr);
    assert!(
        walk.records.is_empty(),
        "records before the first expression"
    );
    walk.reach
}

fn records(output: &[u8]) -> Vec<Record<'_>> {
    let mut records = vec![];
    let mut at = 0;
    while at < output.len() {
        let length = text::record_length(output, at, text::output_width).expect("a whole record");
        let numbers = (at + 2..at + length)
            .step_by(4)
            .map(|field| number(output, field))
            .collect();
        records.push(Record {
            mark: &output[at..at + 2],
            numbers,
        });
        at += length;
    }
    records
}

struct Walk<'a> {
    records: Vec<Record<'a>>,
    frames: Vec<Frame>,
    reach: Reach,
}

impl Walk<'_> {
    fn take(&mut self, mark: &[u8; 2]) -> Vec<u32> {
        let record = self.records.pop().expect("a record");
        assert_eq!(record.mark, mark);
        record.numbers
    }

    /// A frame whose shape comes next, and what lies in it.
    fn inside(&mut self, defining: bool, content: impl FnOnce(&mut Self)) {
        let numbers = self.take(b"SH");
        let sources: Vec<(u32, u32)> = numbers[2..]
            .chunks(2)
            .map(|pair| (pair[0], pair[1]))
            .collect();
        let chains: Vec<u32> = sources
            .into_iter()
            .map(|source| 1 + self.chain(source))
            .collect();
        self.reach.captures += chains.len() as u32;
        let longest = chains.iter().copied().max().unwrap_or(0);
        self.reach.longest_chain = self.reach.longest_chain.max(longest);
        assert!(defining || numbers[0] == 0, "a using frame has no locals");
        self.frames.push(Frame {
            locals: defining.then_some(numbers[0]),
            chains,
        });
        content(self);
        self.frames.pop();
    }

    /// Through how many frames a source in the newest frame came.
    fn chain(&self, (kind, index): (u32, u32)) -> u32 {
        let frame = self.frames.last().expect("the root captures nothing");
        if kind == 1 {
            return frame.chains[index as usize];
        }
        let locals = self.frames.iter().rev().find_map(|frame| frame.locals);
        assert!(
            index < locals.expect("the root is defining"),
            "a slot past the frame's locals"
        );
        0
    }

    fn many(&mut self, count: u32, one: impl Fn(&mut Self)) {
        (0..count).for_each(|_| one(self));
    }

    fn expr(&mut self) {
        let Record { mark, numbers } = self.records.pop().expect("an expression");
        match <&[u8; 2]>::try_from(mark).expect("two bytes") {
            b"TV" | b"AC" | b"SU" | b"BL" | b"IM" | b"IY" => {}
            b"LS" => drop(self.chain((0, numbers[0]))),
            b"CS" => drop(self.chain((1, numbers[0]))),
            b"AR" => self.inside(false, |walk| walk.many(numbers[0], Self::expr)),
            b"UN" | b"ER" => self.expr(),
            b"BI" => self.many(2, Self::expr),
            b"AS" | b"IF" => self.many(2 + numbers[0], Self::expr),
            b"SC" => self.many(1 + numbers[0].count_ones(), Self::expr),
            b"OX" => self.many(2, Self::expr),
            b"AP" => {
                self.many(numbers[1], |walk| walk.under(b"NA"));
                self.many(1 + numbers[0], Self::expr);
            }
            b"IX" => {
                self.many(numbers[0], |walk| walk.under(b"PT"));
                self.expr();
            }
            b"LO" => self.inside(true, |walk| {
                walk.expr();
                walk.many(numbers[0], Self::bind);
            }),
            b"FN" => self.inside(true, |walk| {
                walk.expr();
                walk.many(numbers[2], Self::parameter);
            }),
            b"OB" => self.object(&numbers),
            other => panic!("{other:?} is no expression"),
        }
    }

    fn under(&mut self, mark: &[u8; 2]) {
        self.take(mark);
        self.expr();
    }

    fn bind(&mut self) {
        let slot = self.take(b"BV")[0];
        self.chain((0, slot));
        self.inside(false, Self::expr);
    }

    fn parameter(&mut self) {
        let numbers = self.take(b"PA");
        self.chain((0, numbers[1]));
        if numbers[2] == 1 {
            self.inside(false, Self::expr);
        }
    }

    fn object(&mut self, numbers: &[u32]) {
        let (locals, assertions, fields) = (numbers[3], numbers[4], numbers[5]);
        self.inside(true, |walk| {
            walk.many(fields, |walk| {
                walk.take(b"FV");
                walk.inside(false, Self::expr);
            });
            if assertions > 0 {
                walk.inside(false, |walk| walk.many(assertions, Self::assertion));
            }
            walk.many(locals, Self::bind);
        });
        self.many(fields, |walk| {
            if walk.take(b"FH")[0] == 1 {
                walk.expr();
            }
        });
    }

    fn assertion(&mut self) {
        let message = self.take(b"AT")[0];
        self.many(1 + message, Self::expr);
    }
}
