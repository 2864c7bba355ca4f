//! Answers worked out by hand: the worked cases of document 01 and the examples of its agreed readings.
//! Names: a 1, b 2, external 4, x 5, y 6, t 7, z 8, unbound 99; constants 3 and 9; every other number is a span.

use wire::Answer;
use wire::text::parse;

pub struct Case {
    /// The tree in Jsonnet, and what it shows.
    pub says: &'static str,
    tree: &'static str,
    out: &'static str,
    diagnostics: &'static str,
    rounds: u32,
    depths: [u32; 3],
}

impl Case {
    pub fn tree(&self) -> Vec<u8> {
        parse(self.tree)
    }

    pub fn answer(&self) -> Answer {
        Answer {
            number: 0,
            place: 0,
            out: parse(self.out),
            diagnostics: parse(self.diagnostics),
            errored: self.diagnostics.contains("DG 0"),
            rounds: self.rounds,
            depths: self.depths,
        }
    }
}

const NEVER: u32 = u32::MAX;
const NOTHING: [u32; 3] = [NEVER, NEVER, 0];
const OUTERMOST: [u32; 3] = [NEVER, 0, 0];

pub const CASES: &[Case] = &[
    Case {
        says: "case 1: local x = 1; x",
        tree: "JT 0, LO 1, BV 5 9, TV 3, VA 5 8",
        out: "TV 3, SH 0 0, BV 0, LS 0, SH 1 0, LO 1, SH 0 0",
        diagnostics: "",
        rounds: 2,
        depths: OUTERMOST,
    },
    Case {
        says: "case 2: local a = 1, b = a; b",
        tree: "JT 0, LO 2, BV 1 11, TV 3, BV 2 12, VA 1 13, VA 2 14",
        out: "TV 3, SH 0 0, BV 0, LS 0, SH 0 0, BV 1, LS 1, SH 2 0, LO 2, SH 0 0",
        diagnostics: "DG 1 8 1 11",
        rounds: 2,
        depths: OUTERMOST,
    },
    Case {
        says: "case 2: local b = a, a = 1; b",
        tree: "JT 0, LO 2, BV 2 12, VA 1 13, BV 1 11, TV 3, VA 2 14",
        out: "LS 1, SH 0 0, BV 0, TV 3, SH 0 0, BV 1, LS 0, SH 2 0, LO 2, SH 0 0",
        diagnostics: "",
        rounds: 3,
        depths: OUTERMOST,
    },
    Case {
        says: "case 3: local x = 1; function(y) x + y",
        tree: "JT 0, LO 1, BV 5 9, TV 3, FN 20 1, PA 6 21 0, BI 2, VA 5 22, VA 6 23",
        out: "TV 3, SH 0 0, BV 0, PA 6 0 0, CS 0, LS 0, BI 2, SH 1 1 0 0, FN 0 0 1, SH 1 0, LO 1, SH 0 0",
        diagnostics: "DG 1 9 6 21",
        rounds: 4,
        depths: [NEVER, 0, 1],
    },
    Case {
        says: "case 4: [[external]]",
        tree: "JT 1 4, AR 1, AR 1, VA 4 8",
        out: "LS 0, SH 0 0, AR 1, SH 0 0, AR 1, SH 1 0",
        diagnostics: "",
        rounds: 0,
        depths: OUTERMOST,
    },
    Case {
        says: "case 5: function(y) [external]",
        tree: "JT 1 4, FN 20 1, PA 6 21 0, AR 1, VA 4 8",
        out: "PA 6 0 0, CS 0, SH 0 1 1 0, AR 1, SH 1 1 0 0, FN 0 0 1, SH 1 0",
        diagnostics: "DG 1 7 6 21",
        rounds: 2,
        depths: OUTERMOST,
    },
    Case {
        says: "case 6: local x = 1, x = 2; x",
        tree: "JT 0, LO 2, BV 5 9, TV 3, BV 5 10, TV 9, VA 5 8",
        out: "TV 3, SH 0 0, BV 0, LS 0, SH 1 0, LO 1, SH 0 0",
        diagnostics: "DG 0 2 5 10",
        rounds: 2,
        depths: OUTERMOST,
    },
    Case {
        says: "case 7: function(x, x) x",
        tree: "JT 0, FN 20 2, PA 5 21 0, PA 5 22 0, VA 5 8",
        out: "IY, SH 0 0",
        diagnostics: "DG 0 2 5 22, DG 1 10 0 20",
        rounds: 2,
        depths: OUTERMOST,
    },
    Case {
        says: "case 8: {[self]: 1}",
        tree: "JT 0, OB 0 0 1, FH 1 77 30 0 1 0, ID 0 31, TV 3",
        out: "BL 0, FH 1 0 0 1, TV 3, SH 0 0, FV, SH 1 0, OB 0 0 0 0 0 1 0, SH 0 0",
        diagnostics: "DG 0 3 0 31",
        rounds: 2,
        depths: NOTHING,
    },
    Case {
        says: "case 8: {}",
        tree: "JT 0, OB 0 0 0",
        out: "SH 1 0, OB 0 0 0 0 0 0 1, SH 0 0",
        diagnostics: "",
        rounds: 2,
        depths: NOTHING,
    },
    Case {
        says: "case 8: {a: 1, a: 2}",
        tree: "JT 0, OB 0 0 2, FH 0 1 30 0 1 0, FH 0 1 31 0 1 0, TV 3, TV 9",
        out: "FH 0 1 0 1, FH 0 1 0 1, TV 3, SH 0 0, FV, TV 9, SH 0 0, FV, SH 1 0, OB 0 0 0 0 0 2 0, SH 0 0",
        diagnostics: "",
        rounds: 2,
        depths: NOTHING,
    },
    Case {
        says: "reading 5: []",
        tree: "JT 0, AR 0",
        out: "AC 0, SH 0 0",
        diagnostics: "",
        rounds: 0,
        depths: NOTHING,
    },
    Case {
        says: "reading 5: [3, 9]",
        tree: "JT 0, AR 2, TV 3, TV 9",
        out: "AC 2 3 9, SH 0 0",
        diagnostics: "",
        rounds: 0,
        depths: NOTHING,
    },
    Case {
        says: "reading 9: local x = x; 0",
        tree: "JT 0, LO 1, BV 5 9, VA 5 8, TV 3",
        out: "LS 0, SH 0 0, BV 0, TV 3, SH 1 0, LO 1, SH 0 0",
        diagnostics: "DG 1 8 5 9",
        rounds: 2,
        depths: OUTERMOST,
    },
    Case {
        says: "reading 10: local a = (local t = b; t), b = 1; a",
        tree: "JT 0, LO 2, BV 1 11, LO 1, BV 7 12, VA 2 13, VA 7 14, BV 2 15, TV 3, VA 1 16",
        out: "CS 0, SH 0 1 1 0, BV 0, LS 0, SH 1 1 0 1, LO 1, SH 0 0, BV 0, TV 3, SH 0 0, BV 1, \
              LS 0, SH 2 0, LO 2, SH 0 0",
        diagnostics: "",
        rounds: 5,
        depths: OUTERMOST,
    },
    Case {
        says: "reading 11: function(a, a = b, b = b) 0",
        tree: "JT 0, FN 20 3, PA 1 21 0, PA 1 22 1, VA 2 23, PA 2 24 1, VA 2 25, TV 3",
        out: "PA 1 0 0, LS 1, SH 0 0, PA 2 1 1, TV 3, SH 2 0, FN 0 0 2, SH 0 0",
        diagnostics: "DG 0 2 1 22, DG 1 8 2 24, DG 1 7 1 21",
        rounds: 2,
        depths: OUTERMOST,
    },
    Case {
        says: "reading 11: local a = 1, a = b, t = 2, b = 3; t (b is used through t)",
        tree: "JT 0, LO 4, BV 1 11, TV 3, BV 1 12, VA 2 13, BV 7 14, TV 3, BV 2 15, TV 3, VA 7 16",
        out: "TV 3, SH 0 0, BV 0, TV 3, SH 0 0, BV 1, TV 3, SH 0 0, BV 2, LS 1, SH 3 0, LO 3, SH 0 0",
        diagnostics: "DG 0 2 1 12, DG 1 7 1 11",
        rounds: 4,
        depths: OUTERMOST,
    },
    Case {
        says: "reading 12: function() 1",
        tree: "JT 0, FN 20 0, TV 3",
        out: "TV 3, SH 0 0, FN 0 0 0, SH 0 0",
        diagnostics: "",
        rounds: 2,
        depths: NOTHING,
    },
    Case {
        says: "reading 12: 1 under LO 0",
        tree: "JT 0, LO 0, TV 3",
        out: "TV 3, SH 0 0",
        diagnostics: "",
        rounds: 0,
        depths: NOTHING,
    },
    Case {
        says: "reading 13: function() (local a = 1, a = function(y) [external]; 2)",
        tree: "JT 1 4, FN 40 0, LO 2, BV 1 11, TV 3, BV 1 12, FN 20 1, PA 6 21 0, AR 1, VA 4 8, TV 9",
        out: "TV 3, SH 0 0, BV 0, TV 9, SH 1 1 1 0, LO 1, SH 0 1 0 0, FN 0 0 0, SH 1 0",
        diagnostics: "DG 0 2 1 12, DG 1 7 6 21, DG 1 7 1 11",
        rounds: 6,
        depths: OUTERMOST,
    },
    Case {
        says: "reading 16: {local t(y) = y, assert 1, a(y): y, b: (LO 0: 9)}",
        tree: PLACES,
        out: "FH 0 1 0 1, FH 0 2 0 1, IY, SH 0 0, BV 1, TV 3, AT 0, SH 0 0, \
              IY, SH 0 0, FV, TV 9, SH 0 0, FV, SH 2 0, OB 0 0 0 1 1 2 1, SH 0 0",
        diagnostics: "DG 1 10 0 32, DG 1 9 6 37, DG 1 10 0 30, DG 1 7 7 32",
        rounds: 6,
        depths: [NEVER, 0, 1],
    },
    Case {
        says: "reading 17: 3(a = 9)",
        tree: "JT 0, AP 0 1 1 40, TV 3, NA 1, TV 9",
        out: "TV 3, TV 9, NA 1, AP 0 1 1 40, SH 0 0",
        diagnostics: "",
        rounds: 0,
        depths: NOTHING,
    },
    Case {
        says: "reading 17: 3[9]",
        tree: "JT 0, IX 1, TV 3, PT 41, TV 9",
        out: "TV 3, TV 9, PT 41, IX 1, SH 0 0",
        diagnostics: "",
        rounds: 0,
        depths: NOTHING,
    },
    Case {
        says: "reading 18: function(x) (LO 0: x)",
        tree: "JT 0, FN 20 1, PA 5 21 0, LO 0, VA 5 8",
        out: "IY, SH 0 0",
        diagnostics: "DG 1 10 0 20",
        rounds: 2,
        depths: OUTERMOST,
    },
    Case {
        says: "reading 18: function(x, x = 1) x",
        tree: "JT 0, FN 20 2, PA 5 21 0, PA 5 22 1, TV 3, VA 5 8",
        out: "IY, SH 0 0",
        diagnostics: "DG 0 2 5 22, DG 1 10 0 20",
        rounds: 2,
        depths: OUTERMOST,
    },
    Case {
        says: "reading 18: function(a) function(x) x (9, then 10)",
        tree: "JT 0, FN 20 1, PA 1 21 0, FN 22 1, PA 5 23 0, VA 5 24",
        out: "PA 1 0 0, IY, SH 1 0, FN 0 0 1, SH 0 0",
        diagnostics: "DG 1 9 5 23, DG 1 10 0 22, DG 1 7 1 21",
        rounds: 4,
        depths: [NEVER, 1, 1],
    },
    Case {
        says: "reading 19: {a: super}",
        tree: "JT 0, OB 0 0 1, FH 0 1 30 0 1 0, ID 1 31",
        out: "FH 0 1 0 1, SU, SH 0 0, FV, SH 1 0, OB 1 0 1 0 0 1 1, SH 0 0",
        diagnostics: "",
        rounds: 2,
        depths: [0, 0, 0],
    },
    Case {
        says: "reading 20: {a: {b: $}} (the inner object gets no flag)",
        tree: "JT 0, OB 0 0 1, FH 0 1 30 0 1 0, OB 0 0 1, FH 0 2 31 0 1 0, ID 2 32",
        out: "FH 0 1 0 1, FH 0 2 0 1, CS 0, SH 0 1 1 0, FV, SH 1 1 0 0, OB 0 0 0 0 0 1 1, \
              SH 0 0, FV, SH 1 0, OB 1 1 0 0 0 1 1, SH 0 0",
        diagnostics: "",
        rounds: 4,
        depths: [0, 0, 0],
    },
    Case {
        says: "reading 20: {local a = 1, b: a} (slots of binds start at 1)",
        tree: "JT 0, OB 1 0 1, FH 0 2 30 0 1 0, BV 1 11, TV 3, VA 1 12",
        out: "FH 0 2 0 1, TV 3, SH 0 0, BV 1, LS 1, SH 0 0, FV, SH 2 0, OB 0 0 0 1 0 1 1, SH 0 0",
        diagnostics: "",
        rounds: 2,
        depths: OUTERMOST,
    },
    Case {
        says: "reading 21: local a = 0, a = external; unbound",
        tree: "JT 1 4, LO 2, BV 1 11, TV 3, BV 1 12, VA 4 13, VA 99 14",
        out: "TV 3, SH 0 0, BV 0, BL 3, SH 1 1 0 0, LO 1, SH 1 0",
        diagnostics: "DG 0 2 1 12, DG 0 1 99 14, DG 1 7 1 11",
        rounds: 2,
        depths: OUTERMOST,
    },
    Case {
        says: "reading 22: local a = 1, b = function() a; 1",
        tree: "JT 0, LO 2, BV 1 11, TV 3, BV 2 12, FN 20 0, VA 1 13, TV 3",
        out: "TV 3, SH 0 0, BV 0, CS 0, SH 0 1 0 0, FN 0 0 0, SH 0 0, BV 1, TV 3, SH 2 0, LO 2, SH 0 0",
        diagnostics: "DG 1 7 2 12",
        rounds: 4,
        depths: OUTERMOST,
    },
    Case {
        says: "reading 22: local x = 1, y = (local z = x; z); y",
        tree: "JT 0, LO 2, BV 5 11, TV 3, BV 6 12, LO 1, BV 8 13, VA 5 14, VA 8 15, VA 6 16",
        out: "TV 3, SH 0 0, BV 0, CS 0, SH 0 1 1 0, BV 0, LS 0, SH 1 1 0 0, LO 1, SH 0 0, BV 1, \
              LS 1, SH 2 0, LO 2, SH 0 0",
        diagnostics: "DG 1 8 5 11",
        rounds: 4,
        depths: OUTERMOST,
    },
    Case {
        says: "reading 23: of two externals of one name the last",
        tree: "JT 2 4 4, VA 4 8",
        out: "LS 1, SH 2 0",
        diagnostics: "",
        rounds: 0,
        depths: OUTERMOST,
    },
    Case {
        says: "reading 26: local b = function() 3; b as BV, unnamed",
        tree: "JT 0, LO 1, BV 2 11, FN 20 0, TV 3, VA 2 12",
        out: "TV 3, SH 0 0, FN 0 0 0, SH 0 0, BV 0, LS 0, SH 1 0, LO 1, SH 0 0",
        diagnostics: "",
        rounds: 4,
        depths: OUTERMOST,
    },
    Case {
        says: "reading 26: local b() = 3; b as BF, named",
        tree: "JT 0, LO 1, BF 2 11, FN 20 0, TV 3, VA 2 12",
        out: "TV 3, SH 0 0, FN 1 2 0, SH 0 0, BV 0, LS 0, SH 1 0, LO 1, SH 0 0",
        diagnostics: "",
        rounds: 4,
        depths: OUTERMOST,
    },
];

/// Every place of reading 16: a bound function, an assertion, a method and an `LO 0` value.
pub(crate) const PLACES: &str = "JT 0, OB 1 1 2, FH 0 1 30 0 1 1, FH 0 2 31 0 1 0, \
    BF 7 32, FN 33 1, PA 6 34 0, VA 6 35, \
    AT 0, TV 3, \
    FN 36 1, PA 6 37 0, VA 6 38, LO 0, TV 9";
