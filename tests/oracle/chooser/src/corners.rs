//! Trees written by hand for what generated ones seldom show.

use wire::text::parse;

const CORNERS: &[&str] = &[
    // local a = b, b = 1; a + ((function() b) + (function() a)): the least depth of use counts, not the last
    "JT 0, LO 2, BV 1 1, VA 2 2, BV 2 3, TV 1, BI 0, VA 1 4, BI 0, FN 5 0, VA 2 6, FN 7 0, VA 1 8",
    // the same with one more name between
    "JT 0, LO 3, BV 1 1, VA 2 2, BV 2 3, VA 3 4, BV 3 5, TV 1, BI 0, VA 1 6, BI 0, FN 7 0, VA 3 8, FN 9 0, VA 1 1",
    "JT 0, LO 3, BV 1 1, VA 2 2, BV 2 3, VA 3 4, BV 3 5, TV 1, BI 0, FN 7 0, FN 7 0, VA 3 8, BI 0, VA 1 9, FN 7 0, VA 1 1",
    // local a = b, b = c, c = d, d = e, e = 1; a, in both orders and with a ring
    "JT 0, LO 5, BV 1 1, VA 2 2, BV 2 3, VA 3 4, BV 3 5, VA 4 6, BV 4 7, VA 5 8, BV 5 9, TV 1, VA 1 1",
    "JT 0, LO 5, BV 5 9, TV 1, BV 4 7, VA 5 8, BV 3 5, VA 4 6, BV 2 3, VA 3 4, BV 1 1, VA 2 2, VA 1 1",
    "JT 0, LO 4, BV 4 7, VA 1 8, BV 1 1, VA 2 2, BV 3 5, VA 4 6, BV 2 3, VA 3 4, VA 3 1",
    "JT 0, LO 4, BV 2 1, VA 1 8, BV 3 1, VA 2 2, BV 4 5, VA 3 6, BV 1 3, VA 4 4, TV 1",
    // function(y) (local a = b, b = c, c = d, d = y; a): dependences settle over many rounds
    "JT 0, FN 1 1, PA 9 2 0, LO 4, BV 1 1, VA 2 2, BV 2 3, VA 3 4, BV 3 5, VA 4 6, BV 4 7, VA 9 8, VA 1 1",
    "JT 0, FN 1 1, PA 9 2 0, LO 4, BV 3 1, VA 4 2, BV 2 3, VA 3 4, BV 1 5, VA 2 6, BV 4 7, VA 9 8, VA 1 1",
    // {local a = b, b = self, c: a}
    "JT 0, OB 2 0 1, FH 0 7 1 0 0 0, BV 1 1, VA 2 2, BV 2 3, ID 0 4, VA 1 5",
    // {c: {local a = b, b = $, d: a}}
    "JT 0, OB 0 0 1, FH 0 7 1 0 0 0, OB 2 0 1, FH 0 8 1 0 0 0, BV 1 1, VA 2 2, BV 2 3, ID 2 4, VA 1 5",
    // captures through one, two, three and four functions, twice each
    "JT 1 9, FN 1 0, BI 0, VA 9 1, VA 9 2",
    "JT 1 9, FN 1 0, FN 1 0, BI 0, VA 9 1, VA 9 2",
    "JT 1 9, FN 1 0, FN 1 0, FN 1 0, BI 0, VA 9 1, VA 9 2",
    "JT 2 9 8, FN 1 0, BI 0, VA 8 1, FN 1 0, BI 0, FN 1 0, BI 0, VA 9 1, VA 8 2, VA 9 3",
    "JT 1 9, FN 1 1, PA 1 1 0, AR 1, FN 1 1, PA 2 1 0, AR 2, AR 2, VA 9 2, VA 1 3, VA 2 4",
    // what is outside, captured by the frames of a bind, a default, a field, an assertion and an array
    "JT 1 9, FN 1 0, LO 1, BV 1 1, VA 9 2, VA 1 3",
    "JT 1 9, FN 1 0, FN 1 1, PA 1 1 1, VA 9 2, VA 1 3",
    "JT 1 9, FN 1 0, OB 0 1 1, FH 0 7 1 0 0 0, AT 1, VA 9 1, VA 9 2, VA 9 3",
    // this, captured by functions and by inner objects
    "JT 0, OB 0 0 1, FH 0 7 1 0 0 1, FN 2 0, FN 3 0, ID 0 4",
    "JT 0, OB 0 0 1, FH 0 7 1 0 0 0, OB 0 0 1, FH 0 7 1 0 0 0, BI 0, ID 0 1, ID 2 2",
    "JT 0, OB 0 0 1, FH 0 7 1 0 0 0, OB 0 0 1, FH 0 7 1 0 0 0, OB 0 0 1, FH 0 7 1 0 0 0, ID 2 2",
    "JT 0, OB 1 2 1, FH 0 7 1 1 2 0, BV 1 1, ID 1 2, AT 0, ID 0 3, AT 1, VA 1 4, ID 2 5, AR 1, ID 1 6",
    // an object in a head; self, super and $ in heads of inner and outer objects; a head that uses a bind of its object
    "JT 0, OB 0 0 1, FH 1 0 1 0 0 0, OB 0 0 1, FH 0 7 1 0 0 0, ID 2 2, ID 2 3",
    "JT 0, OB 0 0 1, FH 0 7 1 0 0 0, OB 0 0 3, FH 1 0 1 0 0 0, ID 0 1, FH 1 0 1 0 0 0, ID 1 2, FH 1 0 1 0 0 0, ID 2 3, TV 1, TV 1, TV 1",
    "JT 1 1, OB 1 0 1, FH 1 6 1 0 0 0, VA 1 2, BV 1 3, TV 1, VA 1 4",
    "JT 0, OB 0 0 1, FH 1 0 1 0 0 0, BI 0, ID 1 1, ID 2 2, TV 1",
    // $ and self after objects, in arrays and calls
    "JT 0, AR 3, OB 0 0 1, FH 0 7 1 0 0 0, ID 2 1, ID 2 2, OB 0 0 0",
    "JT 0, AP 1 1 0 1, OB 0 0 0, ID 2 1, NA 3, ID 0 2",
    "JT 0, OX, OB 0 0 1, FH 0 7 1 0 0 0, ID 2 1, OB 0 0 1, FH 0 7 1 0 0 0, ID 1 2",
    "JT 0, OB 0 0 1, FH 0 7 1 0 0 0, OX, ID 0 3, OB 0 0 1, FH 0 7 1 1 0 0, BI 0, ID 1 2, ID 2 4",
    // name 0 in objects: this has no name
    "JT 0, OB 0 0 1, FH 0 7 1 0 0 0, VA 0 1",
    "JT 1 0, OB 0 0 1, FH 0 7 1 0 0 0, VA 0 1",
    "JT 0, OB 1 0 1, FH 0 7 1 0 0 0, BV 0 1, TV 1, VA 0 2",
    "JT 0, FN 1 1, PA 0 1 0, OB 0 0 1, FH 0 0 1 0 0 0, VA 0 2",
    // the greatest numbers
    "JT 1 4294967295, LO 1, BV 4294967294 4294967295, VA 4294967295 4294967295, VA 4294967294 4294967295",
    "JT 0, LO 1, BF 4294967295 4294967294, FN 4294967293 1, PA 4294967295 4294967292 0, VA 4294967295 1, TV 4294967295",
    // a dropped bind's references: passed on, merged, lost; after several dropped; self-references
    "JT 0, LO 3, BV 1 1, TV 1, BV 1 2, VA 2 3, BV 2 4, TV 1, VA 1 5",
    "JT 0, LO 4, BV 1 1, TV 1, BV 1 2, VA 2 3, BV 3 4, VA 2 5, BV 2 6, TV 1, VA 3 7",
    "JT 0, LO 3, BV 1 1, TV 1, BV 2 2, TV 1, BV 1 3, VA 2 4, VA 1 5",
    "JT 0, LO 5, BV 1 1, TV 1, BV 1 2, VA 3 3, BV 1 4, VA 2 5, BV 2 6, TV 1, BV 3 7, TV 1, VA 2 8",
    "JT 0, LO 3, BV 1 1, VA 1 2, BV 1 3, VA 1 4, BV 2 5, VA 2 6, VA 2 7",
    "JT 0, OB 3 0 1, FH 0 7 1 0 0 0, BV 1 1, TV 1, BV 1 2, VA 2 3, BV 2 4, TV 1, VA 1 5",
    "JT 0, FN 1 3, PA 1 1 0, PA 1 2 1, VA 2 3, PA 2 4 0, VA 1 5",
    "JT 0, FN 1 4, PA 1 1 0, PA 1 2 1, VA 3 3, PA 2 4 1, VA 3 5, PA 3 6 0, VA 2 7",
    "JT 0, FN 1 3, PA 1 1 0, PA 2 2 0, PA 1 3 1, VA 2 4, VA 1 5",
    "JT 0, FN 1 5, PA 1 1 0, PA 1 2 1, VA 2 3, PA 1 4 1, VA 2 5, PA 2 6 0, PA 3 7 0, VA 3 8",
    // dropped values that hold frames, errors, objects, identity functions
    "JT 0, LO 2, BV 1 1, TV 1, BV 1 2, LO 2, BV 2 3, VA 3 4, BV 3 5, TV 1, VA 2 6, VA 1 7",
    "JT 1 9, FN 1 0, LO 2, BV 1 1, TV 1, BV 1 2, AR 2, VA 9 3, VA 99 4, VA 1 5",
    "JT 0, LO 2, BV 1 1, TV 1, BF 1 2, FN 3 1, PA 2 4 0, VA 2 5, VA 1 6",
    "JT 0, OB 0 0 1, FH 0 7 1 0 0 0, LO 2, BV 1 1, TV 1, BV 1 2, ID 0 3, VA 1 4",
    "JT 0, FN 1 2, PA 1 1 0, PA 1 2 1, FN 3 1, PA 2 4 0, VA 2 5, VA 1 6",
    // the identity function in every place
    "JT 0, AR 1, FN 1 1, PA 1 2 0, VA 1 3",
    "JT 0, AP 1 1 0 1, FN 1 1, PA 1 2 0, VA 1 3, FN 4 1, PA 1 5 0, VA 1 6, NA 2, FN 7 1, PA 1 8 0, VA 1 9",
    "JT 0, LO 2, BV 2 1, FN 2 1, PA 1 3 0, VA 1 4, BF 3 5, FN 6 1, PA 1 7 0, VA 1 8, FN 9 1, PA 1 1 0, VA 1 2",
    "JT 0, FN 1 1, PA 2 2 1, FN 3 1, PA 1 4 0, VA 1 5, VA 2 6",
    "JT 0, OB 0 1 2, FH 1 0 1 0 0 1, FN 2 1, PA 1 3 0, VA 1 4, FH 0 5 6 0 0 0, AT 0, FN 7 1, PA 1 8 0, VA 1 9, FN 3 1, PA 1 4 0, VA 1 5, FN 6 1, PA 1 7 0, VA 1 8",
    "JT 0, FN 1 1, PA 1 2 0, LO 0, LO 0, VA 1 3",
    // almost the identity function
    "JT 0, FN 1 1, PA 1 2 1, TV 3, VA 1 4",
    "JT 0, FN 1 2, PA 1 2 0, PA 2 3 0, VA 1 4",
    "JT 0, FN 1 2, PA 1 2 1, TV 3, PA 1 4 0, VA 1 5",
    "JT 0, FN 1 1, PA 1 2 0, AR 1, VA 1 3",
    "JT 0, FN 1 1, PA 1 2 0, UN 1, VA 1 3",
    "JT 0, FN 1 1, PA 1 2 0, LO 1, BV 2 3, VA 1 4, VA 2 5",
    "JT 0, LO 1, BV 2 1, TV 1, FN 1 1, PA 1 2 0, VA 2 3",
    "JT 1 1, FN 1 0, VA 1 2",
    "JT 0, OB 0 0 1, FH 0 7 1 0 0 1, FN 1 1, PA 1 2 0, ID 0 3",
    // shadowing in nested frames of each kind
    "JT 1 1, LO 1, BV 1 1, VA 1 2, FN 3 1, PA 1 4 1, VA 1 5, OB 1 0 1, FH 1 0 6 0 0 0, VA 1 7, BV 1 8, VA 1 9, VA 1 1",
    "JT 2 1 1, FN 1 0, FN 2 1, PA 1 3 0, AR 2, VA 1 4, LO 1, BV 1 5, TV 1, VA 1 6",
    // hoisting by each kind of dependence
    "JT 1 9, FN 1 1, PA 8 2 0, LO 3, BV 1 3, VA 9 4, BV 2 5, VA 8 6, BV 3 7, TV 1, AR 3, VA 1 1, VA 2 2, VA 3 3",
    "JT 0, OB 0 0 1, FH 0 7 1 0 0 0, LO 2, BV 1 1, ID 0 2, BV 2 3, ID 2 4, BI 0, VA 1 5, VA 2 6",
    "JT 0, OB 0 0 1, FH 0 7 1 0 0 0, LO 1, BV 1 1, OB 0 0 1, FH 0 7 1 0 0 0, ID 0 2, VA 1 3",
    "JT 0, FN 1 0, LO 1, BV 1 1, FN 2 1, PA 2 3 0, LO 1, BV 3 4, VA 2 5, VA 3 6, VA 1 7",
    // static-flag
    "JT 0, OB 0 0 3, FH 0 7 1 0 0 0, FH 0 8 1 1 1 0, FH 0 7 1 0 2 0, TV 1, TV 2, TV 3",
    "JT 0, OB 0 0 2, FH 0 0 1 0 0 0, FH 1 0 1 0 0 0, TV 9, TV 1, TV 2",
    "JT 0, OB 0 0 3, FH 0 7 1 0 0 0, FH 0 8 1 0 0 0, FH 0 9 1 0 0 0, TV 1, TV 2, TV 3",
    // imports, slices, calls, parts
    "JT 0, AR 2, IM 3 1 0 5, IM 4294967295 2 1 6",
    "JT 0, AR 8, SC 0, TV 1, SC 1, TV 1, TV 2, SC 2, TV 1, TV 2, SC 3, TV 1, TV 2, TV 3, SC 4, TV 1, TV 2, SC 5, TV 1, TV 2, TV 3, SC 6, TV 1, TV 2, TV 3, SC 7, TV 1, TV 2, TV 3, TV 4",
    "JT 1 9, IX 2, VA 9 1, PT 2, VA 9 3, PT 4, AS 1, TV 1, ER 5, VA 9 6, IF 0, TV 1, TV 2",
];

pub fn corners() -> Vec<Vec<u8>> {
    CORNERS.iter().map(|text| parse(text)).collect()
}
