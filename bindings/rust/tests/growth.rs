//! Memory grows from nothing to what is needed, and no further than the cap.

mod common;

use common::{NOTHING, stored};
use tsilmogar::{Analyzer, Kind, Limits, analyze};
use wire::text::parse;

/// The refusal for too little of one of the six, and limits with so much of it and much of the rest.
type Part = (Kind, fn(usize) -> Limits);

const PARTS: [Part; 6] = [
    (Kind::LocalsFull, |n| Limits {
        locals: n as u32,
        ..Limits::CAP
    }),
    (Kind::FramesFull, |n| Limits {
        frames: n as u32,
        ..Limits::CAP
    }),
    (Kind::CapturesFull, |n| Limits {
        captures: n as u32,
        ..Limits::CAP
    }),
    (Kind::ReferencesFull, |n| Limits {
        references: n as u32,
        ..Limits::CAP
    }),
    (Kind::OutputFull, |n| Limits {
        output: n,
        ..Limits::CAP
    }),
    (Kind::DiagnosticsFull, |n| Limits {
        diagnostics: n,
        ..Limits::CAP
    }),
];

/// It needs some of each: local a = b, b = function(y) [x, a, undefined]; b, with x external.
const NEEDS_ALL: &str =
    "JT 1 9, LO 2, BV 1 1, VA 2 2, BV 2 3, FN 4 1, PA 3 5 0, AR 3, VA 9 6, VA 1 7, VA 99 8, VA 2 9";

/// For each of the six: refused with its number below what is needed, accepted from there on with the one answer.
#[test]
fn a_cap_that_is_reached_is_the_refusal() {
    let tree = parse(NEEDS_ALL);
    let right = analyze(&tree).expect("an accepted tree");
    for (kind, limits) in PARTS {
        let with_cap = |cap| Analyzer::new(NOTHING, limits(cap)).analyze(&tree);
        let needed = (0..10_000)
            .find(|&cap| with_cap(cap).is_ok())
            .expect("some cap");
        assert!(needed > 0);
        assert!((0..needed).all(|cap| with_cap(cap).is_err_and(|refusal| refusal.kind == kind)));
        assert!((needed..2 * needed).all(|cap| with_cap(cap).as_ref() == Ok(&right)));
    }
}

#[test]
fn growing_from_nothing_gives_the_same_answers() {
    let mut usual = Analyzer::default();
    for call in stored() {
        let grown = Analyzer::new(NOTHING, Limits::CAP).analyze(&call.tree);
        assert_eq!(grown, usual.analyze(&call.tree));
    }
}

/// After one that met a cap and one that is no tree.
#[test]
fn an_analyser_can_be_used_again() {
    let small = Limits {
        output: 200,
        ..Limits::CAP
    };
    let mut analyzer = Analyzer::new(NOTHING, small);
    let long = parse(&format!("JT 0, AR 100{}", ", OB 0 0 0".repeat(100)));
    for _ in 0..2 {
        assert_eq!(analyzer.analyze(&long).unwrap_err().kind, Kind::OutputFull);
        assert_eq!(analyzer.analyze(b"JT").unwrap_err().kind, Kind::CutShort);
        let tree = parse("JT 0, LO 1, BV 5 9, TV 3, VA 5 8");
        assert_eq!(analyzer.analyze(&tree), analyze(&tree));
    }
}

/// A start above the cap is the cap.
#[test]
fn a_start_is_never_above_the_cap() {
    let answer = Analyzer::new(Limits::START, NOTHING).analyze(&parse("JT 0, TV 1"));
    assert_eq!(answer.unwrap_err().kind, Kind::FramesFull);
}
