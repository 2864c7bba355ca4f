//! The starred cases of document 01 with whole answers (crates/rules/specs/Cases.antt), and refusals.

use tsilmogar::{Analyzer, Code, Depths, Diagnostic, Kind, Level, Limits, Refusal, analyze};
use wire::text::parse;

struct Case {
    tree: &'static str,
    output: &'static str,
    diagnostics: &'static str,
    rounds: u64,
    depths: (Option<u32>, Option<u32>, u32),
}

const CASES: [Case; 11] = [
    // local x = 1; x
    Case {
        tree: "JT 0, LO 1, BV 5 9, TV 3, VA 5 8",
        output: "TV 3, SH 0 0, BV 0, LS 0, SH 1 0, LO 1, SH 0 0",
        diagnostics: "",
        rounds: 2,
        depths: (None, Some(0), 0),
    },
    // local a = 1, b = a; b
    Case {
        tree: "JT 0, LO 2, BV 1 11, TV 7, BV 2 12, VA 1 13, VA 2 14",
        output: "TV 7, SH 0 0, BV 0, LS 0, SH 0 0, BV 1, LS 1, SH 2 0, LO 2, SH 0 0",
        diagnostics: "DG 1 8 1 11",
        rounds: 2,
        depths: (None, Some(0), 0),
    },
    // local b = a, a = 1; b
    Case {
        tree: "JT 0, LO 2, BV 2 12, VA 1 13, BV 1 11, TV 7, VA 2 14",
        output: "LS 1, SH 0 0, BV 0, TV 7, SH 0 0, BV 1, LS 0, SH 2 0, LO 2, SH 0 0",
        diagnostics: "",
        rounds: 3,
        depths: (None, Some(0), 0),
    },
    // local x = 1; function(y) x + y
    Case {
        tree: "JT 0, LO 1, BV 5 9, TV 3, FN 20 1, PA 6 21 0, BI 30, VA 5 22, VA 6 23",
        output: "TV 3, SH 0 0, BV 0, PA 6 0 0, CS 0, LS 0, BI 30, SH 1 1 0 0, FN 0 0 1, SH 1 0, LO 1, SH 0 0",
        diagnostics: "DG 1 9 6 21",
        rounds: 4,
        depths: (None, Some(0), 1),
    },
    // [[x]], x external
    Case {
        tree: "JT 1 5, AR 1, AR 1, VA 5 8",
        output: "LS 0, SH 0 0, AR 1, SH 0 0, AR 1, SH 1 0",
        diagnostics: "",
        rounds: 0,
        depths: (None, Some(0), 0),
    },
    // function(y) [x], x external
    Case {
        tree: "JT 1 5, FN 20 1, PA 6 21 0, AR 1, VA 5 8",
        output: "PA 6 0 0, CS 0, SH 0 1 1 0, AR 1, SH 1 1 0 0, FN 0 0 1, SH 1 0",
        diagnostics: "DG 1 7 6 21",
        rounds: 2,
        depths: (None, Some(0), 0),
    },
    // local x = 1, x = 2; x
    Case {
        tree: "JT 0, LO 2, BV 5 9, TV 1, BV 5 10, TV 2, VA 5 8",
        output: "TV 1, SH 0 0, BV 0, LS 0, SH 1 0, LO 1, SH 0 0",
        diagnostics: "DG 0 2 5 10",
        rounds: 2,
        depths: (None, Some(0), 0),
    },
    // function(x, x) x
    Case {
        tree: "JT 0, FN 20 2, PA 5 21 0, PA 5 22 0, VA 5 23",
        output: "IY, SH 0 0",
        diagnostics: "DG 0 2 5 22, DG 1 10 0 20",
        rounds: 2,
        depths: (None, Some(0), 0),
    },
    // {[self]: 1}
    Case {
        tree: "JT 0, OB 0 0 1, FH 1 0 40 0 0 0, ID 0 41, TV 1",
        output: "BL 0, FH 1 0 0 0, TV 1, SH 0 0, FV, SH 1 0, OB 0 0 0 0 0 1 0, SH 0 0",
        diagnostics: "DG 0 3 0 41",
        rounds: 2,
        depths: (None, None, 0),
    },
    // {}
    Case {
        tree: "JT 0, OB 0 0 0",
        output: "SH 1 0, OB 0 0 0 0 0 0 1, SH 0 0",
        diagnostics: "",
        rounds: 2,
        depths: (None, None, 0),
    },
    // {a: 1, a: 2}
    Case {
        tree: "JT 0, OB 0 0 2, FH 0 5 40 0 0 0, FH 0 5 41 0 0 0, TV 1, TV 2",
        output: "FH 0 5 0 0, FH 0 5 0 0, TV 1, SH 0 0, FV, TV 2, SH 0 0, FV, SH 1 0, OB 0 0 0 0 0 2 0, SH 0 0",
        diagnostics: "",
        rounds: 2,
        depths: (None, None, 0),
    },
];

#[test]
fn worked_cases_have_their_whole_answers() {
    let mut analyzer = Analyzer::default();
    for case in CASES {
        let found = analyzer.analyze(&parse(case.tree)).expect(case.tree);
        assert_eq!(found.output(), parse(case.output), "{}", case.tree);
        assert_eq!(found.diagnostic_bytes(), parse(case.diagnostics));
        assert_eq!(found.errored(), case.diagnostics.contains("DG 0"));
        let (object, local, greatest_local) = case.depths;
        let depths = Depths {
            object,
            local,
            greatest_local,
        };
        assert_eq!((found.rounds(), found.depths()), (case.rounds, depths));
        let records: Vec<String> = found.records().map(|r| r.unwrap().to_string()).collect();
        assert_eq!(records.join(", "), case.output);
    }
}

#[test]
fn diagnostics_say_what_they_are_about() {
    let found = analyze(&parse(CASES[7].tree)).unwrap();
    let read: Vec<Diagnostic> = found.diagnostics().map(Result::unwrap).collect();
    let twice = Diagnostic {
        level: Level::Error,
        code: Code::DefinedTwice,
        name: Some(5),
        span: 22,
    };
    let identity = Diagnostic {
        level: Level::Warning,
        code: Code::Identity,
        name: None,
        span: 20,
    };
    assert_eq!(read, [twice, identity]);
    let texts: Vec<String> = read.iter().map(Diagnostic::to_string).collect();
    assert_eq!(
        texts,
        [
            "error 2 at span 22, name 5: the name is defined twice in one frame",
            "warning 10 at span 20: a function that answers its parameter",
        ]
    );
}

fn refused(tree: &[u8], kind: Kind, place: u64) {
    assert_eq!(analyze(tree), Err(Refusal { kind, place }));
}

#[test]
fn trees_that_are_no_trees_are_refused() {
    refused(b"", Kind::CutShort, 0);
    refused(&parse("JT 0, VA 5"), Kind::CutShort, 6);
    refused(&parse("TV 0"), Kind::WrongMark, 0);
    refused(&parse("JT 0, XX 1"), Kind::WrongMark, 6);
    refused(&parse("JT 0, ID 3 1"), Kind::OutOfRange, 6);
    refused(&parse("JT 0, TV 1, TV 2"), Kind::BytesLeft, 12);
    refused(&parse("JT 70000"), Kind::TooManyLocals, 0);
    refused(&vec![0; (1 << 24) + 1], Kind::TreeLong, 0);
}

/// `UN` so many times and a constant.
fn nested(levels: usize) -> Vec<u8> {
    let mut tree = parse("JT 0");
    tree.extend(parse("UN 0").repeat(levels - 1));
    tree.extend(parse("TV 1"));
    tree
}

#[test]
fn nesting_is_refused_beyond_200() {
    assert!(analyze(&nested(200)).is_ok());
    refused(&nested(201), Kind::NestedTooDeep, 6 + 200 * 6);
}

#[test]
fn a_refusal_tells_number_place_and_meaning() {
    let refusal = analyze(&parse("JT 0, XX 1")).unwrap_err();
    assert_eq!((refusal.number(), refusal.place), (2, 6));
    let error: Box<dyn std::error::Error> = refusal.into();
    assert_eq!(
        error.to_string(),
        "refusal 2 at byte 6: a mark isn't allowed there"
    );
}

/// A level of nesting opens two frames: a local, and the value of its bind.
#[test]
fn the_usual_limit_of_frames_is_enough() {
    let mut tree = parse("JT 0");
    tree.extend(parse("LO 1, BV 1 1").repeat(199));
    tree.extend(parse("OB 0 0 0"));
    tree.extend(parse("TV 1").repeat(199));
    let with_frames = |frames| {
        let limits = Limits {
            frames,
            ..Limits::START
        };
        Analyzer::new(limits, limits).analyze(&tree)
    };
    assert_eq!(with_frames(399).unwrap_err().kind, Kind::FramesFull);
    assert_eq!(with_frames(400), analyze(&tree));
    assert!(400 <= Limits::FRAMES_ENOUGH && analyze(&tree).is_ok());
}
