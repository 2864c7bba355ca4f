//! The cases worked out by hand, and the readings that only refusals and limits show.

use crate::cases::{CASES, PLACES};
use crate::{Fault, analyze, analyze_with, first_walk, needed};
use wire::text::parse as records;
use wire::{Answer, Lent};

fn ample() -> Lent {
    Lent::exact([70_000, 1_000, 140_000, 1_000], 4_000_000, 10_000)
}

fn walk_answers(tree: &[u8], number: u32, place: u64) {
    assert_eq!(first_walk(None, tree), (number, place));
}

fn refuses(lent: &Lent, tree: &str, number: u32, place: u64) {
    assert_eq!(
        analyze(lent, &records(tree)),
        Answer::refused(number, place)
    );
}

fn exactly(tree: &str) -> Lent {
    needed(&records(tree)).expect("an accepted tree")
}

/// A call under the exact limits is accepted, and one less of a lent amount is refused.
fn tight(tree: &str, lessen: fn(&mut Lent), number: u32, place: u64) {
    let mut lent = exactly(tree);
    assert_eq!(analyze(&lent, &records(tree)).number, 0);
    lessen(&mut lent);
    refuses(&lent, tree, number, place);
}

// ---- document 01, profiles tried by hand

#[test]
fn cases_by_hand() {
    for case in CASES {
        assert_eq!(
            analyze(&ample(), &case.tree()),
            case.answer(),
            "{}",
            case.says
        );
    }
}

/// `local x = 1; x`
#[test]
fn case_1_has_38_bytes_and_writes_54() {
    assert_eq!(
        (CASES[0].tree().len(), CASES[0].answer().out.len()),
        (38, 54)
    );
}

fn many_binds(owner: &str, count: u32, after: &str) -> Vec<u8> {
    let mut tree = records(owner);
    for name in 0..count {
        wire::put(&mut tree, b"BV", &[name, 0]);
        wire::put(&mut tree, b"TV", &[0]);
    }
    tree.extend(records(after));
    tree
}

fn large() -> Lent {
    Lent::exact([140_000, 10, 140_000, 10], 20_000_000, 2_000_000)
}

#[test]
fn case_9_locals() {
    let bind = 16;
    let local = many_binds("JT 0, LO 65535", 65_535, "TV 1");
    assert_eq!(analyze(&large(), &local).number, 0);
    let over = many_binds("JT 0, LO 65536", 65_536, "TV 1");
    assert_eq!(
        analyze(&large(), &over),
        Answer::refused(11, 12 + bind * 65_535)
    );
    let object = many_binds("JT 0, OB 65534 0 0", 65_534, "");
    assert_eq!(analyze(&large(), &object).number, 0);
    let over = many_binds("JT 0, OB 65535 0 0", 65_535, "");
    assert_eq!(
        analyze(&large(), &over),
        Answer::refused(11, 20 + bind * 65_534)
    );
}

/// `local a = 1, b = 2, x = 3; function() 3(external, ..)`, where the function captures all externals.
fn many_captures(items: u32, last: &str) -> Vec<u8> {
    let mut tree = records("JT 65535");
    for name in 100..100 + 65_535 {
        tree.extend(u32::to_le_bytes(name));
    }
    tree.extend(records(
        "LO 3, BV 1 0, TV 3, BV 2 0, TV 3, BV 5 0, TV 3, FN 0 0",
    ));
    wire::put(&mut tree, b"AP", &[items, 0, 0, 0]);
    tree.extend(records("TV 3"));
    for name in 100..100 + 65_535 {
        wire::put(&mut tree, b"VA", &[name, 0]);
    }
    tree.extend(records(last));
    tree
}

#[test]
fn case_9_captures() {
    let two_frames = 65_536 + 65_535;
    let whole = many_captures(65_536, "VA 1 0");
    assert_eq!(needed(&whole).expect("accepted").max_captures, two_frames);
    let over = many_captures(65_537, "VA 1 0, VA 2 0");
    let place = over.len() as u64 - 10;
    let mut lent = large();
    (lent.max_captures, lent.captures) = (two_frames, 16 * two_frames);
    assert_eq!(analyze(&lent, &over), Answer::refused(12, place));
    let fault = Some(Fault::EightBeforeTwelve);
    assert_eq!(analyze_with(fault, &lent, &over), Answer::refused(8, place));
}

/// The frame beneath is the full one: outermost inward it answers 12 before the array asks for its capture.
#[test]
fn captures_are_filled_outermost_inward() {
    let over = many_captures(65_537, "VA 1 0, AR 1, VA 2 0");
    let place = over.len() as u64 - 10;
    let mut lent = large();
    let two_frames = 65_536 + 65_535;
    (lent.max_captures, lent.captures) = (two_frames, 16 * two_frames);
    assert_eq!(analyze(&lent, &over), Answer::refused(12, place));
    let fault = Some(Fault::InnermostFilledFirst);
    assert_eq!(analyze_with(fault, &lent, &over), Answer::refused(8, place));
}

// ---- readings of the first walk

#[test]
fn reading_1_the_start() {
    walk_answers(b"", 1, 0);
    walk_answers(b"J", 1, 0);
    walk_answers(b"XX", 2, 0);
    walk_answers(b"JT", 1, 0);
    walk_answers(&records("JT 70000"), 11, 0);
    walk_answers(&records("JT 65536"), 11, 0);
    walk_answers(&records("JT 65535"), 1, 0);
    walk_answers(&records("JT 1"), 1, 0);
    walk_answers(&records("JT 0"), 1, 6);
}

#[test]
fn reading_2_place_of_a_missing_record() {
    walk_answers(&records("JT 0, UN 1"), 1, 12);
    let cut = [records("JT 0, UN 1"), b"T".to_vec()].concat();
    walk_answers(&cut, 1, 12);
    walk_answers(&records("JT 0, TV 1, TV 1"), 5, 12);
}

#[test]
fn reading_3_kinds() {
    walk_answers(&records("JT 0, IM 4000000000 1 1 1"), 0, 0);
    walk_answers(&records("JT 0, IM 0 1 2 1"), 3, 6);
    walk_answers(&records("JT 0, ID 3 1"), 3, 6);
    walk_answers(&records("JT 0, OB 0 0 1, FH 2 1 1 0 0 0, TV 1"), 3, 20);
    walk_answers(&records("JT 0, OB 0 0 1, FH 0 1 1 0 3 0, TV 1"), 3, 20);
    walk_answers(&records("JT 0, SC 8, TV 1"), 3, 6);
}

/// `UN` records down to a given nesting, then more records.
fn nested(levels: usize, text: &str) -> Vec<u8> {
    let mut tree = records("JT 0");
    for _ in 0..levels {
        tree.extend(records("UN 1"));
    }
    tree.extend(records(text));
    tree
}

#[test]
fn reading_4_levels() {
    walk_answers(&nested(199, "TV 1"), 0, 0);
    walk_answers(&nested(200, "TV 1"), 4, 6 + 6 * 200);
    walk_answers(
        &nested(197, "OX, TV 1, OB 0 0 1, FH 0 1 1 0 0 0, TV 1"),
        0,
        0,
    );
    walk_answers(
        &nested(198, "OX, TV 1, OB 0 0 1, FH 0 1 1 0 0 0, TV 1"),
        4,
        6 + 6 * 198 + 2 + 6 + 14 + 26,
    );
    walk_answers(&nested(199, "LO 0, TV 1"), 4, 6 + 6 * 199 + 6);
    walk_answers(
        &nested(198, "LO 1, BF 1 1, FN 1 0, TV 1, TV 1"),
        4,
        6 + 6 * 198 + 6 + 10 + 10,
    );
    walk_answers(&nested(197, "LO 1, BF 1 1, FN 1 0, TV 1, TV 1"), 0, 0);
    walk_answers(&nested(200, "ID 3 1"), 3, 6 + 6 * 200);
}

#[test]
fn reading_5_constant_arrays() {
    let at = 6 + 6 * 199;
    walk_answers(&nested(199, "AR 2, TV 1, TV 2"), 0, 0);
    walk_answers(&nested(199, "AR 2, TV 1, VA 1 2"), 4, at + 6);
    walk_answers(&nested(199, "AR 2, TV 1"), 4, at + 6);
    let cut = [nested(199, "AR 2"), b"TV12".to_vec()].concat();
    walk_answers(&cut, 1, at + 6);
    walk_answers(&records("JT 0, AR 4294967295, TV 1"), 1, 18);
    walk_answers(&records("JT 0, AR 715827883, TV 1"), 1, 18);
}

#[test]
fn reading_6_tables() {
    let tree = "JT 0, TV 3";
    let exact = Lent::exact([2, 2, 2, 2], 100, 100);
    assert_eq!(analyze(&exact, &records(tree)).number, 0);
    let shorten: [fn(&mut Lent); 4] = [
        |l| l.locals -= 1,
        |l| l.frames -= 1,
        |l| l.captures -= 1,
        |l| l.references -= 1,
    ];
    for shorten in shorten {
        let mut lent = exact;
        shorten(&mut lent);
        refuses(&lent, tree, 13, 0);
    }
    let wraps = Lent {
        max_locals: 1 << 28,
        locals: 0,
        ..exact
    };
    refuses(&wraps, tree, 13, 0);
    assert_eq!(
        analyze(&exact, &vec![0; 16_777_217]),
        Answer::refused(14, 0)
    );
    assert_eq!(analyze(&exact, &vec![0; 16_777_216]), Answer::refused(2, 0));
}

// ---- readings of the analysis

#[test]
fn reading_7_what_limits_count() {
    let tree = "JT 1 4, TV 3";
    refuses(&Lent::exact([0, 0, 0, 0], 100, 0), tree, 6, 0);
    refuses(&Lent::exact([1, 0, 0, 0], 100, 0), tree, 7, 0);
    assert_eq!(
        analyze(&Lent::exact([1, 1, 0, 0], 100, 0), &records(tree)).number,
        0
    );
    tight("JT 0, OB 0 0 0", |lent| lent.max_locals -= 1, 6, 6);
    tight("JT 0, OB 0 0 0", |lent| lent.max_frames -= 1, 7, 6);
    assert_eq!(exactly("JT 0, AR 1, AR 1, VA 5 8").max_frames, 3);
}

/// `local x = 1, x = 2, a = 3; 4`
#[test]
fn reading_8_defining_has_the_place_of_the_bind() {
    let tree = "JT 0, LO 3, BV 5 9, TV 3, BV 5 10, TV 9, BV 1 11, TV 3, TV 3";
    let lent = exactly(tree);
    assert_eq!(lent.max_locals, 2);
    tight(tree, |lent| lent.max_locals = 1, 6, 44);
    tight(tree, |lent| lent.diagnostics = 17, 10, 28);
}

/// `local x = x; 0`
#[test]
fn reading_9_a_name_is_its_own_sibling() {
    let tree = "JT 0, LO 1, BV 5 9, VA 5 8, TV 3";
    tight(tree, |lent| lent.max_references -= 1, 17, 12);
}

/// `local a = (local t = b; t), b = 1; a`
#[test]
fn reading_10_references_through_frames() {
    let tree = "JT 0, LO 2, BV 1 11, LO 1, BV 7 12, VA 2 13, VA 7 14, BV 2 15, TV 3, VA 1 16";
    tight(tree, |lent| lent.max_references -= 1, 17, 12);
}

/// `local x = 1, x = 2; x`: the dropped bind's `TV` and `SH` had to fit.
#[test]
fn reading_14_bytes_taken_back_had_to_fit() {
    let tree =
        "JT 0, LO 2, BV 5 9, TV 3, BV 5 10, UN 1, UN 1, UN 1, UN 1, UN 1, UN 1, UN 1, TV 9, VA 5 8";
    let kept = 6 + 10 + 6;
    assert_eq!(exactly(tree).out, kept + 8 * 6 + 10);
    tight(tree, |lent| lent.out -= 1, 9, 28);
}

/// `function(a) function(b) a + a`
#[test]
fn reading_15_captures_of_all_open_frames_count() {
    let tree = "JT 0, FN 20 1, PA 1 21 0, FN 22 1, PA 2 23 0, BI 2, VA 1 24, VA 1 25";
    assert_eq!(exactly(tree).max_captures, 1);
    tight(tree, |lent| lent.max_captures -= 1, 8, 60);
}

/// `function(a, a = b, b = b) 0`
#[test]
fn reading_11_merged_references_count_once() {
    let tree = "JT 0, FN 20 3, PA 1 21 0, PA 1 22 1, VA 2 23, PA 2 24 1, VA 2 25, TV 3";
    assert_eq!(exactly(tree).max_references, 1);
    tight(tree, |lent| lent.max_references -= 1, 17, 54);
}

/// `{local t(y) = y, assert 1, a(y): y, b: (LO 0: 9)}`
#[test]
fn reading_16_places() {
    let tree = PLACES;
    let bind = 20 + 2 * 26;
    let assertion = bind + 10 + 10 + 14 + 10;
    let method = assertion + 6 + 6;
    let places = |length| {
        analyze(
            &Lent {
                out: length,
                ..ample()
            },
            &records(tree),
        )
        .place
    };
    let heads = 2 * 18;
    assert_eq!(places(heads + 14 + 6 + 9), bind + 10);
    assert_eq!(places(heads + 2 + 9), bind + 10 + 10);
    let diagnostic = |length| {
        analyze(
            &Lent {
                diagnostics: length,
                ..ample()
            },
            &records(tree),
        )
        .place
    };
    assert_eq!(
        [
            diagnostic(0),
            diagnostic(18),
            diagnostic(36),
            diagnostic(54)
        ],
        [bind + 10, method, method, 6]
    );
    let frames = |f| {
        analyze(
            &Lent {
                max_frames: f,
                ..ample()
            },
            &records(tree),
        )
        .place
    };
    assert_eq!([frames(1), frames(2), frames(3)], [6, bind, bind + 10]);
}

/// `{assert 1, v: (1)}`: frames of assertions and of a field value.
#[test]
fn reading_16_frames_of_assertions_and_values() {
    let tree = "JT 0, OB 0 2 1, FH 0 1 30 0 1 0, AT 0, TV 3, AT 0, TV 3, LO 0, TV 9";
    let place_with = |out| analyze(&Lent { out, ..ample() }, &records(tree)).place;
    let (head, first, value) = (18, 46, 46 + 24);
    assert_eq!(place_with(head + 24 + 9), first);
    assert_eq!(place_with(head + 24 + 10 + 5), value + 6);
    assert_eq!(place_with(head + 24 + 10 + 6 + 9), value);
    assert_eq!(place_with(head + 24 + 10 + 6 + 10 + 1), value);
}

// ---- what is needed

/// Every amount of `needed` is enough and one less is its own refusal.
#[test]
fn needed_is_exact() {
    let tree = "JT 0, LO 2, BV 1 11, VA 2 12, BV 2 13, OB 1 1 1, FH 1 0 30 0 1 1, VA 98 14, \
                BV 1 15, ID 0 16, AT 1, VA 1 17, VA 2 18, FN 20 1, PA 6 21 0, AR 2, VA 6 22, VA 2 23, VA 1 24";
    type Lessen = fn(&mut Lent);
    let lessen: [(u32, Lessen); 6] = [
        (6, |lent| lent.max_locals -= 1),
        (7, |lent| lent.max_frames -= 1),
        (8, |lent| lent.max_captures -= 1),
        (17, |lent| lent.max_references -= 1),
        (9, |lent| lent.out -= 1),
        (10, |lent| lent.diagnostics -= 1),
    ];
    let lent = exactly(tree);
    assert_eq!(analyze(&lent, &records(tree)).number, 0);
    for (number, lessen) in lessen {
        let mut less = lent;
        lessen(&mut less);
        assert_eq!(analyze(&less, &records(tree)).number, number);
    }
    assert!(needed(b"JT").is_none());
}
