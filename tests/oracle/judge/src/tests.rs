//! The worked cases of document 01 ("Profiles tried by hand") and the readings that the Rust can show.

use wire::Answer;
use wire::text::{dump_diagnostics, dump_output, parse};

const NONE: u32 = u32::MAX;

fn judged(tree: &str) -> Answer {
    super::run(&parse(tree))
}

/// Output and diagnostics as text.
fn texts(tree: &str) -> (String, String) {
    let answer = judged(tree);
    (
        dump_output(&answer.out),
        dump_diagnostics(&answer.diagnostics),
    )
}

fn diagnostics(tree: &str) -> String {
    texts(tree).1
}

#[test]
fn case_1_one_local() {
    let tree = parse("JT 0, LO 1, BV 5 9, TV 3, VA 5 8");
    assert_eq!(tree.len(), 38);
    let answer = super::run(&tree);
    assert_eq!(
        dump_output(&answer.out),
        "TV 3, SH 0 0, BV 0, LS 0, SH 1 0, LO 1, SH 0 0"
    );
    assert_eq!(answer.out.len(), 54);
    assert!(answer.diagnostics.is_empty() && !answer.errored);
    assert_eq!((answer.rounds, answer.depths), (2, [NONE, 0, 0]));
}

#[test]
fn case_2_siblings_in_both_orders() {
    let a_first = judged("JT 0, LO 2, BV 1 10, TV 3, BV 2 11, VA 1 12, VA 2 13");
    assert_eq!(dump_diagnostics(&a_first.diagnostics), "DG 1 8 1 10");
    assert_eq!(a_first.rounds, 2);
    let b_first = judged("JT 0, LO 2, BV 2 11, VA 1 12, BV 1 10, TV 3, VA 2 13");
    assert_eq!((b_first.diagnostics.len(), b_first.rounds), (0, 3));
}

#[test]
fn case_3_capture() {
    let (out, diagnostics) =
        texts("JT 0, LO 1, BV 5 9, TV 3, FN 20 1, PA 6 10 0, BI 1, VA 5 11, VA 6 12");
    assert_eq!(
        out,
        "TV 3, SH 0 0, BV 0, PA 6 0 0, CS 0, LS 0, BI 1, SH 1 1 0 0, FN 0 0 1, SH 1 0, LO 1, SH 0 0"
    );
    assert_eq!(diagnostics, "DG 1 9 6 10");
}

#[test]
fn case_4_arrays_read_the_root() {
    let (out, _) = texts("JT 1 5, AR 1, AR 1, VA 5 8");
    assert_eq!(out, "LS 0, SH 0 0, AR 1, SH 0 0, AR 1, SH 1 0");
}

#[test]
fn case_5_capture_of_a_capture() {
    let (out, _) = texts("JT 1 5, FN 20 1, PA 6 10 0, AR 1, VA 5 8");
    assert_eq!(
        out,
        "PA 6 0 0, CS 0, SH 0 1 1 0, AR 1, SH 1 1 0 0, FN 0 0 1, SH 1 0"
    );
}

#[test]
fn case_6_defined_twice() {
    let tree = "JT 0, LO 2, BV 5 9, TV 1, BV 5 10, TV 2, VA 5 8";
    let (out, diagnostics) = texts(tree);
    assert_eq!(out, "TV 1, SH 0 0, BV 0, LS 0, SH 1 0, LO 1, SH 0 0");
    assert_eq!(diagnostics, "DG 0 2 5 10");
    assert!(judged(tree).errored);
}

#[test]
fn case_7_identity() {
    let (out, diagnostics) = texts("JT 0, FN 20 2, PA 5 9 0, PA 5 10 0, VA 5 8");
    assert_eq!(out, "IY, SH 0 0");
    assert_eq!(diagnostics, "DG 0 2 5 10, DG 1 10 0 20");
}

#[test]
fn case_8_objects() {
    let (out, found) = texts("JT 0, OB 0 0 1, FH 1 0 7 0 0 0, ID 0 8, TV 1");
    assert_eq!(
        out,
        "BL 0, FH 1 0 0 0, TV 1, SH 0 0, FV, SH 1 0, OB 0 0 0 0 0 1 0, SH 0 0"
    );
    assert_eq!(found, "DG 0 3 0 8");
    assert_eq!(
        texts("JT 0, OB 0 0 0"),
        ("SH 1 0, OB 0 0 0 0 0 0 1, SH 0 0".into(), "".into())
    );
    let (out, found) = texts("JT 0, OB 0 0 2, FH 0 4 7 0 0 0, FH 0 4 8 0 0 0, TV 1, TV 2");
    assert!(out.ends_with("OB 0 0 0 0 0 2 0, SH 0 0"), "{out}");
    assert_eq!(found, "");
}

#[test]
fn reading_9_a_name_is_its_own_sibling() {
    assert_eq!(
        diagnostics("JT 0, LO 1, BV 5 9, VA 5 10, TV 0"),
        "DG 1 8 5 9"
    );
}

#[test]
fn reading_12_frames_without_names_settle() {
    assert_eq!(judged("JT 0, OB 0 0 0").rounds, 2);
    assert_eq!(judged("JT 0, FN 1 0, TV 1").rounds, 2);
    assert_eq!(judged("JT 0, LO 0, TV 1").rounds, 0);
}

#[test]
fn rounds_grow_with_a_chain() {
    // function() local a = b, b = c, c = x; a: the depth of x goes one name back a round, the use of a all at once;
    // the function's own frame takes two rounds.
    let forwards = "JT 1 9, FN 8 0, LO 3, BV 1 1, VA 2 2, BV 2 3, VA 3 4, BV 3 5, VA 9 6, VA 1 7";
    assert_eq!(judged(forwards).rounds, 2 + 3 + 2);
    let backwards = "JT 1 9, FN 8 0, LO 3, BV 3 5, VA 9 6, BV 2 3, VA 3 4, BV 1 1, VA 2 2, VA 1 7";
    assert_eq!(judged(backwards).rounds, 2 + 1 + 1);
}

#[test]
fn reading_17_named_arguments_stand_after_their_value() {
    let (out, _) = texts("JT 0, AP 0 1 0 7, TV 1, NA 5, TV 2");
    assert_eq!(out, "TV 1, TV 2, NA 5, AP 0 1 0 7, SH 0 0");
}

#[test]
fn reading_18_identity_through_an_empty_local() {
    assert_eq!(
        texts("JT 0, FN 20 1, PA 5 9 0, LO 0, VA 5 8").0,
        "IY, SH 0 0"
    );
    assert_eq!(
        texts("JT 0, FN 20 2, PA 5 9 0, PA 5 9 1, TV 1, VA 5 8").0,
        "IY, SH 0 0"
    );
}

#[test]
fn reading_19_super_lowers_every_depth() {
    let answer = judged("JT 0, OB 0 0 1, FH 0 4 7 0 0 0, ID 1 8");
    assert_eq!(answer.depths, [0, 0, 0]);
    assert!(dump_output(&answer.out).ends_with("SU, SH 0 0, FV, SH 1 0, OB 1 0 1 0 0 1 1, SH 0 0"));
}

#[test]
fn reading_20_a_nested_object_has_no_flag_for_dollar() {
    let (out, _) = texts("JT 0, OB 0 0 1, FH 0 4 7 0 0 0, OB 0 0 1, FH 0 4 7 0 0 0, ID 2 8");
    assert_eq!(
        out,
        "FH 0 4 0 0, FH 0 4 0 0, CS 0, SH 0 1 1 0, FV, SH 1 1 0 0, OB 0 0 0 0 0 1 1, \
         SH 0 0, FV, SH 1 0, OB 1 1 0 0 0 1 1, SH 0 0"
    );
}

#[test]
fn reading_21_dropped_values_taint() {
    let answer = judged("JT 1 6, LO 2, BV 5 9, TV 0, BV 5 10, VA 6 11, VA 7 12");
    assert_eq!(answer.depths, [NONE, 0, 0]);
}

#[test]
fn reading_22_use_in_a_nested_body_is_real() {
    let in_a_body = "JT 0, LO 2, BV 1 10, TV 1, BV 2 11, FN 20 0, VA 1 12, TV 1";
    assert_eq!(diagnostics(in_a_body), "DG 1 7 2 11");
    let in_a_value = "JT 0, LO 2, BV 1 10, TV 1, BV 2 11, LO 1, BV 3 13, VA 1 14, VA 3 15, VA 2 16";
    assert_eq!(diagnostics(in_a_value), "DG 1 8 1 10");
}

#[test]
fn reading_26_only_a_bf_names_its_function() {
    let (out, _) = texts("JT 0, LO 1, BV 5 9, FN 20 0, TV 1, VA 5 8");
    assert!(out.contains("FN 0 0 0"), "{out}");
    let (out, _) = texts("JT 0, LO 1, BF 5 9, FN 20 0, TV 1, VA 5 8");
    assert!(out.contains("FN 1 5 0"), "{out}");
}

#[test]
fn warning_10_bears_the_span_of_bind_or_head() {
    let bind = "JT 0, LO 1, BF 5 9, FN 20 1, PA 6 10 0, VA 6 11, VA 5 8";
    assert_eq!(diagnostics(bind), "DG 1 10 0 9");
    let method = "JT 0, OB 0 0 1, FH 0 4 7 0 0 1, FN 20 1, PA 6 10 0, VA 6 11";
    assert_eq!(diagnostics(method), "DG 1 9 6 10, DG 1 10 0 7");
}
