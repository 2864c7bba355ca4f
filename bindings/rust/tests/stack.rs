//! Trees nested 200 deep in every form, with a name at the bottom that every frame must capture, on a small stack.

use tsilmogar::analyze;
use wire::text::parse;

/// Half of what a thread of Rust usually has.
const STACK: usize = 1 << 20;

/// What stands before and after the expression one or two levels further in.
const FORMS: [(usize, &str, &str); 24] = [
    (1, "UN 0", ""),
    (1, "BI 0, TV 1", ""),
    (1, "AR 1", ""),
    (1, "IX 1, TV 1, PT 1", ""),
    (1, "SC 7, TV 1, TV 1, TV 1", ""),
    (1, "IF 1, TV 1, TV 1", ""),
    (1, "AS 1, TV 1, TV 1", ""),
    (1, "ER 1", ""),
    (1, "AP 0 1 0 1, TV 1, NA 2", ""),
    (1, "OX", "OB 0 0 0"),
    (2, "OX, TV 1, OB 0 0 1, FH 0 7 1 0 0 0", ""),
    (1, "LO 1, BV 1 1", "TV 1"),
    (1, "LO 1, BV 1 1, TV 1", ""),
    (2, "LO 1, BF 1 1, FN 1 0", "TV 1"),
    (1, "FN 1 1, PA 1 1 1", "TV 1"),
    (1, "FN 1 0", ""),
    (1, "OB 1 0 0, BV 1 1", ""),
    (2, "OB 1 0 0, BF 1 1, FN 1 0", ""),
    (1, "OB 0 1 0, AT 0", ""),
    (1, "OB 0 1 0, AT 1, TV 1", ""),
    (2, "OX, TV 1, OB 0 1 0, AT 0", ""),
    (1, "OB 0 0 1, FH 0 7 1 0 0 0", ""),
    (1, "OB 0 0 1, FH 1 7 1 0 0 0", "TV 1"),
    (2, "OB 0 0 1, FH 0 7 1 0 0 1, FN 1 0", ""),
];

/// The external name 9 at level 199 or 200.
fn nested((levels, before, after): (usize, &str, &str)) -> Vec<u8> {
    let times = 199 / levels;
    let mut tree = parse("JT 1 9");
    tree.extend(parse(before).repeat(times));
    tree.extend(parse("VA 9 9"));
    tree.extend(parse(after).repeat(times));
    tree
}

#[test]
fn the_deepest_trees_need_little_stack() {
    for form in FORMS {
        let thread = std::thread::Builder::new().stack_size(STACK);
        let work = move || analyze(&nested(form)).map(|analysis| analysis.errored());
        let errored = thread.spawn(work).expect("a thread").join().expect(form.1);
        assert_eq!(errored, Ok(false), "{}", form.1);
    }
}
