//! The header for C has the same numbers, names and words as this crate.

use std::fmt::{Debug, Display};
use tsilmogar::{Code, Kind, Limits, sys};

const HEADER: &str = include_str!("../../../include/tsilmogar.h");
const EXAMPLE: &str = include_str!("../../../examples/c/analyze.c");

/// `CutShort` as the header writes it: `TSILMOGAR_CUT_SHORT`.
fn constant(name: impl Debug) -> String {
    let mut text = String::from("TSILMOGAR");
    for letter in format!("{name:?}").chars() {
        if letter.is_uppercase() {
            text.push('_');
        }
        text.push(letter.to_ascii_uppercase());
    }
    text
}

/// The lines of one enum, as (`NAME = number`, words).
fn entries(name: &str) -> Vec<(String, String)> {
    let start = HEADER.find(&format!("enum {name} {{")).expect("the enum");
    let body = &HEADER[start..start + HEADER[start..].find("};").expect("its end")];
    let lines = body.lines().skip(1);
    lines.map(entry).collect()
}

fn entry(line: &str) -> (String, String) {
    let (code, words) = line.split_once("/*").expect("a comment");
    let code = code.trim().trim_end_matches(',');
    (code.into(), words.trim_end_matches("*/").trim().into())
}

fn expected<T: Debug + Display>(item: T, number: u64) -> (String, String) {
    (format!("{} = {number}", constant(&item)), item.to_string())
}

#[test]
fn refusals_are_the_same() {
    let here: Vec<_> = Kind::all()
        .map(|kind| expected(kind, kind.number()))
        .collect();
    assert_eq!(entries("tsilmogar_refusal")[1..], here);
    assert!(Kind::all().all(|kind| Kind::of_number(kind.number()) == Some(kind)));
    assert!(
        [0, 15, 16, 18]
            .map(Kind::of_number)
            .iter()
            .all(Option::is_none)
    );
}

#[test]
fn codes_are_the_same() {
    let here: Vec<_> = Code::all()
        .map(|code| expected(code, code.number().into()))
        .collect();
    assert_eq!(entries("tsilmogar_code"), here);
    assert_eq!(Code::of_number(0), None);
    assert_eq!(Code::of_number(11), None);
}

#[test]
fn the_example_for_c_has_the_words() {
    let kinds = Kind::all().map(|kind| kind.to_string());
    let codes = Code::all().map(|code| code.to_string());
    for words in kinds.chain(codes) {
        assert!(EXAMPLE.contains(&format!("\"{words}\"")), "{words}");
    }
}

#[test]
fn sizes_are_the_same() {
    let frames = format!(
        "#define TSILMOGAR_FRAMES_ENOUGH {}\n",
        Limits::FRAMES_ENOUGH
    );
    let entry = format!("#define TSILMOGAR_ENTRY_NUMBERS {}\n", sys::ENTRY_NUMBERS);
    assert!(HEADER.contains(&frames) && HEADER.contains(&entry));
}
