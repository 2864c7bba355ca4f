//! Readers over bytes that no analysis wrote: they end with an error and never panic.

mod common;

use common::stored;
use tsilmogar::{Damaged, Diagnostics, Records};
use wire::text::parse;

/// Reads to the end, and a step further. At most one error, the last; returns how many records came before it.
fn read<T>(mut items: impl Iterator<Item = Result<T, Damaged>>) -> (usize, Option<usize>) {
    let mut whole = 0;
    for item in items.by_ref() {
        let Err(Damaged { offset }) = item else {
            whole += 1;
            continue;
        };
        assert!(items.next().is_none(), "nothing after an error");
        return (whole, Some(offset));
    }
    assert!(items.next().is_none(), "nothing after the end");
    (whole, None)
}

fn read_both(bytes: &[u8]) {
    for (_, damaged) in [read(Records::new(bytes)), read(Diagnostics::new(bytes))] {
        assert!(damaged.is_none_or(|offset| offset < bytes.len()));
    }
}

#[test]
fn cut_short() {
    let output = parse("AC 2 4 5, CS 0, SH 1 2 0 3 1 4");
    let (second, third) = (2 + 4 * 3, 2 + 4 * 3 + 6);
    for length in 0..=output.len() {
        let expected = match length {
            0 => (0, None),
            length if length < second => (0, Some(0)),
            length if length == second => (1, None),
            length if length < third => (1, Some(second)),
            length if length == third => (2, None),
            length if length < output.len() => (2, Some(third)),
            _ => (3, None),
        };
        assert_eq!(read(Records::new(&output[..length])), expected);
    }
}

#[test]
fn counts_beyond_all_memory() {
    for text in [
        "AC 4294967295",
        "AC 4294967295 1",
        "SH 0 4294967295",
        "SH 0 2147483648 0 0",
    ] {
        assert_eq!(read(Records::new(&parse(text))), (0, Some(0)));
    }
}

#[test]
fn marks_and_codes_that_there_are_not() {
    assert_eq!(read(Records::new(&parse("LS 1, VA 5 8"))), (1, Some(6)));
    assert_eq!(read(Diagnostics::new(&parse("LS 1"))), (0, Some(0)));
    for wrong in [
        "DG 0 0 1 1",
        "DG 0 7 1 1",
        "DG 1 6 1 1",
        "DG 2 7 1 1",
        "DG 1 11 1 1",
    ] {
        let bytes = parse(&format!("DG 0 1 1 1, {wrong}, DG 0 1 1 1"));
        assert_eq!(read(Diagnostics::new(&bytes)), (1, Some(18)), "{wrong}");
    }
}

/// Bytes of every eighth stored answer changed in some ways, and bytes at random.
#[test]
fn damage_never_panics() {
    let mut changed = 0;
    for answer in stored().into_iter().step_by(8).map(|call| call.answer) {
        for mut bytes in [answer.out, answer.diagnostics] {
            for at in 0..bytes.len().min(120) {
                let before = bytes[at];
                for damage in [before ^ 1, before ^ 0x80, 0, 255] {
                    bytes[at] = damage;
                    read_both(&bytes);
                    changed += 1;
                }
                bytes[at] = before;
            }
        }
    }
    assert!(changed > 50_000, "{changed}");
    let mut word = 1_u64;
    for length in 0..2000 {
        let bytes: Vec<u8> = (0..length % 97).map(|_| random(&mut word)).collect();
        read_both(&bytes);
    }
}

/// Letters of marks and small numbers more often than others.
fn random(word: &mut u64) -> u8 {
    *word = word
        .wrapping_mul(6_364_136_223_846_793_005)
        .wrapping_add(1_442_695_040_888_963_407);
    let byte = (*word >> 33) as u8;
    match *word >> 62 {
        0 => b"ABCDFHGILNOPRSTUVXY"[usize::from(byte) % 19],
        1 => byte % 4,
        _ => byte,
    }
}
