//! The stored files are what they say: the model answers every call so, and the Rust every accepted one.

use wire::stored::{BY_HAND, BY_THE_RUST, StoredCall, pack, unpack};

fn stored(name: &str) -> Vec<u8> {
    let path = format!("{}/../../stored/{name}", env!("CARGO_MANIFEST_DIR"));
    std::fs::read(path).expect("a stored file: `make` writes those that the repository leaves out")
}

fn answers(calls: &[StoredCall]) {
    for (i, call) in calls.iter().enumerate() {
        assert_eq!(
            model::analyze(&call.lent, &call.tree),
            call.answer,
            "the model on call {i}"
        );
        if call.answer.number == 0 {
            assert_eq!(judge::run(&call.tree), call.answer, "the Rust on call {i}");
        }
    }
}

#[test]
fn calls_hold() {
    let bytes = stored("calls.bin");
    let calls = unpack(&bytes);
    assert!(bytes.len() <= 2_000_000 && pack(&calls) == bytes);
    assert!(
        calls
            .iter()
            .filter(|call| call.origin == BY_THE_RUST)
            .count()
            >= 2_000
    );
    answers(&calls);
}

/// Whoever replays them has small buffers.
#[test]
fn calls_are_within_bounds() {
    for call in unpack(&stored("calls.bin")) {
        let lent = call.lent;
        assert!(call.tree.len() < 4_096 && lent.out < 8_192 && lent.diagnostics < 8_192);
        assert!(
            lent.tables()
                .iter()
                .zip([512, 256, 512, 512])
                .all(|(&table, entries)| table < 16 * entries)
        );
        // Only a refused limit may be beyond its table.
        let small = lent
            .limits()
            .iter()
            .zip([512, 256, 512, 512])
            .all(|(&limit, bound)| limit < bound);
        assert!(small || call.answer.number == 13);
    }
}

#[test]
fn walks_hold() {
    let bytes = stored("walk.bin");
    let walks = unpack(&bytes);
    assert!(bytes.len() <= 300_000 && walks.len() >= 1_000);
    for (i, call) in walks.iter().enumerate() {
        let answer = (call.answer.number, call.answer.place);
        assert_eq!(
            model::first_walk(None, &call.tree),
            answer,
            "the model on walk {i}"
        );
    }
}

#[test]
fn definition_lines_hold() {
    let text = String::from_utf8(stored("definition.txt")).expect("text");
    let calls: Vec<StoredCall> = text
        .lines()
        .map(|line| StoredCall::from_line(line).expect("a line"))
        .collect();
    assert!(
        calls
            .iter()
            .zip(text.lines())
            .all(|(call, line)| call.line() == line)
    );
    assert!(calls.iter().all(|call| call.tree.len() < 220));
    let by_the_rust = calls
        .iter()
        .filter(|call| call.origin == BY_THE_RUST)
        .count();
    assert!(by_the_rust >= 1_100 && calls.iter().any(|call| call.origin == BY_HAND));
    answers(&calls);
}
