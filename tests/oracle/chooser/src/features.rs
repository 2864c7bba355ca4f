//! What a call shows, as small facts to be covered by the stored ones.

use model::Fault;
use wire::number;
use wire::stored::StoredCall;
use wire::text::{output_width, record_length, tree_width};

/// A kind of fact and what it is about.
pub type Feature = (Fact, u32, u32, u32);

#[derive(Clone, Copy, Debug, PartialEq, Eq, PartialOrd, Ord)]
pub enum Fact {
    TreePair,
    OutputPair,
    FirstField,
    Diagnostics,
    Rounds,
    Depths,
    Shape,
    Object,
    Slot,
    Lent,
    Length,
    Refusal,
    Fault,
}

const MOST: u32 = 6;

pub fn of(call: &StoredCall) -> Vec<Feature> {
    let mut features = if call.answer.number == 0 {
        of_accepted(call)
    } else {
        of_refused(call)
    };
    features.extend(faults_noticed(call).map(|fault| (Fact::Fault, fault as u32, 0, 0)));
    features.sort_unstable();
    features.dedup();
    features
}

/// The faults under which the model answers otherwise.
pub fn faults_noticed(call: &StoredCall) -> impl Iterator<Item = Fault> {
    let notices =
        |fault: &Fault| model::analyze_with(Some(*fault), &call.lent, &call.tree) != call.answer;
    Fault::ALL.iter().copied().filter(notices)
}

/// The refusal with the mark at its place and the one before.
fn of_refused(call: &StoredCall) -> Vec<Feature> {
    let (number, place) = (call.answer.number, call.answer.place as usize);
    let prefix = &call.tree[..place.min(call.tree.len())];
    let before = records(prefix, tree_width)
        .last()
        .map_or(0, |record| mark_at(record, 0));
    // Of marks that no place takes one stands for all.
    let known = call
        .tree
        .get(place..place + 2)
        .and_then(tree_width)
        .is_some();
    let mark = if known { mark_at(&call.tree, place) } else { 0 };
    vec![
        (Fact::Refusal, number, mark, 0),
        (Fact::Refusal, number, mark, before),
    ]
}

fn of_accepted(call: &StoredCall) -> Vec<Feature> {
    let answer = &call.answer;
    let [object, local, most] = answer.depths.map(|depth| depth.saturating_add(1).min(MOST));
    let mut features = vec![
        (Fact::Rounds, answer.rounds.min(40), 0, 0),
        (Fact::Depths, object, local, most),
        (
            Fact::Length,
            (call.tree.len() as u32).ilog2(),
            u32::from(answer.errored),
            0,
        ),
    ];
    features.extend(pairs(&call.tree, tree_width, Fact::TreePair));
    features.extend(pairs(&answer.out, output_width, Fact::OutputPair));
    features.extend(of_output(&answer.out));
    features.extend(of_diagnostics(&answer.diagnostics));
    features.extend(of_limits(call));
    features
}

fn of_limits(call: &StoredCall) -> Vec<Feature> {
    let limits = call.lent.limits();
    limits
        .iter()
        .zip(0..)
        .map(|(&limit, which)| (Fact::Lent, which, limit.min(30), 0))
        .collect()
}

fn of_diagnostics(diagnostics: &[u8]) -> Vec<Feature> {
    let codes: Vec<u32> = diagnostics
        .chunks_exact(18)
        .map(|record| number(record, 6))
        .collect();
    let mut features = vec![(Fact::Diagnostics, 100, codes.len().min(12) as u32, 0)];
    features.extend(codes.first().map(|&code| (Fact::Diagnostics, code, 0, 0)));
    features.extend(
        codes
            .windows(2)
            .map(|pair| (Fact::Diagnostics, pair[0], pair[1], 0)),
    );
    features
}

fn of_output(out: &[u8]) -> Vec<Feature> {
    let mut features = vec![];
    for record in records(out, output_width) {
        let field = |i: usize| number(record, 2 + 4 * i);
        let mark = mark_at(record, 0);
        match &record[..2] {
            b"SH" => features.push(shape(record)),
            b"OB" => {
                let flags = field(0) + 2 * field(1) + 4 * field(2) + 8 * field(6);
                let counts = field(3).min(2) + 3 * field(4).min(2) + 9 * field(5).min(2);
                features.push((Fact::Object, flags, counts, 0));
            }
            b"LS" | b"CS" | b"BV" => features.push((Fact::Slot, mark, field(0).min(MOST), 0)),
            b"PA" => features.push((Fact::Slot, mark, field(1).min(MOST), field(2))),
            b"FN" => features.push((Fact::FirstField, mark, field(0), field(2).min(MOST))),
            b"FH" => features.push((Fact::FirstField, mark, field(0) + 2 * field(2), field(3))),
            b"BL" | b"LO" | b"AR" | b"AC" | b"SC" | b"IF" | b"AS" | b"AT" | b"IX" => {
                features.push((Fact::FirstField, mark, field(0).min(8), 0));
            }
            b"AP" => features.push((
                Fact::FirstField,
                mark,
                field(0).min(3) + 4 * field(1).min(3),
                field(2),
            )),
            _ => {}
        }
    }
    features
}

/// Its locals, its captures and whether each of the first few is of a local or of a capture.
fn shape(record: &[u8]) -> Feature {
    let (locals, captures) = (number(record, 2), number(record, 6));
    let sources = record[10..]
        .chunks_exact(8)
        .take(4)
        .fold(1, |sum, pair| 2 * sum + number(pair, 0));
    (Fact::Shape, locals.min(MOST), captures.min(MOST), sources)
}

fn mark_at(bytes: &[u8], at: usize) -> u32 {
    match bytes.get(at..at.saturating_add(2)) {
        Some(mark) => 256 * u32::from(mark[0]) + u32::from(mark[1]),
        None => 0,
    }
}

fn records(bytes: &[u8], width: fn(&[u8]) -> Option<usize>) -> impl Iterator<Item = &[u8]> {
    let mut at = 0;
    std::iter::from_fn(move || {
        let length = record_length(bytes, at, width)?;
        at += length;
        Some(&bytes[at - length..at])
    })
}

fn pairs(bytes: &[u8], width: fn(&[u8]) -> Option<usize>, fact: Fact) -> Vec<Feature> {
    let marks: Vec<u32> = records(bytes, width)
        .map(|record| mark_at(record, 0))
        .collect();
    marks
        .windows(2)
        .map(|pair| (fact, pair[0], pair[1], 0))
        .collect()
}
