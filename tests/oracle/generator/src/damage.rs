//! Trees that are spoilt a little, for the refusals of the first walk.

use wire::text::{record_length, tree_width};
use wire::{number, put};

use crate::random::Random;

/// Marks that some place of a tree takes, and some that none does.
const MARKS: [&[u8; 2]; 32] = [
    b"ID", b"TV", b"VA", b"AR", b"OX", b"UN", b"BI", b"AS", b"LO", b"ER", b"IM", b"AP", b"IX",
    b"FN", b"IF", b"SC", b"OB", b"BV", b"BF", b"PA", b"AT", b"FH", b"NA", b"PT", b"JT", b"LS",
    b"CS", b"SH", b"lo", b"\0\0", b"DG", b"IY",
];

/// A tree with one to three faults; some of them change nothing that the first walk minds.
pub fn damage(seed: u64, tree: &[u8]) -> Vec<u8> {
    let mut random = Random::new(seed ^ 0xa076_1d64_78bd_642f);
    let mut bytes = tree.to_vec();
    for _ in 0..random.pick(&[1, 1, 1, 2, 3]) {
        one_fault(&mut random, &mut bytes);
    }
    bytes
}

fn one_fault(random: &mut Random, bytes: &mut Vec<u8>) {
    let records = record_starts(bytes);
    match random.below(10) {
        0 => bytes.truncate(random.below(bytes.len() + 1)),
        1 => cut_at_record(random, bytes, &records),
        2 => flip_a_bit(random, bytes),
        3 | 4 => change_a_mark(random, bytes, &records),
        5..8 => change_a_number(random, bytes, &records),
        8 => append(random, bytes),
        _ if random.percent(50) => splice(random, bytes, &records),
        _ => deepen(random, bytes),
    }
}

/// Where each record begins, as far as the bytes are whole records.
fn record_starts(bytes: &[u8]) -> Vec<usize> {
    let mut starts = vec![];
    let mut at = 0;
    while let Some(length) = record_length(bytes, at, tree_width) {
        starts.push(at);
        at += length;
    }
    starts
}

/// The end at a record's start, or a byte to either side of it.
fn cut_at_record(random: &mut Random, bytes: &mut Vec<u8>, records: &[usize]) {
    if !records.is_empty() {
        let at = random.pick(records) + random.below(3);
        bytes.truncate(at.saturating_sub(1));
    }
}

fn flip_a_bit(random: &mut Random, bytes: &mut [u8]) {
    if !bytes.is_empty() {
        let at = random.below(bytes.len());
        bytes[at] ^= 1 << random.below(8);
    }
}

fn change_a_mark(random: &mut Random, bytes: &mut [u8], records: &[usize]) {
    if !records.is_empty() {
        let at = random.pick(records);
        let mark = random.pick(&MARKS);
        bytes[at..at + 2].copy_from_slice(mark);
    }
}

/// A count, a flag, a name or a span, by little or to something far off.
fn change_a_number(random: &mut Random, bytes: &mut [u8], records: &[usize]) {
    if records.is_empty() {
        return;
    }
    let at = random.pick(records);
    let length = record_length(bytes, at, tree_width).expect("a whole record");
    if length == 2 {
        return;
    }
    let field = at + 2 + 4 * random.below((length - 2) / 4);
    let old = number(bytes, field);
    let far = random.draw() as u32;
    let new = random.pick(&[
        old.wrapping_add(1),
        old.wrapping_sub(1),
        old ^ 1,
        2,
        3,
        8,
        255,
        65_535,
        65_536,
        1 << 30,
        u32::MAX,
        far,
    ]);
    bytes[field..field + 4].copy_from_slice(&new.to_le_bytes());
}

fn append(random: &mut Random, bytes: &mut Vec<u8>) {
    match random.below(3) {
        0 => put(bytes, b"TV", &[1]),
        1 => bytes.push(random.draw() as u8),
        _ => bytes.extend_from_within(..bytes.len().min(random.below(12))),
    }
}

/// A run of records moved over another place.
fn splice(random: &mut Random, bytes: &mut Vec<u8>, records: &[usize]) {
    if records.len() < 3 {
        return;
    }
    let (mut from, mut to) = (random.pick(records), random.pick(records));
    if to < from {
        std::mem::swap(&mut from, &mut to);
    }
    let piece = bytes[from..to].to_vec();
    let at = random.pick(records);
    let end = if random.percent(50) {
        at
    } else {
        (at + piece.len()).min(bytes.len())
    };
    bytes.splice(at..end, piece);
}

/// Many operators around the root, so that something inside passes nesting 200.
fn deepen(random: &mut Random, bytes: &mut Vec<u8>) {
    let Some(header) = record_length(bytes, 0, tree_width) else {
        return;
    };
    let mut operators = vec![];
    for _ in 0..random.within(185, 202) {
        put(&mut operators, b"UN", &[1]);
    }
    bytes.splice(header..header, operators);
}
