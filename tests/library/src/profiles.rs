//! Trees to measure: tuning profiles of a size, without errors and each name means something; and the examples.

use std::fs;
use std::path::{Path, PathBuf};

use wire::put;

/// As deep as one block of nested LO goes.
const BLOCK: u32 = 190;

pub type Profile = (&'static str, fn(u32) -> Vec<u8>);

pub const PROFILES: [Profile; 5] = [
    ("flat", flat),
    ("forward", forward),
    ("deep", deep),
    ("objects", objects),
    ("functions", functions),
];

/// Where a frame's rounds grow with it, where no field's name is above those before it, and where they go up and down.
pub const UNKIND: [Profile; 4] = [
    ("settling", settling),
    ("descending", descending),
    ("shuffled", shuffled),
    ("fields", fields),
];

/// So few binds has an object of `fields`, so that few locals are live.
const BINDS: u32 = 2;

fn header() -> Vec<u8> {
    let mut tree = vec![];
    put(&mut tree, b"JT", &[0]);
    tree
}

fn name(tree: &mut Vec<u8>, name: u32) {
    put(tree, b"VA", &[name, name]);
}

fn constant(tree: &mut Vec<u8>) {
    put(tree, b"TV", &[1]);
}

/// The name before this one, or a constant.
fn predecessor(tree: &mut Vec<u8>, first: u32, at: u32) {
    if at == first {
        constant(tree)
    } else {
        name(tree, at - 1)
    }
}

/// local n0 = 1, n1 = n0, ..; the last
fn flat(count: u32) -> Vec<u8> {
    let mut tree = header();
    put(&mut tree, b"LO", &[count]);
    for i in 0..count {
        put(&mut tree, b"BV", &[i, i]);
        predecessor(&mut tree, 0, i);
    }
    name(&mut tree, count - 1);
    tree
}

/// local n0 = n1, n1 = n2, ..; the first: references are kept
fn forward(count: u32) -> Vec<u8> {
    let mut tree = header();
    successors(&mut tree, count, constant);
    tree
}

/// local o = 1; local n0 = n1, n1 = n2, .., the last = o; the first: settling takes a round for each name
fn settling(count: u32) -> Vec<u8> {
    let mut tree = header();
    put(&mut tree, b"LO", &[1]);
    put(&mut tree, b"BV", &[count, count]);
    constant(&mut tree);
    successors(&mut tree, count, |tree| name(tree, count));
    tree
}

/// Names that each use the next, and what the last uses.
fn successors(tree: &mut Vec<u8>, count: u32, last: impl Fn(&mut Vec<u8>)) {
    put(tree, b"LO", &[count]);
    for i in 0..count {
        put(tree, b"BV", &[i, i]);
        if i + 1 == count {
            last(tree)
        } else {
            name(tree, i + 1)
        }
    }
    name(tree, 0);
}

/// An array of blocks, each local n0 = 1; local n1 = n0; ..; the last
fn deep(count: u32) -> Vec<u8> {
    let mut tree = header();
    put(&mut tree, b"AR", &[count.div_ceil(BLOCK)]);
    for first in (0..count).step_by(BLOCK as usize) {
        let end = count.min(first + BLOCK);
        for i in first..end {
            put(&mut tree, b"LO", &[1]);
            put(&mut tree, b"BV", &[i, i]);
            predecessor(&mut tree, first, i);
        }
        name(&mut tree, end - 1);
    }
    tree
}

/// {local n0 = 1, local n1 = n0 + self, .., f0: n0 + self, f1: n1 + $, ..}
fn objects(count: u32) -> Vec<u8> {
    object(count, 0..count)
}

/// The same with the fields' names from the highest down.
fn descending(count: u32) -> Vec<u8> {
    object(count, (0..count).rev())
}

/// The same with the fields' names in no order.
fn shuffled(count: u32) -> Vec<u8> {
    object(count, in_no_order(count))
}

/// {local n0 = 1, local n1 = n0 + self, f4: n0 + self, f0: n1 + $, f9: n0 + self, ..}
fn fields(count: u32) -> Vec<u8> {
    object(BINDS, in_no_order(count))
}

/// The numbers below count in an order as if by chance, the same each time.
fn in_no_order(count: u32) -> impl ExactSizeIterator<Item = u32> {
    let scattered = |i: &u32| {
        let high = i.wrapping_mul(2_654_435_769);
        (high ^ (high >> 15)).wrapping_mul(2_246_822_519)
    };
    let mut names: Vec<u32> = (0..count).collect();
    names.sort_by_key(scattered);
    names.into_iter()
}

fn object(binds: u32, names: impl ExactSizeIterator<Item = u32>) -> Vec<u8> {
    let mut tree = header();
    let count = names.len() as u32;
    put(&mut tree, b"OB", &[binds, 0, count]);
    for (i, field) in (0..count).zip(names) {
        put(&mut tree, b"FH", &[0, field, i, 0, 0, 0]);
    }
    for i in 0..binds {
        put(&mut tree, b"BV", &[i, i]);
        put(&mut tree, b"BI", &[1]);
        predecessor(&mut tree, 0, i);
        put(&mut tree, b"ID", &[0, i]);
    }
    for i in 0..count {
        put(&mut tree, b"BI", &[1]);
        name(&mut tree, i % binds);
        put(&mut tree, b"ID", &[2 * (i % 2), i]);
    }
    tree
}

/// local n0(a, b, c) = 1(a, b, c), n1(a, b, c) = n0(a, b, c), ..; the last, called
fn functions(count: u32) -> Vec<u8> {
    let mut tree = header();
    let parameters = [count, count + 1, count + 2];
    put(&mut tree, b"LO", &[count]);
    for i in 0..count {
        put(&mut tree, b"BF", &[i, i]);
        put(&mut tree, b"FN", &[i, 3]);
        parameters
            .iter()
            .for_each(|p| put(&mut tree, b"PA", &[*p, i, 0]));
        put(&mut tree, b"AP", &[3, 0, 0, i]);
        predecessor(&mut tree, 0, i);
        parameters.iter().for_each(|p| name(&mut tree, *p));
    }
    put(&mut tree, b"AP", &[3, 0, 0, 0]);
    name(&mut tree, count - 1);
    parameters.iter().for_each(|_| constant(&mut tree));
    tree
}

/// Where the repository has its examples.
pub fn examples_folder() -> PathBuf {
    Path::new(env!("CARGO_MANIFEST_DIR")).join("../../examples")
}

/// The packed trees of a folder by name, in the names' order.
pub fn packed_in(folder: &Path) -> Vec<(String, Vec<u8>)> {
    let entries = fs::read_dir(folder).unwrap_or_else(|e| panic!("{}: {e}", folder.display()));
    let files = entries.map(|entry| entry.expect("a readable folder").path());
    let mut trees: Vec<_> = files.filter_map(|file| packed_file(&file)).collect();
    trees.sort();
    trees
}

fn packed_file(file: &Path) -> Option<(String, Vec<u8>)> {
    let name = file.file_name()?.to_str()?.strip_suffix(".bin")?;
    Some((name.into(), fs::read(file).expect("a readable file")))
}

#[cfg(test)]
mod tests {
    use super::*;

    #[test]
    fn profiles_are_accepted_without_errors() {
        for (what, profile) in PROFILES.into_iter().chain(UNKIND) {
            for count in [1, 2, 10, 191] {
                let tree = profile(count);
                assert!(!rust_and_model_agree(what, &tree), "{what}");
            }
        }
    }

    #[test]
    fn only_settling_takes_a_round_for_each_name() {
        let rounds = |profile: fn(u32) -> Vec<u8>| judge::run(&profile(50)).rounds;
        assert_eq!((rounds(forward), rounds(settling)), (3, 50 + 4));
    }

    #[test]
    fn examples_are_found_and_answered_with_their_externals() {
        let trees = packed_in(&examples_folder());
        let accepted = trees
            .iter()
            .filter(|(_, tree)| model::needed(tree).is_some());
        let errored: Vec<(&str, bool)> = accepted
            .map(|(name, tree)| (name.as_str(), rust_and_model_agree(name, tree)))
            .collect();
        let wanted = [
            ("frame-sizes", false),
            ("gain-ladder", false),
            ("limiter", false),
            ("unbound", true),
            ("warnings", false),
        ];
        assert_eq!(errored, wanted);
    }

    /// Whether there is an error in a tree, of which the model, the judge and the measured Rust say the same.
    fn rust_and_model_agree(what: &str, tree: &[u8]) -> bool {
        let needed = model::needed(tree).expect("accepted");
        let answer = model::analyze(&needed, tree);
        assert_eq!(answer, judge::run(tree), "{what}");
        let (externals, expr) = plain::read(tree);
        let report = plain::analyze(externals, &expr);
        let depths = report.root_analysis;
        let diagnostics = report.diagnostics_list.len() * 18;
        assert_eq!(diagnostics, answer.diagnostics.len(), "{what}");
        assert_eq!(
            [
                depths.object_dependent_depth,
                depths.local_dependent_depth,
                depths.local_dependent_depth_max
            ],
            answer.depths,
            "{what}"
        );
        assert_eq!(report.errored, answer.errored, "{what}");
        answer.errored
    }
}
