//! Calls for the first walk alone: whole and damaged trees, of which only number and place matter.

use generator::Mode;
use wire::stored::{BY_THE_MODEL, StoredCall};
use wire::text::parse;
use wire::{Answer, Lent};

/// What the first walk says of a tree; nothing is lent.
pub fn walk(tree: Vec<u8>) -> StoredCall {
    let (number, place) = model::first_walk(None, &tree);
    let answer = Answer::refused(number, place);
    StoredCall {
        origin: BY_THE_MODEL,
        lent: Lent::exact([0; 4], 0, 0),
        tree,
        answer,
    }
}

/// A tree cut at every byte.
pub fn cuts(tree: &[u8]) -> Vec<Vec<u8>> {
    (0..=tree.len())
        .map(|length| tree[..length].to_vec())
        .collect()
}

/// Records under so many operators.
pub fn nested(levels: usize, text: &str) -> Vec<u8> {
    let mut tree = parse("JT 0");
    (0..levels).for_each(|_| tree.extend(parse("UN 1")));
    tree.extend(parse(text));
    tree
}

/// What may stand at the nesting limit and what it takes below it.
const AT_THE_LIMIT: &[&str] = &[
    "TV 1",
    "VA 1 2",
    "ID 0 1",
    "ID 3 1",
    "AS 2, TV 1",
    "AR 0",
    "AR 1, TV 1",
    "AR 2, TV 1, TV 2",
    "AR 2, TV 1, VA 1 2",
    "AR 2, TV 1",
    "AR 1, AR 0",
    "FN 1 0, AR 2, TV 1, TV 2",
    "AR 1, VA 1 2",
    "OX, TV 1, OB 0 0 0",
    "OX, OX, TV 1, OB 0 0 0, OB 0 0 0",
    "OX, TV 1, OB 0 0 1, FH 0 1 1 0 0 0, OB 0 0 0",
    "UN 1, OX, TV 1, OB 0 0 1, FH 0 1 1 0 0 0, AR 1, TV 1",
    "OX, TV 1, OB 0 0 1, FH 0 1 1 0 0 0, TV 1",
    "UN 1, TV 1",
    "BI 1, TV 1, TV 2",
    "AS 1, TV 1, TV 2, TV 3",
    "LO 0, TV 1",
    "LO 1, BV 1 1, TV 1, TV 2",
    "LO 1, BF 1 1, FN 1 0, TV 1, TV 2",
    "LO 1, BF 1 1, FN 1 0, AR 0, TV 2",
    "LO 1, BF 1 1, FN 1 1, PA 1 1 1, TV 1, TV 2, TV 3",
    "ER 1, TV 1",
    "IM 9 1 1 1",
    "AP 1 1 0 1, TV 1, TV 2, NA 1, TV 3",
    "IX 1, TV 1, PT 1, TV 2",
    "FN 1 1, PA 1 1 1, TV 1, TV 2",
    "FN 1 0, AR 1, TV 1",
    "IF 1, TV 1, TV 2, TV 3",
    "SC 7, TV 1, TV 2, TV 3, TV 4",
    "OB 0 0 0",
    "OB 0 0 1, FH 1 1 1 0 0 0, TV 1, TV 2",
    "OB 0 0 1, FH 0 1 1 0 0 1, FN 1 0, TV 1",
    "OB 1 0 0, BV 1 1, TV 1",
    "OB 1 0 0, BF 1 1, FN 1 0, TV 1",
    "OB 0 1 0, AT 1, TV 1, TV 2",
    "SC 8, TV 1",
    "XX",
];

/// Each under the most operators that are accepted and under one more; what never is, at the limit and past it.
pub fn at_the_limit() -> Vec<Vec<u8>> {
    let accepted =
        |level: &usize, text: &str| model::first_walk(None, &nested(*level, text)).0 == 0;
    let mut trees = vec![];
    for text in AT_THE_LIMIT {
        let most = (190..200)
            .rev()
            .find(|level| accepted(level, text))
            .unwrap_or(199);
        trees.extend([nested(most, text), nested(most + 1, text)]);
    }
    trees
}

/// Counts far beyond the bytes, and starts.
const ODD: &[&str] = &[
    "JT 0, AR 4294967295",
    "JT 0, AR 4294967295, TV 1",
    "JT 0, AR 4294967295, TV 1, TV 2, VA 1 2",
    "JT 0, AR 715827883, TV 1",
    "JT 0, AR 715827882, TV 1",
    "JT 0, AR 2863311531, TV 1",
    "JT 0, LO 4294967295",
    "JT 0, LO 4294967295, BV 1 1, TV 1",
    "JT 0, AP 4294967295 0 0 1, TV 1",
    "JT 0, AP 0 4294967295 0 1, TV 1",
    "JT 0, AP 0 4294967295 0 1, TV 1, NA 1, TV 2",
    "JT 0, IX 4294967295, TV 1",
    "JT 0, FN 1 4294967295",
    "JT 0, FN 1 4294967295, PA 1 1 0",
    "JT 0, OB 4294967295 0 0",
    "JT 0, OB 0 4294967295 0",
    "JT 0, OB 0 0 4294967295",
    "JT 0, OB 0 0 4294967295, FH 0 1 1 0 0 0",
    "JT 4294967295",
    "JT 65535",
    "JT 65536",
    "JT 70000, TV 1",
    "JT 1073741824, TV 1",
    "JT 1, TV 1",
    "JT 1 7, TV 1",
    "JT 2 7, TV 1",
    "JT 0, TV 1, TV 1",
    "JT 0, TV 1, JT 0",
    "LO 0, TV 1",
    "JT 0, IM 4294967295 1 0 1",
    "JT 0, IM 1 1 2 1",
    "JT 0, BV 1 1, TV 1",
    "JT 0, LO 1, PA 1 1 0, TV 1",
    "JT 0, LO 1, BF 1 1, TV 1, TV 2",
    "JT 0, FN 1 1, BV 1 1, TV 1, TV 2",
    "JT 0, OB 0 0 1, FH 0 1 1 0 0 1, TV 1",
    "JT 0, OB 0 0 1, BV 1 1, TV 1",
    "JT 0, OB 1 0 0, FH 0 1 1 0 0 0, TV 1",
    "JT 0, OB 0 1 0, FH 0 1 1 0 0 0, TV 1",
    "JT 0, OX, TV 1, TV 2",
    "JT 0, OX, TV 1, OX, TV 1, OB 0 0 0",
    "JT 0, AP 0 1 0 1, TV 1, PT 1, TV 2",
    "JT 0, IX 1, TV 1, NA 1, TV 2",
];

/// Each flag, kind, set and visibility at its last value, one beyond and far beyond.
const RANGES: &[(&str, u32)] = &[
    ("JT 0, ID # 1", 2),
    ("JT 0, AS #, TV 1, TV 2, TV 3", 1),
    ("JT 0, IM 0 1 # 1", 1),
    ("JT 0, AP 0 0 # 1, TV 1", 1),
    ("JT 0, FN 1 1, PA 1 1 #, TV 1, TV 2", 1),
    ("JT 0, IF #, TV 1, TV 2, TV 3", 1),
    ("JT 0, SC #, TV 1, TV 2, TV 3, TV 4", 7),
    ("JT 0, OB 0 1 0, AT #, TV 1, TV 2", 1),
    ("JT 0, OB 0 0 1, FH # 1 1 0 0 0, TV 1, TV 2", 1),
    ("JT 0, OB 0 0 1, FH 0 1 1 # 0 0, TV 1", 1),
    ("JT 0, OB 0 0 1, FH 0 1 1 0 # 0, TV 1", 2),
    ("JT 0, OB 0 0 1, FH 0 1 1 0 0 #, FN 1 0, TV 1", 1),
];

pub fn ranges() -> Vec<Vec<u8>> {
    let mut trees = vec![];
    for (text, last) in RANGES {
        for value in [*last, last + 1, 256, 65_536, 1 << 24, u32::MAX] {
            trees.push(parse(&text.replace('#', &value.to_string())));
        }
    }
    trees
}

pub fn odd() -> Vec<Vec<u8>> {
    ODD.iter().map(|text| parse(text)).collect()
}

/// Whole and damaged trees of a few hundred bytes at most.
pub fn generated(seeds: std::ops::Range<u64>) -> Vec<Vec<u8>> {
    let mut trees = vec![];
    for seed in seeds {
        let tree = generator::tree(
            seed,
            if seed % 3 == 0 {
                Mode::Mixed
            } else {
                Mode::Small
            },
        );
        if tree.len() < 130 {
            trees.push(generator::damage(2 * seed, &tree));
            trees.push(generator::damage(2 * seed + 1, &tree));
            trees.push(tree);
        }
    }
    trees.retain(|tree| tree.len() < 130);
    trees
}
