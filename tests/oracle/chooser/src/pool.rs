//! Calls to choose from: generated trees with the Rust's answers, tight limits and damaged bytes with the model's.

use generator::{Mode, Random};
use model::{Room, amounts, with_amount};
use std::collections::BTreeSet;
use std::ops::Range;
use wire::Lent;
use wire::stored::{BY_HAND, BY_THE_MODEL, BY_THE_RUST, StoredCall};

/// How much longer a roomy buffer is at most.
const SPARE: usize = 64;

/// What whoever replays the calls has room for.
pub struct Bounds {
    pub tree: usize,
    pub out: u32,
    pub limits: [u32; 4],
}

impl Bounds {
    fn hold(&self, tree: &[u8], needed: &Lent) -> bool {
        tree.len() < self.tree
            && needed.out.max(needed.diagnostics) + (SPARE as u32) < self.out
            && needed
                .limits()
                .iter()
                .zip(&self.limits)
                .all(|(limit, bound)| limit < bound)
    }
}

/// Different trees of all modes, each with what it needs.
pub fn trees(seeds: Range<u64>, modes: &[Mode], bounds: &Bounds) -> Vec<(Vec<u8>, Lent)> {
    let mut known = BTreeSet::new();
    let mut found = vec![];
    for seed in seeds {
        for &mode in modes {
            let tree = generator::tree(seed, mode);
            if tree.len() >= bounds.tree || !known.insert(tree.clone()) {
                continue;
            }
            let needed = model::needed(&tree).expect("a generated tree is accepted");
            if bounds.hold(&tree, &needed) {
                found.push((tree, needed));
            }
        }
    }
    found
}

/// Trees with what they need.
pub fn with_needs(trees: Vec<Vec<u8>>) -> Vec<(Vec<u8>, Lent)> {
    let needed = |tree: &Vec<u8>| model::needed(tree).expect("an accepted tree");
    trees
        .into_iter()
        .map(|tree| (tree.clone(), needed(&tree)))
        .collect()
}

/// The Rust's answers, half of them under the exact limits and half with room to spare.
pub fn accepted(trees: &[(Vec<u8>, Lent)]) -> Vec<StoredCall> {
    let mut random = Random::new(1);
    let mut calls = vec![];
    for (tree, needed) in trees {
        let lent = if random.percent(50) {
            *needed
        } else {
            roomier(&mut random, needed)
        };
        calls.push(StoredCall {
            origin: BY_THE_RUST,
            lent,
            tree: tree.clone(),
            answer: judge::run(tree),
        });
    }
    calls
}

fn roomier(random: &mut Random, needed: &Lent) -> Lent {
    let limits = needed.limits().map(|limit| limit + random.below(4) as u32);
    let mut longer = |length: u32| length + random.below(SPARE) as u32;
    let exact = Lent::exact(limits, longer(needed.out), longer(needed.diagnostics));
    Lent {
        locals: longer(exact.locals),
        references: longer(exact.references),
        ..exact
    }
}

pub fn by_hand() -> Vec<StoredCall> {
    let cases = model::cases::CASES.iter();
    cases
        .map(|case| {
            let tree = case.tree();
            let lent = model::needed(&tree).expect("a worked case is accepted");
            StoredCall {
                origin: BY_HAND,
                lent,
                tree,
                answer: case.answer(),
            }
        })
        .collect()
}

pub fn by_model(lent: Lent, tree: &[u8]) -> StoredCall {
    StoredCall {
        origin: BY_THE_MODEL,
        lent,
        tree: tree.to_vec(),
        answer: model::analyze(&lent, tree),
    }
}

// ---- tight limits

/// Whether the tree takes something of each.
pub fn needs_all(needed: &Lent) -> bool {
    amounts(needed).iter().all(|&amount| amount > 0)
}

/// Exactly enough, and one less of each.
pub fn edges(tree: &[u8], needed: &Lent) -> Vec<StoredCall> {
    let mut calls = vec![by_model(*needed, tree)];
    for (room, amount) in Room::ALL.into_iter().zip(amounts(needed)) {
        if amount > 0 {
            calls.push(by_model(with_amount(needed, room, amount - 1), tree));
        }
    }
    calls
}

/// For each moment at which a room can run out, the most and the least of it that does so there; and for two moments
/// of one record that are of different rooms, both.
pub fn tight(tree: &[u8], needed: &Lent) -> Vec<StoredCall> {
    let peaks = model::peaks(tree).expect("an accepted tree");
    let mut lent = BTreeSet::new();
    for (i, peak) in peaks.iter().enumerate() {
        let most = with_amount(needed, peak.room, peak.used - 1);
        lent.insert(amounts(&most));
        lent.insert(amounts(&with_amount(needed, peak.room, peak.before)));
        for other in peaks[i + 1..]
            .iter()
            .filter(|other| other.place == peak.place && other.room != peak.room)
        {
            lent.insert(amounts(&with_amount(&most, other.room, other.used - 1)));
        }
    }
    lent.into_iter()
        .map(|[l, f, c, r, o, d]| by_model(Lent::exact([l, f, c, r], o, d), tree))
        .collect()
}

/// Tables one number too short, or so far too short that 16 times the limit wraps; the bytes don't matter then.
pub fn short_tables(tree: &[u8], needed: &Lent) -> Vec<StoredCall> {
    let n = *needed;
    let mut calls = vec![
        Lent {
            max_locals: n.max_locals + 1,
            locals: n.locals + 15,
            ..n
        },
        Lent {
            max_frames: n.max_frames + 1,
            frames: n.frames + 15,
            ..n
        },
        Lent {
            max_captures: n.max_captures + 1,
            captures: n.captures + 15,
            ..n
        },
        Lent {
            max_references: n.max_references + 1,
            references: n.references + 15,
            ..n
        },
    ];
    for wrapping in [1 << 28, u32::MAX] {
        calls.push(Lent {
            max_locals: wrapping,
            ..n
        });
        calls.push(Lent {
            max_frames: wrapping,
            ..n
        });
        calls.push(Lent {
            max_captures: wrapping,
            ..n
        });
        calls.push(Lent {
            max_references: wrapping,
            ..n
        });
    }
    let damaged = [tree, b"?"].concat();
    calls
        .iter()
        .flat_map(|lent| [by_model(*lent, tree), by_model(*lent, &damaged)])
        .collect()
}

// ---- damaged bytes

/// Trees spoilt by the generator and not accepted as they are, under limits that the whole tree had enough of.
pub fn damaged(trees: &[(Vec<u8>, Lent)], times: u64, longest: usize) -> Vec<StoredCall> {
    let mut known = BTreeSet::new();
    let mut calls = vec![];
    for (seed, (tree, needed)) in trees.iter().enumerate() {
        for time in 0..times {
            let spoilt = generator::damage(times * seed as u64 + time, tree);
            if spoilt.len() < longest && known.insert(spoilt.clone()) {
                calls.push(by_model(*needed, &spoilt));
            }
        }
    }
    calls.retain(|call| call.answer.number != 0);
    calls
}
