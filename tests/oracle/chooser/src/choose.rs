//! Chooses few calls that show much: again and again the one that shows most of what is not yet shown often
//! enough, for its length.

use crate::features::{Fact, Feature, of};
use std::collections::{BTreeMap, BinaryHeap};
use wire::stored::StoredCall;

pub struct Wanted {
    /// How often each feature is to be shown.
    pub times: usize,
    /// How often each fault is to be noticed.
    pub fault_times: usize,
    /// How many calls in all; where fewer show everything, others below a length fill up.
    pub count: usize,
    pub filler: usize,
}

struct Shown<'a> {
    wanted: &'a Wanted,
    times: BTreeMap<Feature, usize>,
}

impl Shown<'_> {
    fn lacks(&self, feature: &Feature) -> bool {
        let wanted = if feature.0 == Fact::Fault {
            self.wanted.fault_times
        } else {
            self.wanted.times
        };
        self.times.get(feature).copied().unwrap_or(0) < wanted
    }

    /// What a call would add, for its length.
    fn worth(&self, call: &StoredCall, features: &[Feature]) -> usize {
        features
            .iter()
            .filter(|feature| self.lacks(feature))
            .count()
            * 1_000_000
            / call.length()
    }

    fn add(&mut self, features: &[Feature]) {
        features
            .iter()
            .for_each(|feature| *self.times.entry(*feature).or_default() += 1);
    }
}

pub fn choose(pool: Vec<StoredCall>, wanted: &Wanted) -> Vec<StoredCall> {
    let features: Vec<Vec<Feature>> = pool.iter().map(of).collect();
    let mut shown = Shown {
        wanted,
        times: BTreeMap::new(),
    };
    let mut best: BinaryHeap<(usize, usize)> = pool
        .iter()
        .zip(&features)
        .enumerate()
        .map(|(i, (call, features))| (shown.worth(call, features), i))
        .collect();
    let mut chosen = vec![false; pool.len()];
    let mut count = 0;
    while count < wanted.count
        && let Some((worth, i)) = best.pop()
        && worth > 0
    {
        // A worth only falls, so one that still holds is the greatest of all.
        let present = shown.worth(&pool[i], &features[i]);
        if present < worth {
            best.push((present, i));
            continue;
        }
        shown.add(&features[i]);
        chosen[i] = true;
        count += 1;
    }
    println!("{count} of {} calls show all that is wanted", wanted.count);
    let (mut taken, mut left) = parted(pool, &chosen);
    left.retain(|call| call.length() < wanted.filler);
    taken.extend(spread(left, wanted.count - count));
    taken.sort_by_key(StoredCall::length);
    taken
}

fn parted(pool: Vec<StoredCall>, chosen: &[bool]) -> (Vec<StoredCall>, Vec<StoredCall>) {
    let (mut taken, mut left) = (vec![], vec![]);
    for (call, &chosen) in pool.into_iter().zip(chosen) {
        if chosen {
            taken.push(call)
        } else {
            left.push(call)
        }
    }
    (taken, left)
}

/// So many, evenly over all.
pub fn spread<T>(from: Vec<T>, count: usize) -> Vec<T> {
    let total = from.len();
    let count = count.min(total);
    let taken = |i: usize| (i + 1) * count / total > i * count / total;
    from.into_iter()
        .enumerate()
        .filter(|(i, _)| taken(*i))
        .map(|(_, item)| item)
        .collect()
}
