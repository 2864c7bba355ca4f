//! What is lent around what a tree needs, and damaged bytes: some calls for each generated tree.

use generator::{Mode, Random, damage, limits};
use model::{Peak, with_amount};
use wire::text::{record_length, tree_width};
use wire::{Lent, put};

/// What is lent, and the bytes.
pub type Call = (Lent, Vec<u8>);

/// Moments drawn for each tree at which a room runs out.
const MOMENTS: usize = 4;

/// More than needed of everything, mostly by little.
pub fn roomier(seed: u64, needed: &Lent) -> Lent {
    let mut random = Random::new(seed ^ 0x2545_f491_4f6c_dd1d);
    let most = random.pick(&[2, 8, 8, 64, 64, 1024]);
    let mut more = |amount: u32| amount + random.within(1, most) as u32;
    let exact = Lent::exact(
        needed.limits().map(&mut more),
        more(needed.out),
        more(needed.diagnostics),
    );
    Lent {
        locals: more(exact.locals),
        frames: more(exact.frames),
        captures: more(exact.captures),
        references: more(exact.references),
        ..exact
    }
}

/// The calls made of one generated tree.
pub fn calls(seed: u64, mode: Mode) -> Vec<Call> {
    let tree = generator::tree(seed, mode);
    let needed = model::needed(&tree).expect("generated trees are accepted");
    let mut random = Random::new(seed ^ 0x8cb9_2ba7_2f3d_8dd7);
    let mut calls = vec![];
    for _ in 0..3 {
        calls.push((needed, damage(random.draw(), &tree)));
    }
    let lent = limits(random.draw(), needed);
    calls.push((lent, damage(random.draw(), &tree)));
    let damaged = damage(random.draw(), &tree);
    calls.push((needed, deepened(&mut random, &damaged)));
    calls.push((limits(random.draw(), needed), tree.clone()));
    calls.push((with_a_short_table(&mut random, &needed), tree.clone()));
    let peaks = model::peaks(&tree).expect("generated trees are accepted");
    for _ in 0..MOMENTS {
        calls.push((runs_out(&mut random, &needed, &peaks), tree.clone()));
    }
    calls
}

/// Operators around the root, so that something inside may pass nesting 200.
fn deepened(random: &mut Random, tree: &[u8]) -> Vec<u8> {
    let header = record_length(tree, 0, tree_width).unwrap_or(0);
    let mut bytes = tree[..header].to_vec();
    for _ in 0..random.within(190, 200) {
        put(&mut bytes, b"UN", &[1]);
    }
    bytes.extend(&tree[header..]);
    bytes
}

/// Too little for one moment of the analysis: by one, or as little as fails there first; or for two of one record.
fn runs_out(random: &mut Random, needed: &Lent, peaks: &[Peak]) -> Lent {
    let peak = &peaks[random.below(peaks.len())];
    if random.percent(30) {
        return with_amount(needed, peak.room, peak.before);
    }
    let lent = with_amount(needed, peak.room, peak.used - 1);
    let beside = |other: &&Peak| other.place == peak.place && other.room != peak.room;
    let beside: Vec<&Peak> = peaks.iter().filter(beside).collect();
    if beside.is_empty() {
        return lent;
    }
    let other = random.pick(&beside);
    with_amount(&lent, other.room, other.used - 1)
}

/// A limit that its table doesn't hold, by one number or by so much that 16 times the limit wraps.
fn with_a_short_table(random: &mut Random, needed: &Lent) -> Lent {
    let mut limits = needed.limits();
    let chosen = random.below(4);
    limits[chosen] = random.pick(&[limits[chosen] + 1, 1 << 28, (1 << 28) + 1, u32::MAX]);
    let [max_locals, max_frames, max_captures, max_references] = limits;
    let mut lent = Lent {
        max_locals,
        max_frames,
        max_captures,
        max_references,
        ..*needed
    };
    let tables = [
        &mut lent.locals,
        &mut lent.frames,
        &mut lent.captures,
        &mut lent.references,
    ];
    for table in tables {
        *table += 15;
    }
    lent
}

#[cfg(test)]
mod tests {
    use super::*;

    #[test]
    fn roomier_is_enough() {
        for seed in 0..200 {
            let tree = generator::tree(seed, Mode::Mixed);
            let lent = roomier(seed, &model::needed(&tree).expect("accepted"));
            assert_eq!(model::analyze(&lent, &tree), judge::run(&tree));
        }
    }

    #[test]
    fn a_short_table_is_13_and_a_moment_is_refused() {
        for seed in 0..200 {
            let tree = generator::tree(seed, Mode::Small);
            let needed = model::needed(&tree).expect("accepted");
            let peaks = model::peaks(&tree).expect("accepted");
            let mut random = Random::new(seed);
            let short = with_a_short_table(&mut random, &needed);
            assert_eq!(model::analyze(&short, &tree).number, 13);
            let lent = runs_out(&mut random, &needed, &peaks);
            assert!([6, 7, 8, 9, 10, 17].contains(&model::analyze(&lent, &tree).number));
        }
    }
}
