//! Shows which refusals damaged trees and small limits bring about, as the model answers.
//!
//! `refusals --trees N --seed S --mode ..`

use std::collections::BTreeMap;

use generator::{damage, limits};
use trials::{arguments, roomy, with_deep_stack};

fn main() {
    with_deep_stack(show);
}

fn show() {
    let trees: u64 = arguments::value("--trees", 10_000);
    let seed: u64 = arguments::value("--seed", 1);
    let mode = arguments::mode();
    let mut damaged: BTreeMap<u32, u64> = BTreeMap::new();
    let mut limited: BTreeMap<u32, u64> = BTreeMap::new();
    for seed in seed..seed + trees {
        let tree = generator::tree(seed, mode);
        let answer = model::analyze(&roomy(), &damage(seed, &tree));
        *damaged.entry(answer.number).or_default() += 1;
        let needed = model::needed(&tree).expect("some limits are enough");
        let answer = model::analyze(&limits(seed, needed), &tree);
        *limited.entry(answer.number).or_default() += 1;
    }
    println!("trees {trees} from seed {seed}, mode {mode:?}: trees under each number");
    println!("  damaged: {damaged:?}");
    println!("  limits about what is needed: {limited:?}");
}
