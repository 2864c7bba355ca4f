//! How soon the comparison with the Rust would notice each deliberate fault of the model: the first seed whose tree
//! gives another answer. Faults of refusals can't be noticed, since the Rust refuses nothing.
//!
//! `sensitivity --trees N --seed S --mode ..`

use model::Fault;
use trials::{arguments, roomy, with_deep_stack};
use wire::Answer;

fn main() {
    with_deep_stack(show);
}

fn show() {
    let trees: u64 = arguments::value("--trees", 20_000);
    let seed: u64 = arguments::value("--seed", 1);
    let mode = arguments::mode();
    let judged: Vec<(Vec<u8>, Answer)> = (seed..seed + trees)
        .map(|seed| generator::tree(seed, mode))
        .map(|tree| (tree.clone(), judge::run(&tree)))
        .collect();
    let mut noticed = 0;
    for &fault in Fault::ALL {
        let first = judged
            .iter()
            .position(|(tree, answer)| notices(fault, tree, answer));
        noticed += u32::from(first.is_some());
        let when = first.map_or("never".into(), |trees| format!("after {trees} trees"));
        println!("{when}: {fault:?}, {}", fault.says());
    }
    println!(
        "{noticed} of {} faults noticed in {trees} trees from seed {seed}",
        Fault::ALL.len()
    );
}

fn notices(fault: Fault, tree: &[u8], answer: &Answer) -> bool {
    model::analyze_with(Some(fault), &roomy(), tree) != *answer
}
