//! The trees that a command line asks for.

use generator::Mode;

use crate::arguments;

/// Gives each tree with its seed or number, and tells which trees they were: `--every E` is every tree of E
/// expressions, else `--trees N --seed S` are so many drawn ones.
pub fn asked_for(mode: Mode, visit: &mut dyn FnMut(u64, &[u8])) -> String {
    match arguments::value("--every", 0) {
        0 => drawn(mode, visit),
        size => all_of(size, visit),
    }
}

fn drawn(mode: Mode, visit: &mut dyn FnMut(u64, &[u8])) -> String {
    let trees: u64 = arguments::value("--trees", 10_000);
    let first: u64 = arguments::value("--seed", 1);
    for seed in first..first + trees {
        visit(seed, &generator::tree(seed, mode));
    }
    format!("trees {trees} from seed {first}, mode {mode:?}")
}

fn all_of(size: usize, visit: &mut dyn FnMut(u64, &[u8])) -> String {
    let mut trees = 0;
    generator::every(size, &mut |tree| {
        visit(trees, tree);
        trees += 1;
    });
    format!("every tree of {size} expressions: {trees}")
}
