//! Packed trees of document 01 from a seed, biased towards what can go wrong; damaged trees; limits to lend.

mod damage;
mod every;
mod grower;
mod limits;
mod random;
mod taste;

pub use damage::damage;
pub use every::every;
pub use limits::limits;
pub use random::Random;
pub use taste::Mode;

/// A tree that the first walk accepts, the same for the same seed and mode.
pub fn tree(seed: u64, mode: Mode) -> Vec<u8> {
    let mut random = Random::new(seed ^ mode.salt());
    let taste = taste::Taste::new(&mut random, mode);
    grower::grow(random, taste)
}

#[cfg(test)]
mod tests {
    use super::*;
    use wire::text::dump_tree;

    #[test]
    fn the_same_seed_gives_the_same_tree() {
        for mode in Mode::ALL {
            assert_eq!(tree(7, mode), tree(7, mode));
        }
    }

    #[test]
    fn every_tree_is_made_of_whole_records() {
        for seed in 0..300 {
            for mode in Mode::ALL {
                let text = dump_tree(&tree(seed, mode));
                assert!(!text.contains('?'), "{text}");
            }
        }
    }
}
