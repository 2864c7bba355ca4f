//! Stands in for the evaluator's `gc`: `with_capacity` for sets with another hasher.

use rustc_hash::FxHashSet;

pub trait WithCapacityExt {
    fn with_capacity(capacity: usize) -> Self;
}

impl<T> WithCapacityExt for FxHashSet<T> {
    fn with_capacity(capacity: usize) -> FxHashSet<T> {
        FxHashSet::with_capacity_and_hasher(capacity, Default::default())
    }
}
