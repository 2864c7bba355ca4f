//! What the programs here share: trees as nodes, a shrinker, a walk over outputs, coverage figures, arguments.

pub mod arguments;
pub mod coverage;
pub mod differences;
pub mod jsonnet;
pub mod node;
pub mod reach;
pub mod shrink;
pub mod trees;

use wire::Lent;

/// More than any generated tree needs.
pub fn roomy() -> Lent {
    Lent::exact([1 << 20; 4], 1 << 28, 1 << 28)
}

/// Trees are nested 200 deep, and a level takes several calls: more stack than a thread has.
pub fn with_deep_stack<T: Send + 'static>(work: impl FnOnce() -> T + Send + 'static) -> T {
    let thread = std::thread::Builder::new()
        .stack_size(512 << 20)
        .spawn(work);
    let joined = thread.expect("a thread").join();
    joined.unwrap_or_else(|panic| std::panic::resume_unwind(panic))
}
