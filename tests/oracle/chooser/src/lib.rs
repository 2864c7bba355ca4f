//! The stored calls of document 01 (tests/stored): what they are chosen from, and which are chosen.

pub mod choose;
pub mod corners;
pub mod features;
pub mod pool;
pub mod walks;
