//! Calls of the proved library, looked at whole, and what the programs here share.

pub mod call;
pub mod edges;
pub mod lending;
pub mod profiles;
pub mod tally;
pub mod tight;
pub mod timing;
