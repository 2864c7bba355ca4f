//! Stands in for the crate `jrsonnet_gcmodule`: the marker trait `Acyclic` and its derive, which do nothing here.

/// A mark for values without cycles; only ever a bound in the file that is compared.
pub trait Acyclic {}

pub use jrsonnet_gcmodule_derive::Acyclic;
