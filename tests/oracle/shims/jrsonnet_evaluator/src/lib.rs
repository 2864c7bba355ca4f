//! Stands in for the evaluator, the crate that the file is of: what the file asks its own crate for, but `arr`, which
//! the judge and `plain` have each their own of.

pub mod error;
pub mod gc;
pub mod obj;

/// Functions that give interned strings.
#[macro_export]
macro_rules! names {
    ($($name:ident: $text:literal,)*) => {
        $(pub fn $name() -> jrsonnet_interner::IStr {
            jrsonnet_interner::IStr::from($text)
        })*
    };
}
