//! Stands in for the evaluator's `error`: no spelling is ever suggested, so a message ends with its name.

use jrsonnet_interner::IStr;

pub fn suggest_names<'a>(_name: &IStr, _known: impl Iterator<Item = &'a IStr>) -> Vec<IStr> {
    vec![]
}

pub fn format_found(_names: &[IStr], _what: &str) -> &'static str {
    ""
}
