//! `--name value` pairs of a command line.

use std::str::FromStr;

use generator::Mode;

/// The value after a name, or the usual one.
pub fn value<T: FromStr>(name: &str, usual: T) -> T {
    let mut words = std::env::args().skip_while(|word| word != name);
    if words.next().is_none() {
        return usual;
    }
    let text = words
        .next()
        .unwrap_or_else(|| panic!("{name} has no value"));
    text.parse()
        .unwrap_or_else(|_| panic!("{name} can't be {text}"))
}

pub fn mode() -> Mode {
    match value("--mode", String::from("mixed")).as_str() {
        "mixed" => Mode::Mixed,
        "small" => Mode::Small,
        "deep" => Mode::Deep,
        "wide" => Mode::Wide,
        "printable" => Mode::Printable,
        other => panic!("no mode {other}"),
    }
}
