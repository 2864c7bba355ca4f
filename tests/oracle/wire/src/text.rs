//! Packed bytes as text and back: `JT 0, LO 1, BV 5 9, TV 3, VA 5 8`.

use crate::{number, put};

/// How many numbers follow a mark of the tree; `JT` says how many names follow.
pub fn tree_width(mark: &[u8]) -> Option<usize> {
    Some(match mark {
        b"OX" => 0,
        b"JT" | b"TV" | b"AR" | b"UN" | b"BI" | b"AS" | b"LO" | b"ER" | b"NA" | b"IX" | b"PT"
        | b"IF" | b"SC" | b"AT" => 1,
        b"ID" | b"VA" | b"FN" | b"BV" | b"BF" => 2,
        b"OB" | b"PA" => 3,
        b"IM" | b"AP" => 4,
        b"FH" => 6,
        _ => return None,
    })
}

/// How many numbers follow a mark of the output; `AC` and `SH` say how many more do.
pub fn output_width(mark: &[u8]) -> Option<usize> {
    Some(match mark {
        b"OX" | b"SU" | b"FV" | b"IY" => 0,
        b"TV" | b"AC" | b"AR" | b"UN" | b"BI" | b"AS" | b"LO" | b"ER" | b"NA" | b"IX" | b"PT"
        | b"IF" | b"SC" | b"AT" | b"LS" | b"CS" | b"BL" | b"BV" => 1,
        b"SH" => 2,
        b"IM" | b"FN" | b"PA" => 3,
        b"AP" | b"FH" => 4,
        b"OB" => 7,
        _ => return None,
    })
}

fn diagnostics_width(mark: &[u8]) -> Option<usize> {
    (mark == b"DG").then_some(4)
}

/// The length in bytes of the record at an offset, or nothing where no whole record of that table stands.
pub fn record_length(
    bytes: &[u8],
    at: usize,
    width: impl Fn(&[u8]) -> Option<usize>,
) -> Option<usize> {
    let mark = bytes.get(at..at + 2)?;
    let fixed = 2 + 4 * width(mark)?;
    bytes.get(at..at + fixed)?;
    let more = match mark {
        b"JT" | b"AC" => 4 * number(bytes, at + 2) as usize,
        b"SH" => 8 * number(bytes, at + 6) as usize,
        _ => 0,
    };
    bytes.get(at..at + fixed + more)?;
    Some(fixed + more)
}

fn dump(bytes: &[u8], width: impl Fn(&[u8]) -> Option<usize>) -> String {
    let mut records = vec![];
    let mut at = 0;
    while at < bytes.len() {
        let Some(length) = record_length(bytes, at, &width) else {
            records.push(format!("?{:02x?}", &bytes[at..]));
            break;
        };
        records.push(record(&bytes[at..at + length]));
        at += length;
    }
    records.join(", ")
}

fn record(bytes: &[u8]) -> String {
    let mut words = vec![String::from_utf8_lossy(&bytes[..2]).into_owned()];
    for at in (2..bytes.len()).step_by(4) {
        words.push(number(bytes, at).to_string());
    }
    words.join(" ")
}

pub fn dump_tree(bytes: &[u8]) -> String {
    dump(bytes, tree_width)
}

pub fn dump_output(bytes: &[u8]) -> String {
    dump(bytes, output_width)
}

pub fn dump_diagnostics(bytes: &[u8]) -> String {
    dump(bytes, diagnostics_width)
}

/// The bytes of records written as text, of any kind; panics on anything else.
pub fn parse(text: &str) -> Vec<u8> {
    let mut bytes = vec![];
    for record in text.split([',', '\n']) {
        let mut words = record.split_whitespace();
        let Some(mark) = words.next() else { continue };
        let mark: &[u8; 2] = mark.as_bytes().try_into().expect("a mark of two bytes");
        let numbers: Vec<u32> = words.map(|w| w.parse().expect("a number")).collect();
        put(&mut bytes, mark, &numbers);
    }
    bytes
}

#[cfg(test)]
mod tests {
    use super::*;

    #[test]
    fn text_comes_back() {
        let text = "JT 2 7 8, LO 1, BV 5 9, AR 2, TV 3, VA 5 8, OX, ID 0 1, OB 0 0 0";
        let bytes = parse(text);
        assert_eq!(dump_tree(&bytes), text);
        assert_eq!(parse("JT 0, LO 1, BV 5 9, TV 3, VA 5 8").len(), 38);
    }

    #[test]
    fn damage_is_shown() {
        assert_eq!(dump_tree(b"JT\0\0\0\0T"), "JT 0, ?[54]");
        assert_eq!(
            dump_tree(b"JT\xff\xff\xff\xff"),
            "?[4a, 54, ff, ff, ff, ff]"
        );
    }

    #[test]
    fn output_with_lists() {
        let text = "AC 2 4 5, CS 0, SH 1 2 0 3 1 4, DG";
        assert_eq!(
            dump_output(&parse(&text[..text.len() - 4])),
            &text[..text.len() - 4]
        );
    }
}
