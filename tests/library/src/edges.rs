//! Case 9 of document 01: trees at the edges of 16 bits and of the longest tree.

use wire::{Lent, put};

/// The most locals of a frame.
const MOST: u32 = 65_535;
const LONGEST: usize = 16_777_216;

/// Lengths of the records that places are counted from.
const JT: u64 = 6;
const BIND: u64 = 16;
const PARAMETER: u64 = 14;
const NAME: u64 = 10;

pub struct Edge {
    pub what: &'static str,
    pub tree: Vec<u8>,
    pub lent: Lent,
    /// as document 01 has it
    pub number: u32,
    pub place: u64,
}

/// Enough for each of these trees.
fn enough() -> Lent {
    Lent::exact([1 << 17, 16, 1 << 18, 1 << 17], 1 << 23, 1 << 23)
}

fn edge(what: &'static str, tree: Vec<u8>, number: u32, place: u64) -> Edge {
    Edge {
        what,
        tree,
        lent: enough(),
        number,
        place,
    }
}

impl Edge {
    /// The same with something else lent.
    fn lending(mut self, change: impl Fn(&mut Lent)) -> Edge {
        change(&mut self.lent);
        self
    }
}

pub fn edges() -> Vec<Edge> {
    let most = u64::from(MOST);
    vec![
        edge("65,535 externals", externals(MOST), 0, 0),
        edge("65,536 externals", externals(MOST + 1), 11, 0),
        edge("65,535 binds", binds(MOST), 0, 0),
        edge("65,536 binds", binds(MOST + 1), 11, JT + 6 + BIND * most),
        edge("65,534 binds in an object", object_binds(MOST - 1), 0, 0),
        edge(
            "65,535 binds in an object",
            object_binds(MOST),
            11,
            JT + 14 + BIND * (most - 1),
        ),
        edge("65,535 parameters", parameters(MOST), 0, 0),
        edge(
            "65,536 parameters",
            parameters(MOST + 1),
            11,
            JT + 10 + PARAMETER * most,
        ),
        edge("65,536 binds of one name", same_name(MOST + 1), 0, 0),
        edge(
            "16,777,216 bytes, most of them extra",
            extra_bytes(LONGEST),
            5,
            JT + 6,
        ),
        edge("16,777,217 bytes", extra_bytes(LONGEST + 1), 14, 0),
        edge(
            "16,777,217 bytes and a short table",
            extra_bytes(LONGEST + 1),
            13,
            0,
        )
        .lending(|lent| lent.references -= 1),
    ]
    .into_iter()
    .chain(edges_of_captures())
    .collect()
}

fn edges_of_captures() -> [Edge; 4] {
    let names = JT + 4 * u64::from(MOST) + 6 + 2 * BIND + 10 + 18 + 6;
    let last = names + NAME * u64::from(MOST + 1);
    // The 65,535 of the LO and the 65,536 of the FN: at the next both 12 and 8 hold.
    let no_more = |lent: &mut Lent| lent.max_captures = 2 * MOST + 1;
    [
        edge("65,536 captures", captures(MOST + 1, false), 0, 0),
        edge("65,537 captures", captures(MOST + 2, false), 12, last),
        edge(
            "65,537 captures, C reached",
            captures(MOST + 2, false),
            12,
            last,
        )
        .lending(no_more),
        edge(
            "65,537 captures, C reached, the last in an array",
            captures(MOST + 2, true),
            12,
            last + 6,
        )
        .lending(no_more),
    ]
}

fn header(externals: u32) -> Vec<u8> {
    let mut numbers = vec![externals];
    numbers.extend(0..externals);
    let mut tree = vec![];
    put(&mut tree, b"JT", &numbers);
    tree
}

fn externals(count: u32) -> Vec<u8> {
    let mut tree = header(count);
    put(&mut tree, b"VA", &[count - 1, 1]);
    tree
}

fn put_binds(tree: &mut Vec<u8>, names: impl Iterator<Item = u32>) {
    for name in names {
        put(tree, b"BV", &[name, 1]);
        put(tree, b"TV", &[0]);
    }
}

fn local(count: u32, names: impl Iterator<Item = u32>) -> Vec<u8> {
    let mut tree = header(0);
    put(&mut tree, b"LO", &[count]);
    put_binds(&mut tree, names);
    put(&mut tree, b"TV", &[0]);
    tree
}

fn binds(count: u32) -> Vec<u8> {
    local(count, 0..count)
}

fn same_name(count: u32) -> Vec<u8> {
    local(count, (0..count).map(|_| 5))
}

fn object_binds(count: u32) -> Vec<u8> {
    let mut tree = header(0);
    put(&mut tree, b"OB", &[count, 0, 0]);
    put_binds(&mut tree, 0..count);
    tree
}

fn parameters(count: u32) -> Vec<u8> {
    let mut tree = header(0);
    put(&mut tree, b"FN", &[1, count]);
    for name in 0..count {
        put(&mut tree, b"PA", &[name, name, 0]);
    }
    put(&mut tree, b"TV", &[0]);
    tree
}

/// A function that uses so many names: 65,535 externals, the rest of two binds around it; the last may be in an array.
fn captures(count: u32, in_array: bool) -> Vec<u8> {
    let mut tree = header(MOST);
    put(&mut tree, b"LO", &[2]);
    put_binds(&mut tree, MOST..MOST + 2);
    put(&mut tree, b"FN", &[1, 0]);
    put(&mut tree, b"AP", &[count, 0, 0, 2]);
    put(&mut tree, b"TV", &[0]);
    for name in 0..count {
        if in_array && name + 1 == count {
            put(&mut tree, b"AR", &[1]);
        }
        put(&mut tree, b"VA", &[name, 3]);
    }
    tree
}

/// A whole tree of twelve bytes, and more after it.
fn extra_bytes(length: usize) -> Vec<u8> {
    let mut tree = header(0);
    put(&mut tree, b"TV", &[0]);
    tree.resize(length, b'T');
    tree
}

#[cfg(test)]
mod tests {
    use super::*;

    #[test]
    fn the_quick_ones_are_as_the_model_says() {
        for edge in edges()
            .iter()
            .filter(|edge| edge.what.contains("bytes") || edge.what.contains("externals"))
        {
            let answer = model::analyze(&edge.lent, &edge.tree);
            assert_eq!(
                (answer.number, answer.place),
                (edge.number, edge.place),
                "{}",
                edge.what
            );
        }
    }

    #[test]
    fn places_are_those_of_records() {
        for edge in edges()
            .iter()
            .filter(|edge| [11, 12].contains(&edge.number))
        {
            let place = edge.place as usize;
            let marks: [&[u8]; 2] = match edge.number {
                12 => [b"VA", b"VA"],
                _ if place == 0 => [b"JT", b"JT"],
                _ => [b"BV", b"PA"],
            };
            let mark = &edge.tree[place..place + 2];
            assert!(marks.contains(&mark), "{}", edge.what);
        }
    }
}
