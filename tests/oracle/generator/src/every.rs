//! Every tree of a few expressions, two names and the forms that matter for scoping: nothing is left to chance there.

use wire::put;
use wire::text::{record_length, tree_width};

const NAMES: [u32; 2] = [1, 2];

/// Expressions as bytes, by how many expressions are in them; spans are still 0.
type BySize = Vec<Vec<Vec<u8>>>;

/// What larger expressions are made of.
#[derive(Default)]
struct Smaller {
    any: BySize,
    functions: BySize,
    objects: BySize,
}

/// Gives every tree with exactly so many expressions, without externals and with name 1 as one.
pub fn every(size: usize, visit: &mut dyn FnMut(&[u8])) {
    let mut smaller = Smaller::default();
    for below in 0..size {
        let functions = collect(below, &smaller, |maker| maker.functions());
        let objects = collect(below, &smaller, |maker| maker.objects());
        let rest = collect(below, &smaller, |maker| maker.rest());
        let any = [rest, functions.clone(), objects.clone()].concat();
        smaller.any.push(any);
        smaller.functions.push(functions);
        smaller.objects.push(objects);
    }
    let mut maker = Maker {
        size,
        smaller: &smaller,
        emit: &mut |expression| {
            visit(&whole(&[0], &expression));
            visit(&whole(&[1, 1], &expression));
        },
    };
    maker.functions();
    maker.objects();
    maker.rest();
}

fn collect(size: usize, smaller: &Smaller, make: impl Fn(&mut Maker)) -> Vec<Vec<u8>> {
    let mut found = vec![];
    make(&mut Maker {
        size,
        smaller,
        emit: &mut |expression| found.push(expression),
    });
    found
}

/// A header, the expression, and a span of its own for each record that has one.
fn whole(header: &[u32], expression: &[u8]) -> Vec<u8> {
    let mut tree = record(b"JT", header);
    tree.extend(expression);
    let (mut at, mut span) = (0, 100u32);
    while let Some(length) = record_length(&tree, at, tree_width) {
        if let Some(field) = span_field(&tree[at..at + 2]) {
            tree[at + field..at + field + 4].copy_from_slice(&span.to_le_bytes());
            span += 1;
        }
        at += length;
    }
    tree
}

/// Where a record has its span.
fn span_field(mark: &[u8]) -> Option<usize> {
    match mark {
        b"FN" => Some(2),
        b"ID" | b"VA" | b"BV" | b"BF" | b"PA" => Some(6),
        b"FH" => Some(10),
        _ => None,
    }
}

fn record(mark: &[u8; 2], numbers: &[u32]) -> Vec<u8> {
    let mut bytes = vec![];
    put(&mut bytes, mark, numbers);
    bytes
}

/// A place for an expression, and the bytes before it.
#[derive(Clone)]
struct Place {
    before: Vec<u8>,
    only: Only,
}

#[derive(Clone, Copy, PartialEq, Eq)]
enum Only {
    Any,
    Functions,
    Objects,
}

fn place(before: Vec<u8>, only: Only) -> Place {
    Place { before, only }
}

/// Makes the expressions of one size.
struct Maker<'a> {
    size: usize,
    smaller: &'a Smaller,
    emit: &'a mut dyn FnMut(Vec<u8>),
}

impl Maker<'_> {
    fn functions(&mut self) {
        for count in 0..=2 {
            for parameters in sequences(&parameters(), count) {
                self.form(b"FN", &[0, count as u32], &function_places(&parameters));
            }
        }
    }

    fn objects(&mut self) {
        for binds in (0..=1).flat_map(|count| sequences(&binds(), count)) {
            for assertions in 0..=1 {
                for heads in (0..=1).flat_map(|count| sequences(&heads(), count)) {
                    let counts = [binds.len() as u32, assertions, heads.len() as u32];
                    self.form(b"OB", &counts, &object_places(&heads, &binds, assertions));
                }
            }
        }
    }

    /// Every form but functions and objects.
    fn rest(&mut self) {
        for name in NAMES {
            self.form(b"VA", &[name, 0], &[]);
        }
        for kind in 0..3 {
            self.form(b"ID", &[kind, 0], &[]);
        }
        self.form(b"TV", &[3], &[]);
        let one = place(vec![], Only::Any);
        let object = place(vec![], Only::Objects);
        for count in 0..=2 {
            self.form(b"AR", &[count as u32], &vec![one.clone(); count]);
        }
        self.form(b"BI", &[1], &[one.clone(), one.clone()]);
        self.form(b"OX", &[], &[one.clone(), object]);
        for count in 0..=3 {
            for mut places in sequences(&binds(), count) {
                places.push(one.clone());
                self.form(b"LO", &[count as u32], &places);
            }
        }
    }

    /// A record that is one expression, with the places under it filled in every way.
    fn form(&mut self, mark: &[u8; 2], numbers: &[u32], places: &[Place]) {
        if self.size > places.len() {
            self.fill(&record(mark, numbers), places, self.size - 1);
        }
    }

    /// Every way to fill the places with so many expressions in all.
    fn fill(&mut self, start: &[u8], places: &[Place], size: usize) {
        let Some((first, later)) = places.split_first() else {
            if size == 0 {
                (self.emit)(start.to_vec());
            }
            return;
        };
        let smaller = self.smaller;
        let from = match first.only {
            Only::Any => &smaller.any,
            Only::Functions => &smaller.functions,
            Only::Objects => &smaller.objects,
        };
        // Each later place takes one at least; the last takes all that is left.
        let most = size - later.len();
        let least = if later.is_empty() { most } else { 1 };
        for taken in least..=most {
            for expression in &from[taken] {
                let filled = [start, &first.before, expression].concat();
                self.fill(&filled, later, size - taken);
            }
        }
    }
}

/// A parameter's bytes, and whether a default follows.
fn parameters() -> Vec<(Vec<u8>, bool)> {
    let of = |name| [0, 1].map(|default| (record(b"PA", &[name, 0, default]), default == 1));
    NAMES.into_iter().flat_map(of).collect()
}

/// The places of the defaults and the body.
fn function_places(parameters: &[(Vec<u8>, bool)]) -> Vec<Place> {
    let mut places = vec![];
    let mut before = vec![];
    for (bytes, has_default) in parameters {
        before.extend(bytes);
        if *has_default {
            places.push(place(std::mem::take(&mut before), Only::Any));
        }
    }
    places.push(place(before, Only::Any));
    places
}

/// A bind of either kind is the place of its value.
fn binds() -> Vec<Place> {
    let of = |name| {
        let value = place(record(b"BV", &[name, 0]), Only::Any);
        [value, place(record(b"BF", &[name, 0]), Only::Functions)]
    };
    NAMES.into_iter().flat_map(of).collect()
}

/// A head's bytes, whether it is computed and whether it is a method's.
type Head = (Vec<u8>, bool, bool);

fn heads() -> Vec<Head> {
    let of = |(computed, method)| {
        let numbers = [computed, 4, 0, 0, 0, method];
        (record(b"FH", &numbers), computed == 1, method == 1)
    };
    [(0, 0), (0, 1), (1, 0), (1, 1)].map(of).into()
}

fn object_places(heads: &[Head], binds: &[Place], assertions: u32) -> Vec<Place> {
    let mut places = vec![];
    let mut before = vec![];
    for (bytes, computed, _) in heads {
        before.extend(bytes);
        if *computed {
            places.push(place(std::mem::take(&mut before), Only::Any));
        }
    }
    let mut next = |mut place: Place| {
        place.before.splice(0..0, std::mem::take(&mut before));
        places.push(place);
    };
    binds.iter().cloned().for_each(&mut next);
    for _ in 0..assertions {
        next(place(record(b"AT", &[0]), Only::Any));
    }
    for (_, _, method) in heads {
        let only = if *method { Only::Functions } else { Only::Any };
        next(place(vec![], only));
    }
    places
}

/// Every sequence of so many of the items.
fn sequences<T: Clone>(items: &[T], count: usize) -> Vec<Vec<T>> {
    if count == 0 {
        return vec![vec![]];
    }
    let mut found = vec![];
    for sequence in sequences(items, count - 1) {
        for item in items {
            found.push([sequence.clone(), vec![item.clone()]].concat());
        }
    }
    found
}

#[cfg(test)]
mod tests {
    use super::*;
    use std::collections::HashSet;
    use wire::text::dump_tree;

    #[test]
    fn small_trees_are_whole_and_all_different() {
        for (size, count) in [(1, 16), (2, 208), (3, 5616)] {
            let mut seen = HashSet::new();
            every(size, &mut |tree| {
                let text = dump_tree(tree);
                assert!(!text.contains('?'), "{text}");
                assert!(seen.insert(text));
            });
            assert_eq!(seen.len(), count);
        }
    }
}
