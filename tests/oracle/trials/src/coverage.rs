//! What the trees of a run had in them: how many trees with each thing.

use std::collections::{BTreeMap, BTreeSet};

use wire::{Answer, number};

use crate::node::Node;
use crate::reach::reach;

#[derive(Default)]
pub struct Coverage {
    trees_with: BTreeMap<String, u64>,
    most: BTreeMap<&'static str, u64>,
    trees: u64,
    bytes: u64,
}

impl Coverage {
    /// Enters one tree and its answer.
    pub fn enter(&mut self, tree: &[u8], answer: &Answer) {
        self.trees += 1;
        self.bytes += tree.len() as u64;
        let node = Node::read(tree);
        let mut things = BTreeSet::new();
        things.insert(format!("size {}", size_class(tree.len())));
        things_of_tree(&node, &mut things);
        things_of_answer(answer, &mut things);
        for thing in things {
            *self.trees_with.entry(thing).or_default() += 1;
        }
        self.raise("bytes", tree.len() as u64);
        self.raise("nesting", node.nesting() as u64);
        self.raise("rounds", u64::from(answer.rounds));
        self.raise("capture chain", u64::from(reach(&answer.out).longest_chain));
    }

    fn raise(&mut self, what: &'static str, to: u64) {
        let most = self.most.entry(what).or_default();
        *most = to.max(*most);
    }

    pub fn print(&self) {
        println!("trees {}, bytes {}", self.trees, self.bytes);
        for (what, most) in &self.most {
            println!("  most {what}: {most}");
        }
        println!("trees with:");
        for (thing, trees) in &self.trees_with {
            println!("  {thing}: {trees}");
        }
    }
}

fn size_class(bytes: usize) -> &'static str {
    match bytes {
        0..50 => "below    50 bytes",
        50..200 => "below   200 bytes",
        200..1000 => "below 1,000 bytes",
        1000..3000 => "below 3,000 bytes",
        _ => "3,000 bytes or more",
    }
}

fn things_of_tree(tree: &Node, things: &mut BTreeSet<String>) {
    let nesting = tree.nesting();
    if nesting >= 100 {
        things.insert("nesting 100 or more".into());
    }
    if nesting == 200 {
        things.insert("nesting 200".into());
    }
    let externals: BTreeSet<u32> = tree.numbers[1..].iter().copied().collect();
    if externals.len() < tree.numbers.len() - 1 {
        things.insert("externals that share a name".into());
    }
    for node in tree.all() {
        things.insert(format!("tree mark {}", text(&node.mark)));
        things_of_node(node, things);
    }
}

fn things_of_node(node: &Node, things: &mut BTreeSet<String>) {
    match &node.mark {
        b"AR" if node.numbers[0] == 0 => drop(things.insert("AR 0".into())),
        b"LO" if node.numbers[0] == 0 => drop(things.insert("LO 0".into())),
        b"LO" | b"FN" if node.children.len() > 20 => {
            things.insert("a frame of 20 names or more".into());
        }
        b"OB" if node.numbers[0] > 0 && node.numbers[1] > 0 && node.numbers[2] > 0 => {
            things.insert("an object with binds, assertions and fields".into());
        }
        b"FH" if node.numbers[5] == 1 => {
            let kind = ["fixed", "computed"][node.numbers[0] as usize];
            things.insert(format!("a method with a {kind} name"));
        }
        b"BV" if node.children[0].is(b"FN") => drop(things.insert("BV of an FN".into())),
        b"PA" if node.numbers[2] == 1 => drop(things.insert("a default".into())),
        _ => {}
    }
}

fn things_of_answer(answer: &Answer, things: &mut BTreeSet<String>) {
    let reached = reach(&answer.out);
    for frames in [1, 2, 3, 5, 10] {
        if reached.longest_chain >= frames {
            things.insert(format!("a capture through {frames:>2} or more frames"));
        }
    }
    let identities = output_marks(&answer.out, things);
    let codes: Vec<u32> = (0..answer.diagnostics.len())
        .step_by(18)
        .map(|at| number(&answer.diagnostics, at + 6))
        .collect();
    for code in &codes {
        things.insert(format!("diagnostic {code:>2}"));
    }
    if codes.iter().filter(|code| **code == 10).count() > identities {
        things.insert("an identity function that was dropped".into());
    }
    if codes.is_empty() {
        things.insert("no diagnostic".into());
    }
    if answer.errored {
        things.insert("an error".into());
    }
    let [object, local, greatest] = answer.depths;
    if object != u32::MAX {
        things.insert("root depends on an object".into());
    }
    if local != u32::MAX && greatest > local {
        things.insert("root depends on two local depths".into());
    }
}

/// Enters the marks of an output; tells how many identity functions it has.
fn output_marks(output: &[u8], things: &mut BTreeSet<String>) -> usize {
    let (mut at, mut identities) = (0, 0);
    while let Some(length) = wire::text::record_length(output, at, wire::text::output_width) {
        let mark = &output[at..at + 2];
        things.insert(format!("output mark {}", text(mark)));
        identities += usize::from(mark == b"IY");
        at += length;
    }
    identities
}

fn text(mark: &[u8]) -> String {
    String::from_utf8_lossy(mark).into_owned()
}
