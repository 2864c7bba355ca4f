//! The smallest tree that still shows something: parts are left out for as long as it does.

use crate::node::Node;

/// A tree for which `shows` holds, made smaller while it still does.
pub fn shrink(tree: &[u8], shows: impl Fn(&[u8]) -> bool) -> Vec<u8> {
    let mut smallest = Node::read(tree);
    while let Some(smaller) = smaller_trees(&smallest)
        .into_iter()
        .find(|node| shows(&node.write()))
    {
        smallest = smaller;
    }
    smallest.write()
}

/// Every tree that is one step smaller, the smallest first.
fn smaller_trees(node: &Node) -> Vec<Node> {
    let mut found = vec![];
    if node.is_expression() {
        if !node.is(b"TV") {
            found.push(Node {
                mark: *b"TV",
                numbers: vec![0],
                children: vec![],
            });
        }
        let below = node.all().into_iter().skip(1);
        found.extend(below.filter(|node| node.is_expression()).cloned());
    }
    found.extend(without_a_part(node));
    for (index, child) in node.children.iter().enumerate() {
        for smaller in smaller_trees(child) {
            // A function under a bind or head must stay one, an object under `OX` too.
            if keeps_its_place(node, index, &smaller) {
                let mut changed = node.clone();
                changed.children[index] = smaller;
                found.push(changed);
            }
        }
    }
    found
}

fn keeps_its_place(parent: &Node, index: usize, child: &Node) -> bool {
    match &parent.mark {
        b"BF" => child.is(b"FN"),
        b"OX" => index == 0 || child.is(b"OB"),
        b"OB" => {
            let first_value = parent.children.len() - parent.values().len();
            let head = index
                .checked_sub(first_value)
                .map(|field| &parent.heads()[field]);
            head.is_none_or(|head| head.numbers[5] == 0 || child.is(b"FN"))
        }
        _ => true,
    }
}

/// The node with one optional part, or one element of a list, left out.
fn without_a_part(node: &Node) -> Vec<Node> {
    let removed = |index: usize, count: usize| {
        let mut smaller = node.clone();
        smaller.children.remove(index);
        smaller.numbers[count] -= 1;
        smaller
    };
    match &node.mark {
        b"JT" => (0..node.numbers[0] as usize)
            .map(|index| without_external(node, index))
            .collect(),
        b"AR" => (0..node.children.len())
            .map(|index| removed(index, 0))
            .collect(),
        b"IX" => (1..node.children.len())
            .map(|index| removed(index, 0))
            .collect(),
        b"LO" => (0..node.children.len() - 1)
            .map(|index| removed(index, 0))
            .collect(),
        b"FN" => (0..node.children.len() - 1)
            .map(|index| removed(index, 1))
            .collect(),
        b"AT" | b"AS" if node.numbers[0] == 1 => vec![removed(1, 0)],
        b"IF" if node.numbers[0] == 1 => vec![removed(2, 0)],
        b"PA" if node.numbers[2] == 1 => vec![removed(0, 2)],
        b"AP" => {
            let unnamed = node.numbers[0] as usize;
            let count = |index| usize::from(index > unnamed);
            (1..node.children.len())
                .map(|index| removed(index, count(index)))
                .collect()
        }
        b"FH" => simpler_heads(node),
        b"OB" => smaller_objects(node),
        _ => vec![],
    }
}

fn without_external(node: &Node, index: usize) -> Node {
    let mut smaller = node.clone();
    smaller.numbers[0] -= 1;
    smaller.numbers.remove(1 + index);
    smaller
}

/// Without computed name, plus or visibility.
fn simpler_heads(node: &Node) -> Vec<Node> {
    let mut found = vec![];
    if node.numbers[0] == 1 {
        let mut fixed = node.clone();
        fixed.children.clear();
        fixed.numbers[0] = 0;
        found.push(fixed);
    }
    for field in [3, 4] {
        if node.numbers[field] != 0 {
            let mut simpler = node.clone();
            simpler.numbers[field] = 0;
            found.push(simpler);
        }
    }
    found
}

fn smaller_objects(node: &Node) -> Vec<Node> {
    let [binds, assertions, fields] = [0, 1, 2].map(|count| node.numbers[count] as usize);
    let mut found = vec![];
    let mut removed = |index: usize, also: Option<usize>, count: usize| {
        let mut smaller = node.clone();
        // The later one first, so that the other's index stands.
        also.into_iter()
            .chain([index])
            .for_each(|at| drop(smaller.children.remove(at)));
        smaller.numbers[count] -= 1;
        found.push(smaller);
    };
    (fields..fields + binds).for_each(|index| removed(index, None, 0));
    (fields + binds..fields + binds + assertions).for_each(|index| removed(index, None, 1));
    let first_value = fields + binds + assertions;
    (0..fields).for_each(|index| removed(index, Some(first_value + index), 2));
    found.extend(without_method(node, first_value));
    found
}

/// A method becomes a field whose value is that function.
fn without_method(node: &Node, first_value: usize) -> Vec<Node> {
    let methods = (0..node.values().len()).filter(|&index| node.heads()[index].numbers[5] == 1);
    methods
        .map(|index| {
            let mut plain = node.clone();
            plain.children[index].numbers[5] = 0;
            debug_assert!(plain.children[first_value + index].is(b"FN"));
            plain
        })
        .collect()
}

#[cfg(test)]
mod tests {
    use super::*;
    use wire::text::{dump_diagnostics, dump_tree, parse};

    #[test]
    fn the_smallest_tree_with_a_self_outside() {
        let tree = parse(
            "JT 1 5, LO 2, BV 1 9, OB 1 1 1, FH 1 0 3 1 2 1, BI 1, TV 1, ID 0 77, BV 3 3, TV 1, AT 1, \
             TV 1, TV 2, FN 1 1, PA 1 1 1, TV 0, TV 4, BF 2 8, FN 3 0, TV 1, VA 2 4",
        );
        let self_outside = |tree: &[u8]| {
            let found = dump_diagnostics(&judge::run(tree).diagnostics);
            found.contains("DG 0 3 0 77")
        };
        assert!(self_outside(&tree));
        assert_eq!(dump_tree(&shrink(&tree, self_outside)), "JT 0, ID 0 77");
    }
}
