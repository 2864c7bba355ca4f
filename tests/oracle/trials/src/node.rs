//! A packed tree that the first walk accepts, as nodes, and back.

use wire::{number, put, text};

#[derive(Clone, Debug, PartialEq, Eq)]
pub struct Node {
    pub mark: [u8; 2],
    pub numbers: Vec<u32>,
    pub children: Vec<Node>,
}

impl Node {
    pub fn read(tree: &[u8]) -> Node {
        let mut at = 0;
        read_one(tree, &mut at)
    }

    pub fn write(&self) -> Vec<u8> {
        let mut bytes = vec![];
        self.append_to(&mut bytes);
        bytes
    }

    fn append_to(&self, bytes: &mut Vec<u8>) {
        put(bytes, &self.mark, &self.numbers);
        self.children
            .iter()
            .for_each(|child| child.append_to(bytes));
    }

    pub fn is(&self, mark: &[u8; 2]) -> bool {
        self.mark == *mark
    }

    pub fn is_expression(&self) -> bool {
        !matches!(
            &self.mark,
            b"JT" | b"BV" | b"BF" | b"PA" | b"AT" | b"FH" | b"NA" | b"PT"
        )
    }

    /// Document 01's nesting: expressions on the longest way down; a constant array's items don't count.
    pub fn nesting(&self) -> usize {
        let constant = self.is(b"AR") && self.children.iter().all(|item| item.is(b"TV"));
        let counted = self.children.iter().filter(|_| !constant);
        counted.map(Node::nesting).max().unwrap_or(0) + usize::from(self.is_expression())
    }

    /// This node and all below it, in the order of the bytes.
    pub fn all(&self) -> Vec<&Node> {
        let mut nodes = vec![self];
        self.children
            .iter()
            .for_each(|child| nodes.extend(child.all()));
        nodes
    }

    // The parts of an object

    pub fn heads(&self) -> &[Node] {
        &self.children[..self.numbers[2] as usize]
    }

    pub fn binds(&self) -> &[Node] {
        let from = self.numbers[2] as usize;
        &self.children[from..from + self.numbers[0] as usize]
    }

    pub fn assertions(&self) -> &[Node] {
        let from = (self.numbers[2] + self.numbers[0]) as usize;
        &self.children[from..from + self.numbers[1] as usize]
    }

    pub fn values(&self) -> &[Node] {
        &self.children[(self.numbers[2] + self.numbers[0] + self.numbers[1]) as usize..]
    }
}

fn read_one(tree: &[u8], at: &mut usize) -> Node {
    let length = text::record_length(tree, *at, text::tree_width).expect("a whole record");
    let mark = [tree[*at], tree[*at + 1]];
    let numbers: Vec<u32> = (*at + 2..*at + length)
        .step_by(4)
        .map(|field| number(tree, field))
        .collect();
    *at += length;
    let children = (0..children(&mark, &numbers))
        .map(|_| read_one(tree, at))
        .collect();
    Node {
        mark,
        numbers,
        children,
    }
}

/// How many records follow as a record's children.
fn children(mark: &[u8; 2], numbers: &[u32]) -> u32 {
    match mark {
        b"ID" | b"TV" | b"VA" | b"IM" => 0,
        b"JT" | b"UN" | b"ER" | b"NA" | b"PT" | b"BV" | b"BF" => 1,
        b"OX" | b"BI" => 2,
        b"AR" | b"FH" => numbers[0],
        b"AT" | b"LO" | b"IX" => 1 + numbers[0],
        b"AS" | b"IF" => 2 + numbers[0],
        b"FN" => numbers[1] + 1,
        b"PA" => numbers[2],
        b"SC" => 1 + numbers[0].count_ones(),
        b"AP" => 1 + numbers[0] + numbers[1],
        b"OB" => numbers[0] + numbers[1] + 2 * numbers[2],
        other => panic!("{other:?} is no mark of a tree"),
    }
}
