//! A packed tree as Jsonnet text. Every part stands in brackets, so that no precedence matters.

use crate::node::Node;

/// Ways around two faults of the program that judges the text; both off prints the tree as it is.
#[derive(Clone, Copy, Debug, Default, PartialEq, Eq)]
pub struct Around {
    /// an object with binds and no members gets a field
    pub lost_binds: bool,
    /// a computed name loses its plus
    pub computed_plus: bool,
}

/// A function of the externals, so that nothing of the tree is evaluated.
pub fn print(tree: &Node, around: Around) -> String {
    let mut externals = tree.numbers[1..].to_vec();
    // Of two externals with one name only the later is ever found.
    externals.sort_unstable();
    externals.dedup();
    let names: Vec<String> = externals.iter().map(|name| format!("n{name}")).collect();
    format!(
        "function({}) ({})",
        names.join(", "),
        Printer { around }.expr(&tree.children[0])
    )
}

const UNARY: [&str; 4] = ["-", "!", "+", "~"];
const BINARY: [&str; 18] = [
    "+", "-", "*", "/", "%", "==", "!=", "<", ">", "<=", ">=", "&&", "||", "&", "|", "^", "<<",
    ">>",
];
const VISIBILITY: [&str; 3] = [":", "::", ":::"];

/// Operators are opaque in the tree: any number stands for some operator.
fn operator<'a>(operators: &[&'a str], number: u32) -> &'a str {
    operators[number as usize % operators.len()]
}

struct Printer {
    around: Around,
}

impl Printer {
    fn expr(&self, node: &Node) -> String {
        let part = |index: usize| self.expr(&node.children[index]);
        match &node.mark {
            // The grammar has no `super` alone.
            b"ID" => ["self", "super.s", "$"][node.numbers[0] as usize].into(),
            b"TV" => node.numbers[0].to_string(),
            b"VA" => format!("n{}", node.numbers[0]),
            b"IM" => format!("(import \"p{}\")", node.numbers[3]),
            b"AR" => format!("[{}]", self.list(&node.children)),
            b"OB" => self.object(node),
            b"OX" => format!("({} {})", part(0), part(1)),
            b"UN" => format!("({}({}))", operator(&UNARY, node.numbers[0]), part(0)),
            b"BI" => format!(
                "({} {} {})",
                part(0),
                operator(&BINARY, node.numbers[0]),
                part(1)
            ),
            b"AS" => {
                let rest = part(node.children.len() - 1);
                format!("({}; {rest})", self.assertion(node))
            }
            b"LO" if node.numbers[0] == 0 => part(0),
            b"LO" => {
                let (body, binds) = node.children.split_last().expect("a body");
                let binds: Vec<String> = binds.iter().map(|bind| self.bind(bind)).collect();
                format!("(local {}; {})", binds.join(", "), self.expr(body))
            }
            b"ER" => format!("(error {})", part(0)),
            b"AP" => self.apply(node),
            b"IX" => {
                let parts = node.children[1..].iter();
                let parts: Vec<String> = parts
                    .map(|part| format!("[{}]", self.expr(&part.children[0])))
                    .collect();
                format!("({}){}", part(0), parts.concat())
            }
            b"FN" => format!("(function{} {})", self.parameters(node), self.body(node)),
            b"IF" if node.numbers[0] == 1 => {
                format!("(if {} then {} else {})", part(0), part(1), part(2))
            }
            b"IF" => format!("(if {} then {})", part(0), part(1)),
            b"SC" => self.slice(node),
            other => panic!("{other:?} is no expression"),
        }
    }

    fn list(&self, nodes: &[Node]) -> String {
        let items: Vec<String> = nodes.iter().map(|item| self.expr(item)).collect();
        items.join(", ")
    }

    /// Of `AS` and `AT` alike.
    fn assertion(&self, node: &Node) -> String {
        let condition = self.expr(&node.children[0]);
        match node.numbers[0] {
            0 => format!("assert {condition}"),
            _ => format!("assert {condition} : {}", self.expr(&node.children[1])),
        }
    }

    fn bind(&self, node: &Node) -> String {
        let (name, value) = (node.numbers[0], &node.children[0]);
        if node.is(b"BF") {
            format!("n{name}{} = {}", self.parameters(value), self.body(value))
        } else {
            format!("n{name} = {}", self.expr(value))
        }
    }

    fn parameters(&self, function: &Node) -> String {
        let (_, parameters) = function.children.split_last().expect("a body");
        let parameters: Vec<String> = parameters
            .iter()
            .map(|parameter| match parameter.children.first() {
                None => format!("n{}", parameter.numbers[0]),
                Some(default) => format!("n{}={}", parameter.numbers[0], self.expr(default)),
            })
            .collect();
        format!("({})", parameters.join(", "))
    }

    fn body(&self, function: &Node) -> String {
        self.expr(function.children.last().expect("a body"))
    }

    fn apply(&self, node: &Node) -> String {
        let arguments: Vec<String> = node.children[1..]
            .iter()
            .map(|argument| match &argument.mark {
                b"NA" => format!(
                    "n{}={}",
                    argument.numbers[0],
                    self.expr(&argument.children[0])
                ),
                _ => self.expr(argument),
            })
            .collect();
        let tailstrict = if node.numbers[2] == 1 {
            " tailstrict"
        } else {
            ""
        };
        format!(
            "(({})({}){tailstrict})",
            self.expr(&node.children[0]),
            arguments.join(", ")
        )
    }

    fn slice(&self, node: &Node) -> String {
        let mut parts = node.children.iter();
        let mut next = || self.expr(parts.next().expect("a part"));
        let value = next();
        let bounds = [1, 2, 4].map(|bit| {
            if node.numbers[0] & bit != 0 {
                next()
            } else {
                "".into()
            }
        });
        let [start, end, step] = bounds;
        // Blanks, because `::` is a mark of its own.
        format!("({value})[{start} : {end} : {step}]")
    }

    fn object(&self, node: &Node) -> String {
        let mut members = vec![];
        members.extend(
            node.binds()
                .iter()
                .map(|bind| format!("local {}", self.bind(bind))),
        );
        members.extend(
            node.assertions()
                .iter()
                .map(|assertion| self.assertion(assertion)),
        );
        let fields = node.heads().iter().zip(node.values());
        members.extend(fields.map(|(head, value)| self.field(head, value)));
        if self.around.lost_binds && node.assertions().len() + node.heads().len() == 0 {
            members.push("f: 0".into());
        }
        format!("{{ {} }}", members.join(", "))
    }

    fn field(&self, head: &Node, value: &Node) -> String {
        let computed = head.children.first();
        let name = match computed {
            Some(name) => format!("[{}]", self.expr(name)),
            None => format!("f{}", head.numbers[1]),
        };
        let avoided = self.around.computed_plus && computed.is_some();
        let plus = if head.numbers[3] == 1 && !avoided {
            "+"
        } else {
            ""
        };
        let colons = VISIBILITY[head.numbers[4] as usize];
        if head.numbers[5] == 1 {
            format!(
                "{name}{}{plus}{colons} {}",
                self.parameters(value),
                self.body(value)
            )
        } else {
            format!("{name}{plus}{colons} {}", self.expr(value))
        }
    }
}

#[cfg(test)]
mod tests {
    use super::*;
    use wire::text::parse;

    #[test]
    fn a_tree_as_text() {
        let tree = parse(
            "JT 2 5 5, LO 1, BF 1 9, FN 3 2, PA 2 1 0, PA 3 1 1, TV 7, SC 5, VA 1 1, TV 1, TV 2, \
             OX, VA 1 1, OB 1 1 1, FH 1 0 1 1 2 0, VA 5 1, BV 4 1, ID 0 1, AT 1, TV 1, TV 2, ID 1 1",
        );
        assert_eq!(
            print(&Node::read(&tree), Around::default()),
            "function(n5) ((local n1(n2, n3=7) = (n1)[1 :  : 2]; \
             (n1 { local n4 = self, assert 1 : 2, [n5]+::: super.s })))"
        );
    }
}
