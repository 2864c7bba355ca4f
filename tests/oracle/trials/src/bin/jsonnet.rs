//! The program `jsonnet` as a second judge of the static check: it must reject the text of a tree exactly when the
//! Rust reports one of errors 1 to 5, and for one of them.
//!
//! `jsonnet --trees N --seed S` (mode printable), or `jsonnet --every E` for every tree of E expressions.

use std::collections::BTreeMap;
use std::path::PathBuf;
use std::process::{Command, ExitCode};
use std::{env, fs, process};

use generator::Mode;
use trials::jsonnet::{Around, print};
use trials::node::Node;
use trials::shrink::shrink;
use trials::{trees, with_deep_stack};
use wire::number;
use wire::text::dump_tree;

/// Accepted trees are given to the program together, so many at a time.
const BATCH: usize = 50;
/// Longer trees are left out: the program copies a computed name with a plus, which doubles with each nesting.
const LONGEST: usize = 600;
/// Of the differences that no known fault explains, so many are shown.
const SHOWN: usize = 8;
const UNEXPLAINED: &str = "UNEXPLAINED";

const AS_IT_IS: Around = Around {
    lost_binds: false,
    computed_plus: false,
};
const AROUND_LOST_BINDS: Around = Around {
    lost_binds: true,
    computed_plus: false,
};
const AROUND_COMPUTED_PLUS: Around = Around {
    lost_binds: false,
    computed_plus: true,
};
const AROUND_BOTH: Around = Around {
    lost_binds: true,
    computed_plus: true,
};

fn main() -> ExitCode {
    with_deep_stack(judge_all)
}

#[derive(Clone, Debug, PartialEq, Eq)]
enum Verdict {
    Accepted,
    Rejected(String),
    /// for a reason that is no matter of the static check: its own limits
    Unable(String),
}

#[derive(Default)]
struct Tally {
    counts: BTreeMap<String, u64>,
    /// of each kind of difference, the shortest trees
    shortest: BTreeMap<String, Vec<Vec<u8>>>,
    unexplained: u64,
}

impl Tally {
    fn count(&mut self, what: String) {
        *self.counts.entry(what).or_default() += 1;
    }

    fn keep_shortest(&mut self, what: String, tree: &[u8], most: usize) {
        let kept = self.shortest.entry(what).or_default();
        kept.push(tree.to_vec());
        kept.sort_by_key(Vec::len);
        kept.truncate(most);
    }
}

fn judge_all() -> ExitCode {
    let mut tally = Tally::default();
    let mut fine = vec![];
    let what = trees::asked_for(Mode::Printable, &mut |_, tree| {
        if tree.len() > LONGEST {
            tally.count("left out: over 600 bytes".into());
        } else if !static_errors(tree).is_empty() || meets_a_known_fault(tree) {
            one(tree, &mut tally);
        } else {
            fine.push(tree.to_vec());
        }
    });
    for batch in fine.chunks(BATCH) {
        together(batch, &mut tally);
    }
    println!("{what}");
    for (what, count) in &tally.counts {
        println!("  {what}: {count}");
    }
    for (what, trees) in &tally.shortest {
        trees.iter().for_each(|tree| show_smallest(what, tree));
    }
    fs::remove_file(file()).ok();
    ExitCode::from(u8::from(tally.unexplained > 0))
}

/// Which of errors 1 to 5 the Rust reports.
fn static_errors(tree: &[u8]) -> Vec<u32> {
    let found = judge::run(tree).diagnostics;
    let codes = (0..found.len())
        .step_by(18)
        .map(|at| number(&found, at + 6));
    codes.filter(|code| (1..=5).contains(code)).collect()
}

fn meets_a_known_fault(tree: &[u8]) -> bool {
    let node = Node::read(tree);
    print(&node, AS_IT_IS) != print(&node, AROUND_BOTH)
}

/// Trees that the program should accept: where it doesn't take them all, each is tried alone.
fn together(batch: &[Vec<u8>], tally: &mut Tally) {
    let texts: Vec<String> = batch
        .iter()
        .map(|tree| print(&Node::read(tree), AS_IT_IS))
        .collect();
    if verdict(&texts) == Verdict::Accepted {
        batch.iter().for_each(|_| tally.count("both accept".into()));
    } else {
        batch.iter().for_each(|tree| one(tree, tally));
    }
}

fn one(tree: &[u8], tally: &mut Tally) {
    let program = verdict_on(tree, AS_IT_IS);
    match &program {
        Verdict::Unable(why) => tally.count(format!("left out: {why}")),
        _ if !agrees(&program, tree) => disagree(tree, &program, tally),
        Verdict::Accepted => tally.count("both accept".into()),
        Verdict::Rejected(why) => tally.count(format!("both reject: {why}")),
    }
}

/// Whether the program accepts what the Rust does, and rejects the rest for an error that the Rust reports.
fn agrees(program: &Verdict, tree: &[u8]) -> bool {
    let errors = static_errors(tree);
    match program {
        Verdict::Accepted => errors.is_empty(),
        Verdict::Rejected(why) => errors.contains(&code_of(why)),
        Verdict::Unable(_) => false,
    }
}

/// A difference is laid to a known fault only if the way around that fault ends it.
fn disagree(tree: &[u8], program: &Verdict, tally: &mut Tally) {
    let ends = |around: Around| agrees(&verdict_on(tree, around), tree);
    let cause = if ends(AROUND_LOST_BINDS) {
        "known fault, binds of an object without members are lost"
    } else if ends(AROUND_COMPUTED_PLUS) {
        "known fault, a computed name with a plus"
    } else if ends(AROUND_BOTH) {
        "both known faults"
    } else {
        tally.unexplained += 1;
        UNEXPLAINED
    };
    let side = match program {
        Verdict::Accepted => "the program alone accepts".into(),
        Verdict::Rejected(why) => format!("the program alone says, {why}"),
        Verdict::Unable(_) => unreachable!("left out before"),
    };
    let what = format!("{cause}: {side}");
    tally.count(what.clone());
    tally.keep_shortest(what, tree, if cause == UNEXPLAINED { SHOWN } else { 1 });
}

/// Made smaller as long as the program says the same and the Rust disagrees with it.
fn show_smallest(what: &str, tree: &[u8]) {
    let program = verdict_on(tree, AS_IT_IS);
    let same = |tree: &[u8]| !agrees(&program, tree) && verdict_on(tree, AS_IT_IS) == program;
    let smallest = shrink(tree, same);
    println!("{what}");
    println!("  tree: {}", dump_tree(&smallest));
    println!("  text: {}", print(&Node::read(&smallest), AS_IT_IS));
}

// The program

fn verdict_on(tree: &[u8], around: Around) -> Verdict {
    verdict(&[print(&Node::read(tree), around)])
}

/// Functions that nobody calls: only what is found before evaluation can be reported.
fn verdict(texts: &[String]) -> Verdict {
    let path = file();
    fs::write(
        &path,
        format!("local trees = [\n{}\n]; 0\n", texts.join(",\n")),
    )
    .expect("writable");
    let run = Command::new("timeout")
        .arg("5")
        .arg("jsonnet")
        .arg(&path)
        .output();
    let run = run.expect("the programs timeout and jsonnet");
    if run.status.success() {
        return Verdict::Accepted;
    }
    reason(&String::from_utf8_lossy(&run.stderr))
}

fn file() -> PathBuf {
    env::temp_dir().join(format!("tree-{}.jsonnet", process::id()))
}

/// The program's messages that stand for errors 1 to 5.
const STATIC: [(&str, u32); 6] = [
    ("Unknown variable", 1),
    ("duplicate local var", 2),
    ("Duplicate function parameter", 2),
    ("Can't use self outside of an object", 3),
    ("Can't use super outside of an object", 4),
    ("No top-level object found", 5),
];

fn reason(message: &str) -> Verdict {
    let first = message
        .lines()
        .next()
        .unwrap_or("no message, taken for too long");
    match STATIC.iter().find(|(text, _)| first.contains(text)) {
        Some((text, _)) => Verdict::Rejected((*text).into()),
        None => Verdict::Unable(without_place(first)),
    }
}

fn code_of(why: &str) -> u32 {
    let known = STATIC.iter().find(|(text, _)| *text == why);
    known.expect("one of the messages").1
}

fn without_place(message: &str) -> String {
    message.rsplit(": ").next().unwrap_or(message).into()
}
