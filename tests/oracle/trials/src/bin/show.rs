//! Shows what the Rust and the model answer to trees given as text, and their text in Jsonnet.
//!
//! `show 'JT 0, LO 1, BV 5 9, TV 3, VA 5 8' ..`

use trials::differences::show;
use trials::jsonnet::{Around, print};
use trials::node::Node;
use trials::{roomy, with_deep_stack};
use wire::text::parse;

fn main() {
    with_deep_stack(|| std::env::args().skip(1).for_each(|text| one(&text)));
}

fn one(text: &str) {
    let tree = parse(text);
    let modelled = model::analyze(&roomy(), &tree);
    println!("{text}\n  model: {}", show(&modelled));
    // The Rust's bridge reads accepted trees only.
    if modelled.number == 0 {
        println!("  Rust: {}", show(&judge::run(&tree)));
        println!(
            "  Jsonnet: {}",
            print(&Node::read(&tree), Around::default())
        );
    }
}
