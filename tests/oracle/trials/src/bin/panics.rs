//! Case 9 of document 01: sizes at the edge of 16 bits, where the Rust panics and document 01 refuses.
//!
//! The Rust is quadratic in a frame's names, so the whole takes some minutes.

use std::panic::catch_unwind;
use std::process::ExitCode;
use std::time::Instant;

use trials::differences::differing;
use trials::with_deep_stack;
use wire::{Answer, Lent, put};

const MOST: u32 = 65_535;

fn main() -> ExitCode {
    std::panic::set_hook(Box::new(|_| {}));
    let cases: [(&str, Vec<u8>, u32); 12] = [
        ("65,535 binds", binds(MOST), 0),
        ("65,536 binds", binds(MOST + 1), 11),
        ("65,535 parameters", parameters(MOST), 0),
        ("65,536 parameters", parameters(MOST + 1), 11),
        ("65,534 binds in an object", object_binds(MOST - 1), 0),
        ("65,535 binds in an object", object_binds(MOST), 11),
        ("65,535 externals", externals(MOST), 0),
        ("65,536 externals", externals(MOST + 1), 11),
        ("65,535 captures", captures(MOST), 0),
        ("65,536 captures", captures(MOST + 1), 0),
        ("65,537 captures", captures(MOST + 2), 12),
        ("65,536 binds of one name", duplicates(MOST + 1), 0),
    ];
    let as_said = cases
        .into_iter()
        .filter(|(what, tree, number)| one(what, tree, *number))
        .count();
    println!("{as_said} of 12 as document 01 says");
    ExitCode::from(u8::from(as_said != 12))
}

/// Whether the model gives the number, and the Rust panics exactly where that isn't 0 and else agrees.
fn one(what: &str, tree: &[u8], number: u32) -> bool {
    let roomy = Lent::exact([1 << 18; 4], 1 << 30, 1 << 30);
    let copy = tree.to_vec();
    let modelled = with_deep_stack(move || model::analyze(&roomy, &copy));
    let start = Instant::now();
    let copy = tree.to_vec();
    let judged = catch_unwind(|| with_deep_stack(move || judge::run(&copy)));
    let seconds = start.elapsed().as_secs_f64();
    let (told, agree) = match &judged {
        Ok(answer) => (
            "passes".into(),
            number == 0 && differing(answer, &modelled).is_empty(),
        ),
        Err(panic) => (format!("panics: {}", message(&**panic)), number != 0),
    };
    println!(
        "{what}: the Rust {told} ({seconds:.1} s); the model {}",
        brief(&modelled)
    );
    agree && modelled.number == number
}

fn message(panic: &(dyn std::any::Any + Send)) -> String {
    let text = panic.downcast_ref::<String>().map(String::as_str);
    text.or(panic.downcast_ref::<&str>().copied())
        .unwrap_or("no text")
        .into()
}

fn brief(answer: &Answer) -> String {
    match answer.number {
        0 => format!(
            "accepts, {} bytes of output, {} rounds",
            answer.out.len(),
            answer.rounds
        ),
        number => format!("refuses with {number} at {}", answer.place),
    }
}

// The trees

fn binds(count: u32) -> Vec<u8> {
    let mut tree = header(&[]);
    put(&mut tree, b"LO", &[count]);
    put_binds(&mut tree, 0..count);
    put(&mut tree, b"TV", &[0]);
    tree
}

fn object_binds(count: u32) -> Vec<u8> {
    let mut tree = header(&[]);
    put(&mut tree, b"OB", &[count, 0, 0]);
    put_binds(&mut tree, 0..count);
    tree
}

fn duplicates(count: u32) -> Vec<u8> {
    let mut tree = header(&[]);
    put(&mut tree, b"LO", &[count]);
    put_binds(&mut tree, (0..count).map(|_| 5));
    put(&mut tree, b"TV", &[0]);
    tree
}

fn parameters(count: u32) -> Vec<u8> {
    let mut tree = header(&[]);
    put(&mut tree, b"FN", &[1, count]);
    for name in 0..count {
        put(&mut tree, b"PA", &[name, name, 0]);
    }
    put(&mut tree, b"TV", &[0]);
    tree
}

fn externals(count: u32) -> Vec<u8> {
    let names: Vec<u32> = (0..count).collect();
    let mut tree = header(&names);
    put(&mut tree, b"VA", &[count - 1, 1]);
    tree
}

/// A function that uses so many names of two frames outside it.
fn captures(count: u32) -> Vec<u8> {
    let names: Vec<u32> = (0..count.min(MOST)).collect();
    let mut tree = header(&names);
    put(&mut tree, b"LO", &[2]);
    put_binds(&mut tree, MOST..MOST + 2);
    put(&mut tree, b"FN", &[1, 0]);
    put(&mut tree, b"AP", &[count, 0, 0, 2]);
    put(&mut tree, b"TV", &[0]);
    for name in 0..count {
        put(&mut tree, b"VA", &[name, 3]);
    }
    tree
}

fn header(externals: &[u32]) -> Vec<u8> {
    let mut tree = vec![];
    let mut numbers = vec![externals.len() as u32];
    numbers.extend(externals);
    put(&mut tree, b"JT", &numbers);
    tree
}

fn put_binds(tree: &mut Vec<u8>, names: impl Iterator<Item = u32>) {
    for name in names {
        put(tree, b"BV", &[name, 1]);
        put(tree, b"TV", &[0]);
    }
}
