//! How long the proved first walk takes beside one plain pass over the same bytes, as a ratio in one run.

use std::hint::black_box;
use std::time::{Duration, Instant};

use wire::put;

unsafe extern "C" {
    /// The refusal's number, 0 where the tree is accepted.
    fn tsilmogar_first_walk(tree: *const u8, length: usize) -> u32;
}

fn first_walk(tree: &[u8]) -> u64 {
    // SAFETY: the slice is readable for its length.
    u64::from(unsafe { tsilmogar_first_walk(tree.as_ptr(), tree.len()) })
}

/// The plain pass: every byte is read once; the compiler may take several at a time.
fn sum(bytes: &[u8]) -> u64 {
    bytes.iter().map(|b| u64::from(*b)).sum()
}

/// The shortest of several rounds over all trees.
fn shortest(rounds: usize, trees: &[Vec<u8>], work: impl Fn(&[u8]) -> u64) -> Duration {
    let round = || {
        let begun = Instant::now();
        for tree in trees {
            black_box(work(black_box(tree)));
        }
        begun.elapsed()
    };
    (0..rounds)
        .map(|_| round())
        .min()
        .expect("at least one round")
}

/// An array of this many bytes in all, of every record that holds no name.
fn large(bytes: usize) -> Vec<u8> {
    let items: [Vec<u8>; 4] = [
        record(b"VA", &[5, 1]),
        [record(b"UN", &[1]), record(b"TV", &[1])].concat(),
        [
            record(b"FN", &[1, 1]),
            record(b"PA", &[5, 1, 0]),
            record(b"VA", &[5, 1]),
        ]
        .concat(),
        [
            record(b"OB", &[0, 0, 1]),
            record(b"FH", &[0, 5, 1, 0, 0, 0]),
            record(b"TV", &[1]),
        ]
        .concat(),
    ];
    let mut body = Vec::new();
    let mut count = 0;
    while body.len() + 12 + items[count % 4].len() <= bytes {
        body.extend_from_slice(&items[count % 4]);
        count += 1;
    }
    let mut tree = record(b"JT", &[0]);
    put(&mut tree, b"AR", &[count as u32]);
    tree.extend(body);
    tree
}

fn record(mark: &[u8; 2], numbers: &[u32]) -> Vec<u8> {
    let mut bytes = Vec::new();
    put(&mut bytes, mark, numbers);
    bytes
}

fn compare(name: &str, rounds: usize, trees: &[Vec<u8>]) {
    let bytes: usize = trees.iter().map(Vec::len).sum();
    let walk = shortest(rounds, trees, first_walk);
    let pass = shortest(rounds, trees, sum);
    let accepted = trees.iter().filter(|t| first_walk(t) == 0).count();
    println!(
        "| {name} | {} | {accepted} | {bytes} | {:.2} |",
        trees.len(),
        walk.as_secs_f64() / pass.as_secs_f64()
    );
}

fn stored(path: &str) -> Vec<Vec<u8>> {
    let bytes = std::fs::read(path).expect("a stored file");
    wire::stored::unpack(&bytes)
        .into_iter()
        .map(|call| call.tree)
        .collect()
}

fn main() {
    println!("| trees | how many | accepted | bytes | first walk / plain pass |");
    println!("|---|---|---|---|---|");
    compare(
        "tests/stored/calls.bin",
        200,
        &stored("../stored/calls.bin"),
    );
    compare("tests/stored/walk.bin", 200, &stored("../stored/walk.bin"));
    compare("one of 16,777,216 bytes at most", 10, &[large(16_777_216)]);
    let endless = [
        record(b"JT", &[0]),
        record(b"AR", &[u32::MAX]),
        record(b"TV", &[1]),
    ]
    .concat();
    compare("`AR 4294967295` and one item", 10_000, &[endless]);
}
