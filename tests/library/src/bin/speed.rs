//! How long the library takes beside the Rust's `analyze_root` on the same profiles, as ratios in one run.
//!
//! `speed`: generated profiles; `speed --examples [FOLDER]`: packed trees; `speed --growth`: how the time of a byte
//! grows with the profile. `--rounds N` with each of them.
//! `speed --calls PROFILE SIZE N` or `speed --calls FILE N` only calls the library N times, so that instructions can be
//! counted; with `--rust-calls` instead of `--calls` it is the Rust that is called.

use std::path::PathBuf;
use std::str::FromStr;

use library::profiles::{PROFILES, Profile, UNKIND, examples_folder, packed_in};
use library::timing::{Spread, Subject, Timed, spread};
use trials::{arguments, with_deep_stack};

const SIZES: [u32; 4] = [10, 100, 1_000, 4_000];
const DOUBLING: [u32; 6] = [125, 250, 500, 1_000, 2_000, 4_000];
const COMPARED: [&str; 3] = [
    "library, to its first",
    "Rust, to its first",
    "library / Rust",
];

fn main() {
    with_deep_stack(run);
}

fn run() {
    let rounds = arguments::value("--rounds", 51).max(1);
    if let Some(words) = words_after("--calls") {
        calls(&words);
    } else if let Some(words) = words_after("--rust-calls") {
        rust_calls(&words);
    } else if let Some(words) = words_after("--examples") {
        let named = words.first().filter(|word| !word.starts_with("--"));
        examples(named.map_or_else(examples_folder, PathBuf::from), rounds);
    } else if words_after("--growth").is_some() {
        growth(rounds);
    } else {
        table(rounds);
    }
}

fn words_after(name: &str) -> Option<Vec<String>> {
    let mut words = std::env::args().skip_while(|word| word != name);
    words.next().map(|_| words.collect())
}

fn all_profiles() -> impl Iterator<Item = Profile> {
    PROFILES.into_iter().chain(UNKIND)
}

fn profile(what: &str, size: u32) -> Vec<u8> {
    let found = all_profiles().find(|(name, _)| *name == what);
    let (_, make) = found.unwrap_or_else(|| panic!("no profile {what}"));
    make(size)
}

fn timed(tree: Vec<u8>) -> Timed {
    Timed::new(Subject::new(tree).expect("profiles are accepted"))
}

fn table(rounds: usize) {
    heading("profile | locals");
    for (what, profile) in PROFILES {
        for size in SIZES {
            row(&format!("{what} | {size}"), timed(profile(size)), rounds);
        }
    }
}

/// Trees that are refused are left out.
fn examples(folder: PathBuf, rounds: usize) {
    heading("example");
    for (name, tree) in packed_in(&folder) {
        if let Some(subject) = Subject::new(tree) {
            row(&name, Timed::new(subject), rounds);
        }
    }
}

fn heading(what: &str) {
    println!("| {what} | bytes | L, F, C, R | library / Rust, median | least | greatest |");
    println!("|{}", "---|".repeat(what.split('|').count() + 5));
}

fn row(what: &str, mut timed: Timed, rounds: usize) {
    let ratio = |[library, rust]: [f64; 2]| library / rust;
    let Spread {
        median,
        least,
        greatest,
    } = spread((0..rounds).map(|_| ratio(timed.round())).collect());
    let [l, f, c, r] = timed.subject.needed.limits();
    println!(
        "| {what} | {} | {l}, {f}, {c}, {r} | {median:.2} | {least:.2} | {greatest:.2} |",
        timed.subject.tree.len(),
    );
}

fn growth(rounds: usize) {
    println!(
        "| profile | time of a byte | {} |",
        DOUBLING.map(|size| size.to_string()).join(" | ")
    );
    println!("|---|---|{}", "---|".repeat(DOUBLING.len()));
    for (what, profile) in all_profiles() {
        let mut sizes = DOUBLING.map(|size| timed(profile(size)));
        let seen: Vec<_> = (0..rounds).map(|_| compared(&mut sizes)).collect();
        for (row, who) in COMPARED.into_iter().enumerate() {
            let figures = |at: usize| seen.iter().map(|round| round[at][row]).collect();
            let median = |at: usize| format!("{:.2}", spread(figures(at)).median);
            let medians: Vec<_> = (0..sizes.len()).map(median).collect();
            println!("| {what} | {who} | {} |", medians.join(" | "));
        }
    }
}

/// The time of a byte at each size in one round: three ratios.
fn compared(sizes: &mut [Timed]) -> Vec<[f64; 3]> {
    let of_a_byte = |timed: &mut Timed| {
        let bytes = timed.subject.tree.len() as f64;
        timed.second_round().map(|seconds| seconds / bytes)
    };
    let times: Vec<_> = sizes.iter_mut().map(of_a_byte).collect();
    let [first_library, first_rust] = times[0];
    let ratios =
        |[library, rust]: &[f64; 2]| [library / first_library, rust / first_rust, library / rust];
    times.iter().map(ratios).collect()
}

/// Only the library's calls, and a look at what the last one answered.
fn calls(words: &[String]) {
    let (mut subject, count) = to_call(words);
    subject.library(count);
    subject.was_answered_as_by_the_rust();
}

fn rust_calls(words: &[String]) {
    let (mut subject, count) = to_call(words);
    subject.rust(count);
}

fn to_call(words: &[String]) -> (Subject, usize) {
    let (tree, count) = match words {
        [what, size, count] => (profile(what, number(size)), count),
        [file, count] => (
            std::fs::read(file).unwrap_or_else(|e| panic!("{file}: {e}")),
            count,
        ),
        _ => panic!("PROFILE SIZE N, or FILE N"),
    };
    let subject = Subject::new(tree).expect("a tree that is accepted");
    (subject, number(count))
}

fn number<T: FromStr>(word: &str) -> T {
    word.parse()
        .unwrap_or_else(|_| panic!("{word} is no number"))
}
