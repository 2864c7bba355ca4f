//! Makes the stored files, the same from the same seeds.
//! Usage: make DIRECTORY definition|calls|walk ..

use chooser::choose::{Wanted, choose, spread};
use chooser::corners::corners;
use chooser::features::faults_noticed;
use chooser::pool::{
    Bounds, accepted, by_hand, by_model, damaged, edges, needs_all, short_tables, tight, trees,
    with_needs,
};
use chooser::walks::{at_the_limit, cuts, generated, odd, ranges, walk};
use generator::Mode;
use model::Fault;
use std::collections::{BTreeMap, BTreeSet};
use std::fs;
use std::path::Path;
use wire::Lent;
use wire::stored::{StoredCall, pack};
use wire::text::parse;

type Trees = [(Vec<u8>, Lent)];

/// What whoever replays the packed calls has room for.
const REPLAYED: Bounds = Bounds {
    tree: 4_096,
    out: 8_192,
    limits: [512, 256, 512, 512],
};
/// What a proof checker can compute in a short time.
const CHECKED: Bounds = Bounds {
    tree: 220,
    out: 4_096,
    limits: [64, 64, 64, 64],
};

fn main() {
    let mut words = std::env::args().skip(1);
    let directory = words.next().expect("a directory");
    for word in words {
        match word.as_str() {
            "definition" => definition(Path::new(&directory)),
            "calls" => calls(Path::new(&directory)),
            "walk" => walks(Path::new(&directory)),
            other => panic!("unknown file {other}"),
        }
    }
}

fn say(what: &str, chosen: &[StoredCall]) {
    let bytes: usize = chosen.iter().map(StoredCall::length).sum();
    let mut numbers: BTreeMap<u32, usize> = BTreeMap::new();
    chosen
        .iter()
        .for_each(|call| *numbers.entry(call.answer.number).or_default() += 1);
    println!(
        "{what}: {} calls, {bytes} bytes, by number {numbers:?}",
        chosen.len()
    );
}

/// Names the faults that fewer than three calls notice.
fn say_unnoticed(what: &str, chosen: &[StoredCall]) {
    let mut noticed: BTreeMap<usize, usize> = BTreeMap::new();
    for call in chosen {
        faults_noticed(call).for_each(|fault| *noticed.entry(fault as usize).or_default() += 1);
    }
    for &fault in Fault::ALL {
        let times = noticed.get(&(fault as usize)).copied().unwrap_or(0);
        if times < 3 {
            println!("{what}: {fault:?} is noticed by {times}");
        }
    }
}

fn shorter(trees: &Trees, length: usize) -> Vec<(Vec<u8>, Lent)> {
    trees
        .iter()
        .filter(|(tree, _)| tree.len() < length)
        .cloned()
        .collect()
}

// ---- definition.txt

fn definition(directory: &Path) {
    let pool = trees(
        0..20_000,
        &[Mode::Mixed, Mode::Small, Mode::Wide, Mode::Printable],
        &CHECKED,
    );
    let corners = shorter(&with_needs(corners()), CHECKED.tree);
    let whole = choose(
        accepted(&pool),
        &Wanted {
            times: 2,
            fault_times: 12,
            count: 1_120,
            filler: 500,
        },
    );
    let whole = [accepted(&corners), whole].concat();
    say("definition, accepted", &whole);
    let spoilt = damaged(&spread(shorter(&pool, 150), 3_000), 3, 150);
    let spoilt = choose(
        spoilt,
        &Wanted {
            times: 2,
            fault_times: 6,
            count: 300,
            filler: 200,
        },
    );
    let spoilt = [spoilt, unread([ranges(), odd()].concat())].concat();
    say("definition, damaged", &spoilt);
    let short = shorter(&pool, 200);
    let tight = [
        tight_calls(&short, 600),
        tight_calls(&shorter(&corners, 200), corners.len()),
    ]
    .concat();
    let tight = choose(
        tight,
        &Wanted {
            times: 3,
            fault_times: 8,
            count: 200,
            filler: 300,
        },
    );
    let tight = [exact_calls(&short, 30), tight, short_tables_calls(&short)].concat();
    say("definition, tight", &tight);
    let all = [by_hand(), whole, spoilt, tight].concat();
    say("definition, all", &all);
    say_unnoticed("definition", &all);
    let lines: String = all.iter().map(|call| call.line() + "\n").collect();
    fs::write(directory.join("definition.txt"), lines).expect("the file can be written");
}

fn exact_calls(pool: &Trees, count: usize) -> Vec<StoredCall> {
    let takes_all: Vec<_> = pool
        .iter()
        .filter(|(_, needed)| needs_all(needed))
        .cloned()
        .collect();
    spread(takes_all, count)
        .iter()
        .flat_map(|(tree, needed)| edges(tree, needed))
        .collect()
}

fn tight_calls(pool: &Trees, count: usize) -> Vec<StoredCall> {
    spread(pool.to_vec(), count)
        .iter()
        .flat_map(|(tree, needed)| tight(tree, needed))
        .collect()
}

fn short_tables_calls(pool: &Trees) -> Vec<StoredCall> {
    spread(pool.to_vec(), 1)
        .iter()
        .flat_map(|(tree, needed)| short_tables(tree, needed))
        .collect()
}

/// Bytes that are mostly refused by the first walk, under limits for the few that aren't.
fn unread(trees: Vec<Vec<u8>>) -> Vec<StoredCall> {
    let lent = Lent::exact([4, 8, 4, 4], 200, 100);
    trees.iter().map(|tree| by_model(lent, tree)).collect()
}

// ---- calls.bin

fn calls(directory: &Path) {
    let ordinary = trees(
        100_000..112_000,
        &[Mode::Mixed, Mode::Small, Mode::Printable],
        &REPLAYED,
    );
    let ordinary = shorter(&ordinary, 900);
    let corners = with_needs(corners());
    let whole = choose(
        accepted(&ordinary),
        &Wanted {
            times: 2,
            fault_times: 30,
            count: 1_900,
            filler: 390,
        },
    );
    let whole = [accepted(&corners), whole].concat();
    say("calls, accepted", &whole);
    let large = trees(200_000..200_300, &[Mode::Deep, Mode::Wide], &REPLAYED);
    let large = choose(
        accepted(&large),
        &Wanted {
            times: 1,
            fault_times: 1,
            count: 30,
            filler: 0,
        },
    );
    say("calls, large", &large);
    let deep = accepted(&deepest(
        trees(200_000..200_600, &[Mode::Deep], &REPLAYED),
        7,
    ));
    say("calls, deep", &deep);
    let short = shorter(&ordinary, 400);
    let tight = [
        tight_calls(&short, 700),
        tight_calls(&corners, corners.len()),
    ]
    .concat();
    let tight = choose(
        tight,
        &Wanted {
            times: 4,
            fault_times: 12,
            count: 700,
            filler: 300,
        },
    );
    let tight = [exact_calls(&short, 50), tight, short_tables_calls(&short)].concat();
    say("calls, tight", &tight);
    let spoilt = damaged(&spread(shorter(&ordinary, 400), 4_000), 2, 400);
    let spoilt = choose(
        spoilt,
        &Wanted {
            times: 2,
            fault_times: 8,
            count: 350,
            filler: 300,
        },
    );
    let spoilt = [spoilt, unread([ranges(), odd()].concat())].concat();
    say("calls, damaged", &spoilt);
    let nesting = choose(
        nesting(),
        &Wanted {
            times: 1,
            fault_times: 4,
            count: 40,
            filler: 0,
        },
    );
    say("calls, nesting", &nesting);
    let all = [by_hand(), whole, large, deep, tight, spoilt, nesting].concat();
    say("calls, all", &all);
    say_unnoticed("calls", &all);
    fs::write(directory.join("calls.bin"), pack(&all)).expect("the file can be written");
}

/// Those with the most frames open at once.
fn deepest(mut trees: Vec<(Vec<u8>, Lent)>, count: usize) -> Vec<(Vec<u8>, Lent)> {
    trees.sort_by_key(|(_, needed)| std::cmp::Reverse(needed.max_frames));
    trees.truncate(count);
    trees
}

/// Around the nesting limit, accepted and not.
fn nesting() -> Vec<StoredCall> {
    let lent = Lent::exact([8, 16, 8, 8], 4_000, 100);
    at_the_limit()
        .iter()
        .map(|tree| by_model(lent, tree))
        .collect()
}

// ---- walk.bin

const CUT: &[&str] = &[
    "JT 2 7 8, LO 2, BV 1 1, AR 2, TV 1, VA 1 2, BF 2 1, FN 1 1, PA 3 1 1, TV 4, SC 5, TV 1, TV 2, TV 3, ID 2 1",
    "JT 0, OB 1 1 2, FH 0 1 1 0 1 1, FH 1 0 1 1 2 0, VA 1 1, BV 1 1, TV 1, AT 1, TV 1, TV 2, FN 1 0, TV 1, TV 2",
    "JT 1 9, AP 1 1 1 1, VA 9 1, AR 2, TV 1, TV 2, NA 3, IX 1, IM 0 1 1 5, PT 2, OX, ER 1, TV 1, OB 0 0 0",
    "JT 0, AS 1, UN 1, TV 1, IF 1, TV 1, TV 2, TV 3, BI 1, TV 1, TV 2",
];

fn walks(directory: &Path) {
    let mut trees: Vec<Vec<u8>> = CUT.iter().flat_map(|text| cuts(&parse(text))).collect();
    trees.extend([odd(), ranges(), generated(300_000..300_400)].concat());
    let mut known = BTreeSet::new();
    trees.retain(|tree| known.insert(tree.clone()));
    let deep = at_the_limit();
    let chosen: Vec<StoredCall> = trees.into_iter().chain(deep).map(walk).collect();
    say("walk", &chosen);
    fs::write(directory.join("walk.bin"), pack(&chosen)).expect("the file can be written");
}
