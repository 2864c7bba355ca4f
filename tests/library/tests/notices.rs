//! With the stand-in linked: each program is content with right answers and notices each wrong one.
#![cfg(standin)]

use std::process::Command;

const PROGRAMS: [(&str, &str, u64); 4] = [
    (env!("CARGO_BIN_EXE_library"), "--trees 700 --seed 1", 700),
    (env!("CARGO_BIN_EXE_tight"), "--calls 700 --seed 1", 700),
    (env!("CARGO_BIN_EXE_stored"), "", 3630),
    (env!("CARGO_BIN_EXE_edges"), "--only bytes", 3),
];
const SPEED: &str = env!("CARGO_BIN_EXE_speed");
const MEASURES: [&str; 4] = [
    "--rounds 1",
    "--examples --rounds 1",
    "--growth --rounds 1",
    "--calls flat 10 3",
];

/// Whether the program is content, and what it printed; every n-th answer is wrong, none for 0.
fn run(program: &str, words: &str, every: u64) -> (bool, String) {
    let mut command = Command::new(program);
    command
        .args(words.split_whitespace())
        .env_remove("TSILMOGAR_STANDIN_WRONG");
    if every > 0 {
        command.env("TSILMOGAR_STANDIN_WRONG", every.to_string());
    }
    let run = command.output().expect("a program");
    (
        run.status.success(),
        String::from_utf8_lossy(&run.stdout).into(),
    )
}

#[test]
fn right_answers_are_taken() {
    for (program, words, calls) in PROGRAMS {
        let (content, text) = run(program, words, 0);
        assert!(
            content && text.contains(&format!("calls: {calls}\n")),
            "{program}: {text}"
        );
    }
    for words in MEASURES {
        assert!(run(SPEED, words, 0).0, "{words}");
    }
}

#[test]
fn every_wrong_answer_is_noticed() {
    for (program, words, calls) in PROGRAMS {
        for every in [1, 3, 7].into_iter().filter(|&every| every <= calls) {
            let (content, text) = run(program, words, every);
            let noticed = format!("\ndifferences: {}\n", calls / every);
            assert!(
                !content && text.contains(&noticed),
                "{program}, every {every}: {text}"
            );
        }
    }
    for words in MEASURES {
        assert!(!run(SPEED, words, 1).0, "{words}");
    }
}
