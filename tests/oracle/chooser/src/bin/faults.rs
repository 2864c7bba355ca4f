//! Replays stored calls with each fault on and says how many notice it, and the first three that do.
//! Usage: faults CALLS.BIN [WALK.BIN]

use model::Fault;
use wire::stored::{StoredCall, unpack};

fn main() {
    let mut words = std::env::args().skip(1);
    let calls = read(&words.next().expect("a file of calls"));
    let wrong = calls
        .iter()
        .filter(|call| model::analyze(&call.lent, &call.tree) != call.answer)
        .count();
    println!(
        "{} calls, {wrong} of them not answered so by the model without a fault",
        calls.len()
    );
    println!("\n| fault | what it does | noticed by | first three |\n|---|---|---|---|");
    for &fault in Fault::ALL {
        report(fault, &calls, |call| {
            model::analyze_with(Some(fault), &call.lent, &call.tree) != call.answer
        });
    }
    if let Some(walks) = words.next() {
        report_walks(&read(&walks));
    }
}

fn read(path: &str) -> Vec<StoredCall> {
    unpack(&std::fs::read(path).expect("the file can be read"))
}

fn report_walks(walks: &[StoredCall]) {
    let differs = |fault, call: &StoredCall| {
        model::first_walk(fault, &call.tree) != (call.answer.number, call.answer.place)
    };
    let wrong = walks.iter().filter(|call| differs(None, call)).count();
    println!(
        "\nFirst walk: {} calls, {wrong} of them not answered so by the model without a fault",
        walks.len()
    );
    println!("\n| fault | what it does | noticed by | first three |\n|---|---|---|---|");
    for &fault in Fault::ALL
        .iter()
        .filter(|&&fault| walks.iter().any(|call| differs(Some(fault), call)))
    {
        report(fault, walks, |call| differs(Some(fault), call));
    }
}

fn report(fault: Fault, calls: &[StoredCall], notices: impl Fn(&StoredCall) -> bool) {
    let noticing: Vec<usize> = (0..calls.len()).filter(|&i| notices(&calls[i])).collect();
    let first: Vec<String> = noticing.iter().take(3).map(usize::to_string).collect();
    println!(
        "| {fault:?} | {} | {} | {} |",
        fault.says(),
        noticing.len(),
        first.join(", ")
    );
}
