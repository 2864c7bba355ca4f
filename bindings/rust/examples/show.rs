//! Prints what the analyser answers to a packed tree: its records, one a line, then the diagnostics and the report.
//!
//!     cargo run --example show [FILE]
//!
//! Without a file it takes a small tree of its own.

use std::error::Error;
use std::process::ExitCode;

use tsilmogar::Analysis;

/// local x = 1, y = x; z: y is not used, x only by y, and z is not defined.
const BUILT_IN: [&[u8]; 7] = [
    b"JT\0\0\0\0",
    b"LO\x02\0\0\0",
    b"BV\x05\0\0\0\x09\0\0\0",
    b"TV\x01\0\0\0",
    b"BV\x06\0\0\0\x0a\0\0\0",
    b"VA\x05\0\0\0\x0b\0\0\0",
    b"VA\x07\0\0\0\x0c\0\0\0",
];

fn print(analysis: &Analysis) -> Result<(), Box<dyn Error>> {
    for record in analysis.records() {
        let record = record?;
        println!("{:>8}  {record}", record.offset);
    }
    for diagnostic in analysis.diagnostics() {
        println!("{}", diagnostic?);
    }
    println!("errors: {}", analysis.errored());
    println!("rounds: {}", analysis.rounds());
    println!("depths: {:?}", analysis.depths());
    Ok(())
}

fn run() -> Result<(), Box<dyn Error>> {
    let tree = match std::env::args_os().nth(1) {
        Some(path) => std::fs::read(&path).map_err(|e| format!("{}: {e}", path.display()))?,
        None => BUILT_IN.concat(),
    };
    print(&tsilmogar::analyze(&tree)?)
}

fn main() -> ExitCode {
    let Err(error) = run() else {
        return ExitCode::SUCCESS;
    };
    eprintln!("{error}");
    ExitCode::FAILURE
}
