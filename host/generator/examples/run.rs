//! Runs the reference beside itself and prints the table of what came up.
//!
//! `run [CALLS [SEED]]`, 300,000 calls from seed 1 by default. A failing
//! sequence is written to `failing-sequence.txt`, and its last call with the
//! world just before it to `failing-call.txt`.

use generator::{run, Counts};
use std::process::ExitCode;
use std::time::Instant;

fn main() -> ExitCode {
    let mut numbers = std::env::args().skip(1).map(|word| word.parse::<u64>());
    let mut number = |otherwise| numbers.next().map_or(otherwise, |n| n.expect("a number"));
    let (calls, seed) = (number(300_000) as usize, number(1));
    let mut counts = Counts::default();
    let start = Instant::now();
    let done = run(
        seed,
        calls,
        &mut reference::call,
        &mut reference::call,
        &mut counts,
    );
    println!("{counts}");
    println!("{:.1} s", start.elapsed().as_secs_f64());
    match done {
        Ok(()) => ExitCode::SUCCESS,
        Err(failure) => {
            println!("{}", failure.difference);
            let files = [
                ("failing-sequence.txt", failure.sequence),
                ("failing-call.txt", failure.last_call),
            ];
            for (name, sequence) in files {
                std::fs::write(name, sequence.to_string()).expect("a file can be written");
            }
            ExitCode::FAILURE
        }
    }
}
