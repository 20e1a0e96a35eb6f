//! The proved picker beside the reference's, on random books and logs from a
//! fixed seed; all bytes are compared. The proved one is the left one, of which
//! laws are asked, and which runs a second time. The table of what came up is
//! printed, and has to be full enough.

use generator::picking::{by_calls, run, Counts};
use trials::Proved;

/// Runs made.
const RUNS: usize = 10_000;

/// Fewer runs, beside the same sequence of the proved calls.
const RUNS_BY_CALLS: usize = 1_000;

#[test]
fn picker_beside_reference() {
    let mut counts = Counts::default();
    let done = run(1, RUNS, &mut Proved, &mut reference::pick, &mut counts);
    if let Err(failed) = done {
        panic!("case {}: {}", failed.seed, failed.what);
    }
    println!("{counts}");
    let too_few = counts.too_few();
    assert!(too_few.is_empty(), "{counts}\ntoo few: {too_few:#?}");
}

/// Beside the sequence of calls that it is made of, the laws hold on other disks.
#[test]
fn the_laws_hold_of_the_proved_picker() {
    let mut calls = Proved;
    let mut by_calls = by_calls(&mut calls);
    let mut counts = Counts::default();
    let done = run(3, RUNS_BY_CALLS, &mut Proved, &mut by_calls, &mut counts);
    if let Err(failed) = done {
        panic!("case {}: {}", failed.seed, failed.what);
    }
    assert_eq!(counts.runs, RUNS_BY_CALLS);
}
