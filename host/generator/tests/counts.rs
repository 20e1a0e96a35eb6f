//! A run of 300,000 calls in which everything has to come up often enough.

use generator::{run, Counts};

/// Calls from each seed.
const CALLS: usize = 100_000;

#[test]
fn everything_comes_up_in_300_000_calls() {
    let mut counts = Counts::default();
    for seed in [1, 2, 3] {
        let done = run(
            seed,
            CALLS,
            &mut reference::call,
            &mut reference::call,
            &mut counts,
        );
        if let Err(failure) = done {
            panic!("{}\n{}", failure.difference, failure.last_call);
        }
    }
    println!("{counts}");
    let too_few = counts.too_few();
    assert!(too_few.is_empty(), "{counts}\ntoo few: {too_few:#?}");
}
