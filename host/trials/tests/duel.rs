//! The proved library beside the reference, on 300,000 calls from fixed seeds.
//! The table of what came up is printed, and has to be full enough.

use generator::{at_another_time, run, Counts, Implementation};

/// The seeds, and the calls made from each.
const SEEDS: [u64; 3] = [1, 2, 3];
const CALLS: usize = 100_000;

/// Runs the reference beside an implementation, and keeps what fails.
fn beside_reference(seed: u64, right: &mut dyn Implementation, counts: &mut Counts) {
    if let Err(failure) = run(seed, CALLS, &mut { reference::call }, right, counts) {
        let kept = trials::fuzz::keep(&failure, env!("CARGO_TARGET_TMPDIR").as_ref());
        panic!("{}\nkept in {kept:?}", failure.difference);
    }
}

#[test]
fn library_beside_reference() {
    let mut counts = Counts::default();
    for seed in SEEDS {
        beside_reference(seed, &mut trials::Proved, &mut counts);
    }
    println!("{counts}");
    assert!(counts.calls >= SEEDS.len() * CALLS);
    let too_few = counts.too_few();
    assert!(too_few.is_empty(), "{counts}\ntoo few: {too_few:#?}");
}

/// On disks without date entries the library does what the reference does at
/// another time.
#[test]
fn library_at_another_time_on_undated_disks() {
    let mut counts = Counts::default();
    let mut library = trials::Proved;
    beside_reference(4, &mut at_another_time(&mut library), &mut counts);
    assert!(counts.calls >= CALLS);
}
