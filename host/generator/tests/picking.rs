//! The reference's picker beside one that makes its calls, on random books and
//! logs; and pickers with one slip, each of which has to be found out, by the
//! reference beside it and by the laws alone.

use generator::picking::{by_calls, one, run, ByCalls, Counts, Slip};
use generator::Implementation;

/// Runs in which everything has to come up often enough.
const RUNS: usize = 10_000;

#[test]
fn everything_comes_up_in_10_000_runs() {
    let mut counts = Counts::default();
    let mut calls = reference::call;
    let mut by_calls = by_calls(&mut calls);
    let done = run(1, RUNS, &mut reference::pick, &mut by_calls, &mut counts);
    if let Err(failed) = done {
        panic!("case {}: {}", failed.seed, failed.what);
    }
    println!("{counts}");
    let too_few = counts.too_few();
    assert!(too_few.is_empty(), "{counts}\ntoo few: {too_few:#?}");
}

/// What the laws alone do not find, since each lets a picker do so.
const BEYOND_THE_LAWS: &[(Slip, &str)] = &[(
    Slip::OpensProtected,
    "access stamps may be there or not, so one that is left out breaks no law",
)];

/// Runs in which a slip that breaks no law has to go unnoticed by them.
const FEW_RUNS: usize = 300;

/// A picker with a slip.
fn slipping(calls: &mut dyn Implementation, slip: Slip) -> ByCalls<'_> {
    ByCalls {
        calls,
        slip: Some(slip),
    }
}

/// A wrong picker on the right. The case that finds it out does so from its seed
/// alone.
#[test]
fn every_slip_is_found_out() {
    let mut late = Vec::new();
    for &slip in Slip::ALL {
        let mut calls = reference::call;
        let mut wrong = slipping(&mut calls, slip);
        let mut counts = Counts::default();
        let done = run(2, RUNS, &mut reference::pick, &mut wrong, &mut counts);
        let Err(failed) = done else {
            late.push(slip);
            continue;
        };
        let mut right = reference::pick;
        assert!(one(failed.seed, &mut right, &mut wrong, &mut counts).is_err());
    }
    assert!(late.is_empty(), "not found out: {late:?}");
}

/// A wrong picker beside itself, where there is no difference to be found: the
/// laws have to find it out.
#[test]
fn every_slip_breaks_a_law() {
    for &slip in Slip::ALL {
        let beyond = BEYOND_THE_LAWS.iter().find(|(other, _)| *other == slip);
        let runs = if beyond.is_some() { FEW_RUNS } else { RUNS };
        let (mut left, mut right) = (reference::call, reference::call);
        let (mut left, mut right) = (slipping(&mut left, slip), slipping(&mut right, slip));
        let done = run(2, runs, &mut left, &mut right, &mut Counts::default());
        let found = done.is_err();
        assert_eq!(found, beyond.is_none(), "{slip:?}: {beyond:?}");
    }
}
