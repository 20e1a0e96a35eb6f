//! On disks without date entries nothing hangs on the time.

use generator::{at_another_time, run, Counts};
use reference::{call, Asked};

/// Calls made at two times.
const CALLS: usize = 60_000;

#[test]
fn undated_disks_do_not_depend_on_the_time() {
    let (mut one, mut other) = (call, call);
    let mut other = at_another_time(&mut other);
    let mut counts = Counts::default();
    if let Err(failure) = run(21, CALLS, &mut one, &mut other, &mut counts) {
        panic!("{}\n{}", failure.difference, failure.last_call);
    }
    assert!(counts.calls >= CALLS);
}

/// What looks at the day of an undated disk is found out so.
#[test]
fn one_that_looks_at_the_day_is_found_out() {
    let mut looks = |asked: Asked,
                     image: &mut [u8],
                     map: &mut [u16],
                     fcb: &mut [u8],
                     buffer: &mut [u8],
                     session| {
        let mut answer = call(asked, image, map, fcb, buffer, session);
        answer.a ^= u8::from(asked.number == 46 && answer.h == 0 && asked.day >= 0x8000);
        answer
    };
    let mut again = looks;
    let mut again = at_another_time(&mut again);
    let done = run(21, CALLS, &mut looks, &mut again, &mut Counts::default());
    let failure = done.expect_err("it was not found out");
    assert!(
        failure.difference.contains("call 46"),
        "{}",
        failure.difference
    );
}
