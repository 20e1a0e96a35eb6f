//! The local time, by the environment variable `TZ`.

use benzokamuri::Time;
use std::process::Command;

/// 15 November 2026, 05:00 UTC.
const MOMENT: i64 = 1_794_718_800;

/// Run by the other test too, in processes that have a `TZ` of their own.
#[test]
fn a_moment_is_told() {
    let told = Time::local(MOMENT).expect("a time");
    println!("told {told}");
    // No zone is a day away from UTC.
    let days = [17_850, 17_851];
    assert!(days.contains(&told.day()), "{told}");
}

#[test]
fn tz_is_heeded() {
    for (zone, due) in [
        ("UTC0", "2026-11-15 05:00"),
        ("CET-1CEST,M3.5.0,M10.5.0/3", "2026-11-15 06:00"),
        ("CET-1CEST", "2026-11-15 06:00"),
        ("CET-1CEST,x", "2026-11-15 05:00"),
        (":EST5EDT4,M3.2.0,M11.1.0", "2026-11-15 00:00"),
        ("<-06>6", "2026-11-14 23:00"),
        ("", "2026-11-15 05:00"),
        ("no such zone", "2026-11-15 05:00"),
        ("/dev/zero", "2026-11-15 05:00"),
    ] {
        let mut child = Command::new(std::env::current_exe().expect("this program"));
        child.args(["--exact", "a_moment_is_told", "--nocapture"]);
        let output = child.env("TZ", zone).output().expect("it can be run");
        let said = String::from_utf8_lossy(&output.stdout);
        assert!(output.status.success(), "{zone}: {said}");
        assert!(said.contains(&format!("told {due}\n")), "{zone}: {said}");
    }
}

#[test]
fn now_is_a_time_that_goes_on() {
    let before = Time::now().expect("a clock from 1978 on");
    let after = Time::now().expect("a clock from 1978 on");
    assert!(after.day() - before.day() <= 1);
    assert!(after.date().is_some());
}
