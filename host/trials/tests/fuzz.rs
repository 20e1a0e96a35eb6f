//! A failing sequence is found, kept in a file, and fails again from there.

use generator::{Failure, Sequence};
use reference::{Answer, Asked, Session};
use trials::fuzz::{again, keep, search};
use trials::Proved;

/// The library, with a fault of its own: its 46 forgets the last block.
fn faulty(
    asked: Asked,
    image: &mut [u8],
    map: &mut [u16],
    fcb: &mut [u8],
    buffer: &mut [u8],
    session: Session,
) -> Answer {
    let last = map.last().copied();
    let answer = trials::call(asked, image, map, fcb, buffer, session);
    if asked.number == 46 && answer.a == 0 && last == Some(0) {
        buffer[0] = buffer[0].wrapping_sub(8);
    }
    answer
}

fn failure() -> Box<Failure> {
    let mut out = Vec::new();
    let found = search(7, None, &mut reference::call, &mut faulty, &mut out).unwrap();
    let failure = found.expect_err("the fault is found out");
    let said = String::from_utf8(out).unwrap();
    assert!(said.contains("buffer at 0: "), "{said}");
    failure
}

#[test]
fn a_failing_sequence_fails_again_from_its_file() {
    let folder = std::path::Path::new(env!("CARGO_TARGET_TMPDIR")).join("fuzz");
    let failure = failure();
    for file in keep(&failure, &folder).unwrap() {
        let text = std::fs::read_to_string(&file).unwrap();
        assert!(text.starts_with("# after `call 46 "), "{text:.200}");
        let sequence: Sequence = text.parse().unwrap();
        let mut out = Vec::new();
        let differs = again(&sequence, &mut reference::call, &mut faulty, &mut out).unwrap();
        assert_eq!(differs, Err(failure.difference.clone()));
        let said = String::from_utf8(out).unwrap();
        assert!(said.trim_end().ends_with(failure.difference.trim_end()));
        // Mended, it shows no difference any more.
        let mut out = Vec::new();
        let same = again(&sequence, &mut reference::call, &mut Proved, &mut out).unwrap();
        assert_eq!(same, Ok(()));
        assert!(String::from_utf8(out).unwrap().ends_with("no difference\n"));
    }
}

#[test]
fn the_program_searches_and_replays() {
    let folder = std::path::Path::new(env!("CARGO_TARGET_TMPDIR")).join("fuzz-program");
    let [_, last_call] = keep(&failure(), &folder).unwrap();
    let run = |words: &[&str]| {
        let mut command = std::process::Command::new(env!("CARGO_BIN_EXE_fuzz"));
        let output = command.args(words).output().unwrap();
        let out = String::from_utf8(output.stdout).unwrap();
        (output.status.code(), out)
    };
    let (status, out) = run(&["--replay", last_call.to_str().unwrap()]);
    assert_eq!(status, Some(0), "the library itself has no such fault");
    assert!(out.ends_with("no difference\n"), "{out}");
    let (status, out) = run(&["--seed", "5", "--calls", "2000"]);
    assert_eq!(status, Some(0));
    assert!(out.starts_with("seed 5: no difference, 20"), "{out}");
    assert!(out.contains("calls in all"), "{out}");
    let (status, out) = run(&["--picks", "200", "--seed", "5"]);
    assert_eq!(status, Some(0));
    assert!(out.starts_with("seed 5: no difference\n200 runs"), "{out}");
    assert_eq!(run(&["--case", "5"]), (Some(0), "no difference\n".into()));
    for wrong in [
        &["--picks", "many"],
        &["--seed"][..],
        &["--seed", "x"],
        &["--nosuch", "1"],
        &["--replay", "nosuch"],
    ] {
        assert_eq!(run(wrong).0, Some(2), "{wrong:?}");
    }
}

/// What would be left undone is not passed over in silence.
#[test]
fn what_does_not_go_together_is_wrong_usage() {
    let folder = std::path::Path::new(env!("CARGO_TARGET_TMPDIR")).join("fuzz-usage");
    let [_, last_call] = keep(&failure(), &folder).unwrap();
    let file = last_call.to_str().unwrap();
    for (wrong, other, job) in [
        (["--picks", "2", "--calls", "3"], "--calls", "--picks"),
        (["--picks", "2", "--case", "3"], "--case", "--picks"),
        (["--picks", "2", "--replay", file], "--picks", "--replay"),
        (["--replay", file, "--case", "5"], "--case", "--replay"),
        (["--replay", file, "--calls", "5"], "--calls", "--replay"),
        (["--case", "5", "--seed", "5"], "--seed", "--case"),
    ] {
        let mut command = std::process::Command::new(env!("CARGO_BIN_EXE_fuzz"));
        let output = command.args(wrong).output().unwrap();
        let said = String::from_utf8(output.stderr).unwrap();
        assert_eq!(output.status.code(), Some(2), "{wrong:?}");
        let why = format!("fuzz: {other} does not go together with {job}\nusage: ");
        assert!(said.starts_with(&why), "{said}");
        assert!(output.stdout.is_empty(), "{wrong:?}");
    }
}
