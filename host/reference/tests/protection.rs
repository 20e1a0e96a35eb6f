//! Write protection: what a protected session refuses, what it does not, and
//! that lifting and setting it changes nothing else.

mod common;
use common::*;
use reference::{call, lift, protect, Asked, Cause, Session, LISTED};

/// The calls that a protected session refuses whatever they are lent.
const ALWAYS: [(u8, Cause); 6] = [
    (16, Cause::Protected16),
    (19, Cause::Protected19),
    (21, Cause::Protected21),
    (22, Cause::Protected22),
    (23, Cause::Protected23),
    (34, Cause::Protected34),
];

/// The reads, which it refuses where their move would change an entry.
const READS: [(u8, Cause); 2] = [(20, Cause::Protected20), (33, Cause::Protected33)];

/// The calls that it never refuses.
const NEVER: [u8; 9] = [13, 15, 17, 18, 32, 35, 36, 46, 98];

/// Bytes that a session may have in the field.
const BYTES: [u8; 5] = [0, 1, 2, 128, 255];

/// A file of two extents, the second of two blocks, and one that is read-only.
fn desk() -> Desk {
    let mut locked = row(0, "LOCKED", 0, 8, &[6]);
    locked[9] |= 0x80;
    Desk::with(&[
        (0, row(0, "A", 0, 120, &[2, 0, 4])),
        (1, row(0, "A", 1, 16, &[3, 5])),
        (2, locked),
    ])
}

/// An FCB that is current for an entry, cr 0.
fn current(desk: &Desk, entry: usize) -> Fcb {
    let mut file = [0; 36];
    file[1..32].copy_from_slice(&desk.entry(entry)[1..]);
    file
}

/// Extent 0 of A at its end, so that 20, and 33 too, go to extent 1.
fn at_the_end(desk: &Desk) -> Fcb {
    let mut file = current(desk, 0);
    file[32] = 128;
    set_random(&mut file, 128);
    file
}

/// The FCB of [`at_the_end`] in the two ways in which its close changes the
/// entry: a block that is pending for it, and a larger count.
fn changed(desk: &mut Desk) -> [Fcb; 2] {
    let mut written = current(desk, 0);
    assert_eq!(desk.write_at(&mut written, 8, 0x77), DONE);
    assert_eq!((written[15], written[17]), (120, 7));
    written[32] = 128;
    set_random(&mut written, 128);
    let mut longer = at_the_end(desk);
    longer[15] = 121;
    [written, longer]
}

#[test]
fn a_session_of_zeros_is_protected() {
    let mut desk = desk();
    desk.session = Session::default();
    desk.refuses(22, &fcb("NEW"), Cause::Protected22);
    assert_eq!(desk.ask(22, &mut fcb("NEW")), (255, 2));
    desk.lift();
    assert_eq!(desk.ask(22, &mut fcb("NEW")), (3, 0));
}

#[test]
fn lifting_and_setting_changes_that_field_alone() {
    for on in [0, 1, 2, 255] {
        for byte in BYTES {
            let session = Session {
                user: 200,
                pattern: std::array::from_fn(|i| 0xF0 + i as u8),
                place: 65_535,
                on,
                lifted: byte,
            };
            let with = |lifted| Session { lifted, ..session };
            assert_eq!(lift(session), with(1));
            assert_eq!(protect(session), with(0));
        }
    }
}

#[test]
fn a_search_goes_on_over_both() {
    let mut desk = desk();
    let mut pattern = [0x3F; 36];
    pattern[0] = 0;
    assert_eq!(desk.ask(17, &mut pattern), (0, 0));
    desk.protect();
    assert_eq!(desk.ask(18, &mut pattern), (1, 0));
    desk.lift();
    assert_eq!(desk.ask(18, &mut pattern), (2, 0));
    desk.protect();
    desk.refuses(18, &pattern, Cause::NoMore18);
}

#[test]
fn six_calls_are_refused_whatever_they_would_do() {
    let mut protected = desk();
    protected.protect();
    let lendings = [
        current(&protected, 0),
        current(&protected, 2),
        rename_fcb("A", "B"),
        rename_fcb("NONE", "B"),
        fcb("NEW"),
        // No name at all, and a record that no file has.
        [0xFF; 36],
    ];
    for (number, cause) in ALWAYS {
        for mut file in lendings {
            file[0] = 1;
            protected.refuses(number, &file, cause);
        }
    }
}

#[test]
fn what_is_tested_before_it_stays_before_it() {
    let mut desk = desk();
    desk.protect();
    let sound = desk.clone();
    for (number, cause) in ALWAYS {
        let mut file = fcb("NEW");
        assert_eq!(desk.cause(desk.asked(number, 0), &file), Some(cause));
        file[0] = 2;
        desk.refuses(number, &file, Cause::FcbDrive);
        file[0] = 0;
        desk.session.user = 16;
        desk.refuses(number, &file, Cause::SessionUser);
        desk.session = sound.session;
        desk.time.1 = 0x0A;
        desk.refuses(number, &file, Cause::TimeHour);
        desk.time = sound.time;
        desk.map[2] = 0;
        desk.refuses(number, &file, Cause::MapWrong);
        desk.entry_mut(0)[16] = 1;
        desk.refuses(number, &file, Cause::Inconsistent);
        desk = sound.clone();
    }
    assert_eq!(desk.ask(14, &mut fcb("NEW")), (255, 255));
}

/// A lifted call that is refused by a row of its own is, protected, refused by
/// the protection: that comes first.
#[test]
fn it_comes_before_every_other_row_of_the_six() {
    let mut desk = desk();
    let mut far = current(&desk, 0);
    set_random(&mut far, 262_144);
    let mut stale = current(&desk, 0);
    stale[16] = 9;
    let own = [
        (16, stale, Cause::NotCurrent16),
        (19, [0; 36], Cause::BadName19),
        (19, fcb("NONE"), Cause::NothingMatches19),
        (19, fcb("LOCKED"), Cause::ReadOnly19),
        (21, stale, Cause::NotCurrent21),
        (21, current(&desk, 2), Cause::ReadOnly21),
        (22, [0; 36], Cause::BadName22),
        (22, fcb("A"), Cause::Exists22),
        (23, rename_fcb("NONE", "B"), Cause::NothingMatches23),
        (23, rename_fcb("LOCKED", "B"), Cause::ReadOnly23),
        (23, rename_fcb("A", "LOCKED"), Cause::Exists23),
        (34, far, Cause::TooFar34),
        (34, stale, Cause::NotCurrent34),
        (34, current(&desk, 2), Cause::ReadOnly34),
    ];
    for (number, file, cause) in own {
        desk.lift();
        desk.refuses(number, &file, cause);
        desk.protect();
        let (_, protected) = ALWAYS.into_iter().find(|(n, _)| *n == number).unwrap();
        desk.refuses(number, &file, protected);
    }
}

#[test]
fn the_others_answer_as_if_it_were_lifted() {
    for number in NEVER {
        let mut lifted = desk();
        (lifted.session.on, lifted.session.pattern) = (1, [0x3F; 12]);
        let mut protected = lifted.clone();
        protected.protect();
        let (mut one, mut other) = (fcb("A"), fcb("A"));
        let answer = lifted.ask(number, &mut one);
        assert_eq!(answer.1, 0, "call {number}");
        assert_eq!(protected.ask(number, &mut other), answer, "call {number}");
        assert_eq!(one, other);
        protected.lift();
        assert!(protected == lifted, "call {number}");
    }
    let calls = ALWAYS.iter().chain(&READS).map(|(number, _)| *number);
    let mut calls: Vec<u8> = calls.chain(NEVER).collect();
    calls.sort_unstable();
    assert_eq!(calls, LISTED);
}

#[test]
fn the_map_is_made_and_freed_all_the_same() {
    let mut desk = desk();
    let mut file = current(&desk, 0);
    assert_eq!(desk.write_at(&mut file, 8, 1), DONE);
    desk.protect();
    assert_eq!(desk.map[7], 16 + 1);
    assert_eq!(desk.ask(98, &mut file), DONE);
    assert_eq!(desk.map[7], 0);
    desk.map.fill(9);
    assert_eq!(desk.ask(13, &mut file), DONE);
    assert_eq!(desk.map[..8], [1, 1, 2, 2, 2, 2, 2, 0]);
}

#[test]
fn a_read_that_stays_is_no_change() {
    let mut desk = desk();
    for mut file in changed(&mut desk) {
        desk.protect();
        file[32] = 0;
        assert_eq!(desk.ask(20, &mut file), DONE);
        assert_eq!(desk.read_at(&mut file, 16), DONE);
        assert_eq!((file[12], file[32]), (0, 16));
        desk.lift();
    }
}

#[test]
fn a_read_whose_move_changes_nothing_moves() {
    for (number, _) in READS {
        let mut desk = desk();
        desk.protect();
        let mut file = at_the_end(&desk);
        // A smaller count, and counts over 128 that are no more than the
        // entry's, change nothing either.
        for (rc, counted) in [(120, 120), (0, 120), (255, 128), (128, 200)] {
            desk.entry_mut(0)[15] = counted;
            file[15] = rc;
            let mut file = file;
            assert_eq!(desk.ask(number, &mut file), DONE, "{number}, {rc}");
            assert_eq!((file[12], file[16]), (1, 3));
        }
    }
}

#[test]
fn a_read_whose_move_changes_an_entry_is_refused() {
    let mut desk = desk();
    for file in changed(&mut desk) {
        for (number, cause) in READS {
            desk.protect();
            desk.refuses(number, &file, cause);
            desk.lift();
            assert_eq!(desk.clone().ask(number, &mut file.clone()), DONE);
        }
    }
}

/// "A read that would else succeed": what fails anyway says why it fails.
#[test]
fn a_read_that_fails_anyway_says_so() {
    let mut desk = desk();
    for file in changed(&mut desk) {
        desk.protect();
        let with = |change: &dyn Fn(&mut Fcb)| {
            let mut file = file;
            change(&mut file);
            file
        };
        let far = with(&|file| set_random(file, 262_144));
        desk.refuses(33, &far, Cause::TooFar33);
        let stale = with(&|file| file[16] = 9);
        desk.refuses(20, &stale, Cause::NotCurrent20);
        desk.refuses(33, &stale, Cause::NotCurrent33);
        let nowhere = with(&|file| set_random(file, 5 * 128));
        desk.refuses(33, &nowhere, Cause::NoExtent33);
        let past = with(&|file| set_random(file, 128 + 16));
        desk.refuses(33, &past, Cause::PastCount33);
        let kept = desk.clone();
        desk.entry_mut(1)[16] = 0;
        desk.map[3] = 0;
        desk.refuses(20, &file, Cause::NoBlock20);
        desk.refuses(33, &file, Cause::NoBlock33);
        desk.entry_mut(1)[15] = 0;
        desk.refuses(20, &file, Cause::PastCount20);
        desk.entry_mut(1)[12] = 2;
        desk.refuses(20, &file, Cause::NoExtent20);
        desk = kept;
        desk.lift();
    }
}

#[test]
fn every_byte_but_0_is_lifted_and_no_call_changes_it() {
    for byte in BYTES {
        for number in (0..=255).filter(|n| LISTED.contains(n) || n % 50 == 0) {
            let mut desk = desk();
            desk.session.lifted = byte;
            let mut file = match number {
                22 => fcb("NEW"),
                23 => rename_fcb("A", "B"),
                _ => current(&desk, 0),
            };
            let refused = byte == 0 && ALWAYS.iter().any(|(n, _)| *n == number);
            let answer = desk.ask(number, &mut file);
            assert_eq!(answer == (255, 2), refused, "{number}, {byte}");
            assert_eq!(desk.session.lifted, byte, "call {number}");
        }
    }
}

/// A wrong length, which no desk lends, hands the byte back too.
#[test]
fn refusals_for_lengths_keep_the_byte() {
    for lifted in BYTES {
        let session = Session {
            lifted,
            ..Session::default()
        };
        let asked = Asked {
            number: 22,
            ..Asked::default()
        };
        let answer = call(asked, &mut [], &mut [], &mut [], &mut [], session);
        assert_eq!((answer.a, answer.h, answer.session), (255, 4, session));
    }
}

#[test]
fn a_protected_open_stamps_no_access() {
    let mut label = row(0x20, "LABEL", 0, 0, &[]);
    label[12] = 0x41;
    let mut dates = [0; 32];
    dates[0] = 0x21;
    let fourths = (0..16).map(|record| (4 * record + 3, dates));
    let others = [(0, label), (1, row(0, "A", 0, 1, &[2]))];
    let mut desk = Desk::with(&fourths.chain(others).collect::<Vec<_>>());
    desk.protect();
    let mut file = fcb("A");
    assert_eq!(desk.ask(15, &mut file), (1, 0));
    assert_eq!((file[15], file[16]), (1, 2), "but it opens");
    assert_eq!(desk.entry(3), dates);
    desk.lift();
    assert_eq!(desk.ask(15, &mut file), (1, 0));
    let (low, high) = (17_849u16.to_le_bytes()[0], 17_849u16.to_le_bytes()[1]);
    assert_eq!(desk.entry(3)[11..15], [low, high, 0x23, 0x59]);
}
