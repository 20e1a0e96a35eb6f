//! Searches, and what ends them.

mod common;
use common::*;
use reference::{Cause, Session};

/// 64 entries of three users.
fn full_directory() -> Desk {
    let rows: Vec<_> = (0..64)
        .map(|entry| {
            let user = [0, 0, 1, 0, 15][entry % 5];
            (entry, row(user, "F.X", entry as u16, 0, &[]))
        })
        .collect();
    Desk::with(&rows)
}

fn everything() -> Fcb {
    let mut pattern = [0x3F; 36];
    pattern[0] = 1;
    pattern
}

#[test]
fn all_entries_of_a_full_directory() {
    for user in [0, 1, 15] {
        let mut desk = full_directory();
        desk.session.user = user;
        let mut found = Vec::new();
        let mut number = 17;
        loop {
            let (a, h) = desk.ask(number, &mut everything());
            if (a, h) == (255, 0) {
                break;
            }
            let entry = usize::from(desk.session.place) - 1;
            assert_eq!((usize::from(a), h), (entry % 4, 0));
            assert_eq!(desk.session.on, 1);
            let slot = 32 * (entry % 4);
            assert_eq!(desk.buffer[slot..slot + 32], *desk.entry(entry));
            for i in 0..4 {
                let other = desk.entry(entry / 4 * 4 + i);
                assert_eq!(desk.buffer[32 * i..][..32], *other);
            }
            found.push(entry);
            number = 18;
        }
        let expected: Vec<_> = (0..64).filter(|&e| desk.entry(e)[0] == user).collect();
        assert_eq!(found, expected);
        assert_eq!((desk.session.on, desk.session.place), (0, 0));
        assert_eq!(desk.session.pattern, [0x3F; 12], "the pattern stays");
    }
}

#[test]
fn all_64_entries_of_one_user() {
    let rows: Vec<_> = (0..64)
        .map(|entry| (entry, row(9, "F", entry as u16 * 32, 0, &[])))
        .collect();
    let mut desk = Desk::with(&rows);
    desk.session.user = 9;
    assert_eq!(desk.ask(17, &mut everything()), (0, 0));
    for entry in 1..64 {
        assert_eq!(desk.ask(18, &mut [0xFF; 36]), (entry % 4, 0));
    }
    assert_eq!(desk.session.place, 64);
    desk.refuses(18, &[0; 36], Cause::NoMore18);
    desk.refuses(18, &[0; 36], Cause::NoSearch18);

    // ex 0 and s2 0 is one of them only.
    let mut pattern = everything();
    pattern[12] = 0;
    assert_eq!(desk.ask(17, &mut pattern), (0, 0));
    desk.refuses(18, &[0; 36], Cause::NoMore18);
}

#[test]
fn the_pattern_is_stored_as_it_is() {
    let mut desk = full_directory();
    let mut pattern = everything();
    pattern[1] = b'F' | 0x80;
    pattern[2] = 0xBF;
    assert_eq!(desk.ask(17, &mut pattern), (0, 0));
    assert_eq!(desk.session.pattern, pattern[1..13]);
    assert_eq!(desk.ask(18, &mut [0; 36]), (1, 0));
}

#[test]
fn call_18_uses_the_pattern_whatever_it_holds() {
    let mut desk = full_directory();
    desk.session = Session {
        user: 0,
        pattern: [0x3F; 12],
        place: 5,
        on: 0x80,
        lifted: 0,
    };
    assert_eq!(desk.ask(18, &mut [0; 36]), (1, 0));
    assert_eq!((desk.session.place, desk.session.on), (6, 1));
    desk.session.pattern = [0; 12];
    desk.refuses(18, &[0; 36], Cause::NoMore18);
    assert_eq!((desk.session.place, desk.session.on), (0, 0));
    desk.session = Session {
        user: 0,
        pattern: [0x3F; 12],
        place: 0,
        on: 1,
        lifted: 0,
    };
    desk.session.pattern[11] = 0xBF;
    desk.refuses(18, &[0; 36], Cause::NoMore18);
    desk.session.pattern[11] = 0x3F;
    desk.session.place = 7;
    desk.refuses(18, &[0; 36], Cause::NoSearch18);
    assert_eq!(desk.session.place, 7, "no search on: the place stays");
}

#[test]
fn what_ends_a_search_and_what_does_not() {
    let on = |desk: &mut Desk| {
        desk.session.on = 3;
        desk.session.place = 9;
    };
    let mut desk = full_directory();
    for number in [13, 46, 98] {
        on(&mut desk);
        assert_eq!(desk.ask(number, &mut [0xFF; 36]), DONE);
        assert_eq!((desk.session.on, desk.session.place), (0, 0));
    }
    on(&mut desk);
    assert_eq!(desk.ask_with(32, 255, &mut [0xFF; 36]), DONE);
    assert_eq!((desk.session.on, desk.session.place), (0, 0));

    // Even where none was on.
    desk.session.place = 9;
    assert_eq!(desk.ask(46, &mut [0xFF; 36]), DONE);
    assert_eq!(desk.session.place, 0);

    // Refusals leave it on as it came: the desk checks that.
    on(&mut desk);
    desk.refuses(15, &fcb("NONE"), Cause::NothingMatches15);
    desk.refuses(17, &fcb(" "), Cause::BadName17);
    desk.refuses(17, &[2; 36], Cause::FcbDrive);
    let asked = desk.asked(32, 77);
    assert_eq!(desk.cause(asked, &[0; 36]), Some(Cause::BadUser32));
    assert_eq!((desk.session.on, desk.session.place), (3, 9));

    // A 17 that finds nothing ends it.
    desk.refuses(17, &fcb("NONE"), Cause::NothingMatches17);
    assert_eq!((desk.session.on, desk.session.place), (0, 0));
}

#[test]
fn sessions_out_of_range() {
    let mut desk = full_directory();
    desk.session.place = 65;
    desk.refuses(46, &[0; 36], Cause::SessionPlace);
    desk.session.place = 0x100;
    desk.refuses(18, &[0; 36], Cause::SessionPlace);
    desk.session.place = 64;
    desk.session.user = 16;
    desk.refuses(13, &[0; 36], Cause::SessionUser);
    desk.session.user = 15;
    desk.session.on = 1;
    desk.refuses(18, &[0; 36], Cause::NoMore18);
}
