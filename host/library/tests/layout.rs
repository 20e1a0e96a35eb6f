//! The boundary's types as C has them and as Rust has them.

mod common;

use benzokamuri::{
    Answer, Asked, PickedAt, Session, Time, Told, Wanted, BUFFER_LEN, FCB_LEN, IMAGE_LEN, MAP_LEN,
    VERSION,
};
use std::mem::{align_of, offset_of, size_of};

/// What both sides have to have: a size or place, and its number.
type Layout = Vec<(&'static str, usize)>;

/// Of what the calls take and answer.
fn of_calls() -> Layout {
    vec![
        ("benzo_asked", size_of::<Asked>()),
        ("benzo_asked.number", offset_of!(Asked, number)),
        ("benzo_asked.argument", offset_of!(Asked, argument)),
        ("benzo_asked.day", offset_of!(Asked, day)),
        ("benzo_asked.hour", offset_of!(Asked, hour)),
        ("benzo_asked.minute", offset_of!(Asked, minute)),
        ("benzo_session", size_of::<Session>()),
        ("benzo_session.user", offset_of!(Session, user)),
        ("benzo_session.pattern", offset_of!(Session, pattern)),
        ("benzo_session.place", offset_of!(Session, place)),
        ("benzo_session.on", offset_of!(Session, on)),
        ("benzo_session.lifted", offset_of!(Session, lifted)),
        ("benzo_answer", size_of::<Answer>()),
        ("benzo_answer.a", offset_of!(Answer, a)),
        ("benzo_answer.h", offset_of!(Answer, h)),
        ("benzo_answer.session", offset_of!(Answer, session)),
    ]
}

/// Of what the picker takes and tells.
fn of_the_picker() -> Layout {
    vec![
        ("benzo_wanted", size_of::<Wanted>()),
        ("benzo_wanted.year", offset_of!(Wanted, year)),
        ("benzo_wanted.day", offset_of!(Wanted, day)),
        ("benzo_wanted.book", offset_of!(Wanted, book)),
        ("benzo_wanted.log", offset_of!(Wanted, log)),
        ("benzo_time", size_of::<PickedAt>()),
        ("benzo_time.day", offset_of!(PickedAt, day)),
        ("benzo_time.hour", offset_of!(PickedAt, hour)),
        ("benzo_time.minute", offset_of!(PickedAt, minute)),
        ("benzo_picked", size_of::<Told>()),
        ("benzo_picked.number", offset_of!(Told, number)),
        ("benzo_picked.given", offset_of!(Told, given)),
        ("benzo_picked.a", offset_of!(Told, a)),
        ("benzo_picked.h", offset_of!(Told, h)),
        ("benzo_picked.session", offset_of!(Told, session)),
    ]
}

/// Of the version and the lengths.
fn of_constants() -> Layout {
    vec![
        ("BENZO_VERSION", VERSION as usize),
        ("BENZO_IMAGE_LEN", IMAGE_LEN),
        ("BENZO_MAP_LEN", MAP_LEN),
        ("BENZO_FCB_LEN", FCB_LEN),
        ("BENZO_BUFFER_LEN", BUFFER_LEN),
    ]
}

#[test]
fn rust_has_the_sizes_and_places_of_version_4() {
    let expected = [
        ("benzo_asked", 6),
        ("benzo_asked.number", 0),
        ("benzo_asked.argument", 1),
        ("benzo_asked.day", 2),
        ("benzo_asked.hour", 4),
        ("benzo_asked.minute", 5),
        ("benzo_session", 18),
        ("benzo_session.user", 0),
        ("benzo_session.pattern", 1),
        ("benzo_session.place", 14),
        ("benzo_session.on", 16),
        ("benzo_session.lifted", 17),
        ("benzo_answer", 20),
        ("benzo_answer.a", 0),
        ("benzo_answer.h", 1),
        ("benzo_answer.session", 2),
    ];
    assert_eq!(of_calls(), expected);
    let expected = [
        ("BENZO_VERSION", 4),
        ("BENZO_IMAGE_LEN", 256_256),
        ("BENZO_MAP_LEN", 243),
        ("BENZO_FCB_LEN", 36),
        ("BENZO_BUFFER_LEN", 128),
    ];
    assert_eq!(of_constants(), expected);
    let aligned = [align_of::<Asked>(), align_of::<Session>()];
    assert_eq!((aligned, align_of::<Answer>()), ([2, 2], 2));
}

#[test]
fn rust_has_the_sizes_and_places_of_the_picker() {
    let expected = [
        ("benzo_wanted", 26),
        ("benzo_wanted.year", 0),
        ("benzo_wanted.day", 2),
        ("benzo_wanted.book", 4),
        ("benzo_wanted.log", 15),
        ("benzo_time", 4),
        ("benzo_time.day", 0),
        ("benzo_time.hour", 2),
        ("benzo_time.minute", 3),
        ("benzo_picked", 22),
        ("benzo_picked.number", 0),
        ("benzo_picked.given", 1),
        ("benzo_picked.a", 2),
        ("benzo_picked.h", 3),
        ("benzo_picked.session", 4),
    ];
    assert_eq!(of_the_picker(), expected);
    assert_eq!(align_of::<Wanted>(), 2);
    assert_eq!(align_of::<PickedAt>(), 2);
    assert_eq!(align_of::<Told>(), 2);
}

#[test]
fn c_has_the_same() {
    let printed = common::compile("host/library/tests/c/layout.c").run();
    let layout = [of_calls(), of_the_picker(), of_constants()].concat();
    let expected: String = layout
        .iter()
        .map(|(what, number)| format!("{what} {number}\n"))
        .collect();
    assert_eq!(printed, expected);
}

/// A session whose fields are told apart.
const SESSION: Session = Session {
    user: 11,
    pattern: *b"ABCDEFGHIJKL",
    place: 64,
    on: 0xC3,
    lifted: 0xA7,
};

/// A time whose bytes are told apart.
fn some_time() -> Time {
    Time::from_bcd(0x1234, 0x56, 0x78).expect("BCD")
}

/// Makes a call on an erased disk.
fn lend(asked: Asked, session: Session) -> Answer {
    let mut image = vec![0xE5; IMAGE_LEN];
    let (mut map, mut fcb, mut buffer) = ([0; MAP_LEN], [0; FCB_LEN], [0; BUFFER_LEN]);
    map[..2].fill(1);
    benzokamuri::lend(asked, &mut image, &mut map, &mut fcb, &mut buffer, session)
}

/// A wrong declaration on either side would mix these up.
#[test]
fn every_field_crosses_the_boundary() {
    // 255, 4 for the place, so all comes back as it went in.
    let far = Session {
        place: 0x0140,
        ..SESSION
    };
    let refused = lend(Asked::new(46, 7, some_time()), far);
    assert_eq!((refused.a, refused.h, refused.session), (255, 4, far));

    // 32 looks at the argument and answers it.
    let ended = Session {
        place: 0,
        on: 0,
        ..SESSION
    };
    let log_in = lend(Asked::new(13, 200, some_time()), SESSION);
    assert_eq!((log_in.a, log_in.h, log_in.session), (0, 0, ended));
    let ask = lend(Asked::new(32, 255, some_time()), SESSION);
    assert_eq!((ask.a, ask.h, ask.session), (11, 0, ended));
    let set = lend(Asked::new(32, 9, some_time()), SESSION);
    assert_eq!((set.a, set.h, set.session.user), (0, 0, 9));
    let bad = lend(Asked::new(32, 16, some_time()), SESSION);
    assert_eq!((bad.a, bad.h, bad.session), (255, 0, SESSION));
}

/// Of the fields of a session the last alone is changed, and to 1 or 0.
#[test]
fn lifting_and_protecting_cross_the_boundary() {
    for byte in [0, 1, 2, 0xA7, 255] {
        let session = Session {
            place: 0xFEDC,
            lifted: byte,
            ..SESSION
        };
        let with = |lifted| Session { lifted, ..session };
        assert_eq!(benzokamuri::lift(session), with(1), "{byte}");
        assert_eq!(benzokamuri::protect(session), with(0), "{byte}");
    }
}

/// Any byte but 0 is lifted, and each comes back as it went in.
#[test]
fn the_byte_of_the_protection_comes_back_as_it_is() {
    for lifted in 0..=255 {
        let session = Session { lifted, ..SESSION };
        let accepted = lend(Asked::new(46, 0, some_time()), session);
        assert_eq!((accepted.h, accepted.session.lifted), (0, lifted));
        // No name at all, which is told once the protection is out of the way.
        let refused = lend(Asked::new(22, 0, some_time()), session);
        let due = if lifted == 0 { 2 } else { 9 };
        assert_eq!((refused.a, refused.h, refused.session), (255, due, session));
    }
}

#[test]
fn hour_and_minute_are_looked_at_each_by_itself() {
    for (hour, minute, due) in [
        (0x99, 0x99, (0, 0)),
        (0x9A, 0, (255, 4)),
        (0, 0xA9, (255, 4)),
    ] {
        let asked = Asked {
            hour,
            minute,
            ..Asked::new(13, 0, some_time())
        };
        let answer = lend(asked, SESSION);
        assert_eq!((answer.a, answer.h), due, "{hour:02X}:{minute:02X}");
    }
}

/// The time that is handed in is the stamp that is made, byte by byte.
#[test]
fn the_time_comes_out_as_a_stamp() {
    let mut image = common::dated_image(0x10);
    let (mut map, mut fcb, mut buffer) = ([0; MAP_LEN], [0; FCB_LEN], [0; BUFFER_LEN]);
    fcb[1..12].copy_from_slice(b"STAMPED TXT");
    for number in [13, 22] {
        let asked = Asked::new(number, 0, some_time());
        let session = benzokamuri::lift(Session::default());
        let answer = benzokamuri::lend(asked, &mut image, &mut map, &mut fcb, &mut buffer, session);
        assert_eq!(answer.h, 0, "call {number}");
    }
    let stamps = &image[common::entry_place(3) + 11..][..8];
    assert_eq!(stamps, [0x34, 0x12, 0x56, 0x78, 0, 0, 0, 0]);
    assert_eq!(stamps[..4], some_time().stamp());
}

/// What a picker is asked, and when, with fields that are told apart.
const WANTED: Wanted = Wanted {
    year: 0xFEDC,
    day: 261,
    book: *b"BOOK   1ABC",
    log: *b"LOG    2XYZ",
};
const AT: PickedAt = PickedAt {
    day: 0x1234,
    hour: 0x56,
    minute: 0x78,
};

/// A dated disk, its map, and the place of the day's word: the book's record 5 of
/// extent 2, in block 2.
fn with_book() -> (Vec<u8>, [u16; MAP_LEN], usize) {
    let mut image = common::dated_image(0x30);
    for (entry, extent, rc, block) in [(1, 0, 1, 9), (2, 2, 6, 2)] {
        let row = &mut image[common::entry_place(entry)..][..32];
        row.fill(0);
        row[..13].copy_from_slice(b"\x0BBOOK   1ABC\0");
        (row[12], row[15], row[16]) = (extent, rc, block);
    }
    let word = common::record_place(2, 5);
    image[word..][..128].copy_from_slice(&std::array::from_fn::<u8, 128, _>(|i| i as u8 ^ 0x55));
    let mut map = [0; MAP_LEN];
    map[..3].copy_from_slice(&[1, 1, 2]);
    map[9] = 2;
    (image, map, word)
}

/// Every field of what a picker is asked and tells, across and back.
#[test]
fn every_field_of_the_picker_crosses_the_boundary() {
    let (mut image, mut map, word) = with_book();
    let mut given = [0; BUFFER_LEN];
    let told = benzokamuri::pick(WANTED, AT, &mut image, &mut map, &mut given, SESSION);
    let ended = Session {
        place: 0,
        on: 0,
        ..SESSION
    };
    assert_eq!((told.number, told.given, told.a, told.h), (0, 1, 0, 0));
    assert_eq!(told.session, ended);
    assert_eq!(given[..], image[word..][..128]);
    let log = &image[common::entry_place(4)..][..32];
    assert_eq!(log[..12], *b"\x0BLOG    2XYZ");
    assert_eq!((log[15], log[16], map[3]), (1, 3, 2));
    let record = &image[common::record_place(3, 0)..][..11];
    assert_eq!(record, b"65244 261\r\n");
    let stamps = &image[common::entry_place(7) + 1..][..8];
    assert_eq!(stamps, [0x34, 0x12, 0x56, 0x78, 0x34, 0x12, 0x56, 0x78]);

    // Each field of what it tells: a refusal, with the session as it came.
    let far = Session {
        place: 0x0140,
        ..SESSION
    };
    let told = benzokamuri::pick(WANTED, AT, &mut image, &mut map, &mut given, far);
    assert_eq!((told.number, told.given, told.a, told.h), (11, 0, 255, 4));
    assert_eq!(told.session, far);
}

/// Each length by itself is looked at, on a disk that has the word, and nothing is
/// written where it is wrong.
#[test]
fn the_lengths_of_the_picker_are_looked_at() {
    let right = [IMAGE_LEN, MAP_LEN, BUFFER_LEN];
    for which in 0..3 {
        for wrong in [0, 1, right[which] - 1, right[which] + 1] {
            let mut lengths = right;
            lengths[which] = wrong;
            let (image, map, _) = with_book();
            let (mut image, mut map) = (image, map.to_vec());
            image.resize(lengths[0], 0xE5);
            map.resize(lengths[1], 0);
            let mut word = vec![7; lengths[2]];
            let before = (image.clone(), map.clone(), word.clone());
            let told = benzokamuri::pick(WANTED, AT, &mut image, &mut map, &mut word, SESSION);
            let refused = (told.number, told.given, told.a, told.h);
            assert_eq!(refused, (11, 0, 255, 4), "{lengths:?}");
            assert!((image, map, word) == before, "{lengths:?}");
            // A word's length is told by the read, after the open was accepted.
            let on = if which == 2 { 0 } else { SESSION.on };
            assert_eq!(told.session.on, on, "{lengths:?}");
        }
    }
}
