//! The word picker, on disks made by hand.

mod common;

use common::{eleven, fcb, row, Desk, DONE};
use reference::{pick, Pick, Picked, Session, Time, Wanted};

const BOOK: &str = "WORDS.DAT";
const LOG: &str = "WORDS.LOG";

/// What a run came to: the answer, and the word where it was handed out.
type Came = (Pick, Option<[u8; 128]>);

/// Runs the picker. A word that is not handed out leaves its bytes.
fn run_with(desk: &mut Desk, wanted: Wanted) -> Came {
    let (day, hour, minute) = desk.time;
    let mut word = [0xA5; 128];
    let Picked {
        pick,
        given,
        session,
    } = pick(
        wanted,
        Time { day, hour, minute },
        &mut desk.image,
        &mut desk.map,
        &mut word,
        desk.session,
    );
    assert_eq!(session.lifted, desk.session.lifted);
    desk.session = session;
    assert!(given || word == [0xA5; 128]);
    (pick, given.then_some(word))
}

fn wanted(year: u16, day: u16) -> Wanted {
    Wanted {
        year,
        day,
        book: eleven(BOOK),
        log: eleven(LOG),
    }
}

fn run(desk: &mut Desk, year: u16, day: u16) -> Came {
    run_with(desk, wanted(year, day))
}

/// Runs the picker, which must tell a trouble and change nothing.
#[track_caller]
fn troubled(desk: &mut Desk, wanted: Wanted, trouble: Pick, given: bool) {
    let before = desk.clone();
    let (pick, word) = run_with(desk, wanted);
    assert_eq!((pick, word.is_some()), (trouble, given));
    assert!(desk.image == before.image && desk.map == before.map);
}

/// A disk with a book of 366 days; the word of a day is its number throughout.
fn with_book() -> Desk {
    let mut desk = Desk::empty();
    let mut book = desk.make(BOOK);
    for day in 0..366 {
        assert_eq!(desk.write_next(&mut book, day as u8), DONE);
    }
    desk.ask(16, &mut book);
    desk
}

/// The records of the log, read by calls.
fn log(desk: &mut Desk) -> Vec<[u8; 128]> {
    let mut file = desk.open(LOG);
    let mut records = Vec::new();
    while desk.ask(20, &mut file) == DONE {
        records.push(std::array::from_fn(|i| desk.buffer[i]));
    }
    records
}

fn record(text: &[u8; 9]) -> [u8; 128] {
    let mut record = [0x1A; 128];
    record[..9].copy_from_slice(text);
    record[9..11].copy_from_slice(b"\r\n");
    record
}

#[test]
fn the_night_the_clocks_go_back() {
    let mut desk = with_book();
    desk.protect();
    assert_eq!(run(&mut desk, 2026, 297), (Pick::Logged, Some([41; 128])));
    let logged = desk.clone();
    assert_eq!(run(&mut desk, 2026, 297), (Pick::Again, Some([41; 128])));
    assert!(desk.image == logged.image && desk.map == logged.map);
    assert_eq!(run(&mut desk, 2026, 298).0, Pick::Logged);
    assert_eq!(log(&mut desk), [record(b"02026 297"), record(b"02026 298")]);
}

#[test]
fn a_log_grows_over_extents_and_is_full_at_1_024() {
    let mut desk = with_book();
    for n in 0..1_024 {
        assert_eq!(run(&mut desk, n, 5).0, Pick::Logged, "{n}");
    }
    let records = log(&mut desk);
    assert_eq!(records.len(), 1_024);
    assert_eq!(records[1_023], record(b"01023 005"));
    troubled(&mut desk, wanted(1_024, 5), Pick::LogFull, true);
    troubled(&mut desk, wanted(1_023, 5), Pick::Again, true);
    assert_eq!(desk.space(), 8 * (241 - 46 - 128));
}

/// A new extent has the name of the first, attributes and all, and stamps of its
/// own.
#[test]
fn an_extent_is_made_as_a_move_makes_it() {
    let mut first = row(3, LOG, 0, 128, &[9, 10]);
    first[4] |= 0x80;
    first[13] = 77;
    let book = row(3, BOOK, 0, 1, &[8]);
    let mut desk = Desk::with(&[(0, book), (5, first)]);
    desk.session.user = 3;
    desk.log_in();
    assert_eq!(run(&mut desk, 1, 0).0, Pick::Logged);
    let mut made = row(3, LOG, 1, 1, &[2]);
    made[4] |= 0x80;
    assert_eq!(desk.entry(1), made);
    assert_eq!(desk.entry(5), first);
    assert_eq!(
        (desk.map[2], desk.record(2, 0)[..9].to_vec()),
        (2, b"00001 000".to_vec())
    );
}

#[test]
fn troubles_in_their_order() {
    let mut desk = Desk::empty();
    troubled(&mut desk, wanted(1, 366), Pick::DayOver, false);
    troubled(&mut desk, wanted(1, 365), Pick::NoBook, false);
    let mut desk = Desk::with(&[(0, row(0, BOOK, 1, 128, &[7; 1]))]);
    troubled(&mut desk, wanted(1, 130), Pick::NoBook, false);
    let mut desk = Desk::with(&[(0, row(0, BOOK, 0, 10, &[7, 0]))]);
    for day in [8, 9, 10, 128] {
        troubled(&mut desk, wanted(1, day), Pick::NoWord, false);
    }
    let mut same = wanted(1, 7);
    same.log = same.book.map(|byte| byte | 0x80);
    troubled(&mut desk, same, Pick::OneFile, true);
    let mut bad = wanted(1, 7);
    bad.log[3] = b'?';
    troubled(&mut desk, bad, Pick::Other { a: 255, h: 9 }, true);
    bad.book[0] = b' ';
    troubled(&mut desk, bad, Pick::Other { a: 255, h: 9 }, false);
}

#[test]
fn troubles_of_the_log() {
    let book = row(0, BOOK, 0, 1, &[7]);
    let mut desk = Desk::with(&[(0, book), (1, row(0, LOG, 1, 1, &[8]))]);
    troubled(&mut desk, wanted(1, 0), Pick::NoFirst, true);
    // t1' of the first entry, or of the one that is to be written to.
    for at in [1, 2] {
        let mut entries = [
            (0, book),
            (1, row(0, LOG, 0, 128, &[8])),
            (2, row(0, LOG, 1, 1, &[9])),
        ];
        entries[at].1[9] |= 0x80;
        let mut desk = Desk::with(&entries);
        troubled(&mut desk, wanted(1, 0), Pick::LogReadOnly, true);
    }
    // The log has room for seven more in its block, and then needs another.
    let mut desk = Desk::with(&[(0, book), (1, row(0, LOG, 0, 7, &[8]))]);
    for block in (2..243).filter(|block| ![7, 8].contains(block)) {
        desk.map[block] = 16;
    }
    assert_eq!(run(&mut desk, 1, 0).0, Pick::Logged);
    troubled(&mut desk, wanted(2, 0), Pick::DiskFull, true);
    // Without a log the full disk comes before the full directory.
    let mut desk = Desk::with(&[(0, book)]);
    for entry in 1..64 {
        let other = row(1, &format!("F{entry}"), 0, 0, &[]);
        desk.entry_mut(entry).copy_from_slice(&other);
    }
    troubled(&mut desk, wanted(1, 0), Pick::DirectoryFull, true);
    for block in (2..243).filter(|&block| block != 7) {
        desk.map[block] = 16;
    }
    troubled(&mut desk, wanted(1, 0), Pick::DiskFull, true);
}

/// A record that is not there, a hole, has no year and no day; with its block it
/// may come to have one.
#[test]
fn a_hole_has_no_day() {
    let entries = [
        (0, row(0, BOOK, 0, 1, &[7])),
        (1, row(0, LOG, 0, 10, &[8, 0])),
    ];
    let mut desk = Desk::with(&entries);
    let place = reference::diskette::place(2, 0);
    desk.image[place..place + 9].copy_from_slice(b"00001 000");
    assert_eq!(run(&mut desk, 1, 0).0, Pick::Logged);
    assert_eq!(desk.entry(1)[15..18], [11, 8, 2]);
    // Block 2 was the first free one: record 8 is there now, with its old bytes.
    assert_eq!(log(&mut desk)[8][..9], *b"00001 000");
    assert_eq!(log(&mut desk)[10], record(b"00001 000"));
}

#[test]
fn a_search_is_ended_once_the_book_is_found() {
    let on = Session {
        place: 9,
        on: 1,
        ..Session::default()
    };
    let mut desk = Desk::empty();
    desk.session = on;
    troubled(&mut desk, wanted(1, 0), Pick::NoBook, false);
    assert_eq!(desk.session, on);
    let mut desk = Desk::with(&[(0, row(0, BOOK, 0, 0, &[]))]);
    desk.session = on;
    troubled(&mut desk, wanted(1, 0), Pick::NoWord, false);
    assert_eq!(desk.session, Session::default());
}

#[test]
fn what_every_call_refuses() {
    let mut desk = with_book();
    desk.session.user = 16;
    troubled(&mut desk, wanted(1, 0), Pick::Other { a: 255, h: 4 }, false);
    desk.session.user = 0;
    desk.time.1 = 0x1A;
    troubled(&mut desk, wanted(1, 0), Pick::Other { a: 255, h: 4 }, false);
    desk.time.1 = 0x10;
    desk.map[200] = 3;
    troubled(&mut desk, wanted(1, 0), Pick::Other { a: 255, h: 1 }, false);
    desk.log_in();
    assert_eq!(desk.ask(35, &mut fcb(LOG)), (255, 0), "no log yet");
    assert_eq!(run(&mut desk, 1, 0).0, Pick::Logged);
}
