//! Labels, date entries and stamps, on disks made by hand.

mod common;
use common::*;
use reference::{Cause, LISTED};

/// Byte 12 of a label: what it asks for.
const CREATE: u8 = 0x10;
const UPDATE: u8 = 0x20;
const ACCESS: u8 = 0x40;

/// The first stamp beside an entry, and the second.
const FIRST: usize = 0;
const SECOND: usize = 1;

/// Times that are told apart, and the stamps that they make.
const MONDAY: Time = (17_852, 0x06, 0x00);
const MONDAY_STAMP: [u8; 4] = [0xBC, 0x45, 0x06, 0x00];
const SUNDAY: Time = (17_851, 0x99, 0x98);
const SUNDAY_STAMP: [u8; 4] = [0xBB, 0x45, 0x99, 0x98];

/// A label that asks for something.
fn label(asks: u8) -> [u8; 32] {
    let mut row = row(0x20, "LABEL", 0, 0, &[]);
    row[12] = asks | 1;
    row[24..].copy_from_slice(&[1, 0, 0x23, 0x59, 2, 0, 0x00, 0x00]);
    row
}

/// A date entry, every byte of it told apart from the next.
fn dates() -> [u8; 32] {
    let mut row = [0; 32];
    for (i, byte) in row.iter_mut().enumerate() {
        *byte = 0x50 + 0x10 * (i as u8 / 10) + i as u8 % 10;
    }
    row[0] = 0x21;
    row
}

/// A disk with date entries and these others, logged in on Monday.
fn dated(entries: &[(usize, [u8; 32])]) -> Desk {
    let fourths = (0..16).map(|record| (4 * record + 3, dates()));
    let mut desk = Desk::with(&fourths.chain(entries.iter().copied()).collect::<Vec<_>>());
    desk.time = MONDAY;
    desk
}

/// The stamp beside an entry.
fn stamp(desk: &Desk, entry: usize, which: usize) -> [u8; 4] {
    let row = desk.entry(entry - entry % 4 + 3);
    assert_eq!(row[0], 0x21);
    row[1 + 10 * (entry % 4) + 4 * which..][..4]
        .try_into()
        .unwrap()
}

/// What stood there at the start.
fn old_stamp(entry: usize, which: usize) -> [u8; 4] {
    let at = 1 + 10 * (entry % 4) + 4 * which;
    dates()[at..at + 4].try_into().unwrap()
}

/// All entries but the bytes of one stamp.
fn all_but(desk: &Desk, entry: usize, which: usize) -> Vec<u8> {
    let mut rows: Vec<u8> = (0..64).flat_map(|e| desk.entry(e).to_vec()).collect();
    let at = 32 * (entry | 3) + 1 + 10 * (entry % 4) + 4 * which;
    rows[at..at + 4].fill(0);
    rows
}

/// Whether a disk with these entries is consistent, whatever its map.
fn is_consistent(entries: &[(usize, [u8; 32])]) -> bool {
    let mut desk = Desk::empty();
    for (entry, row) in entries {
        desk.entry_mut(*entry).copy_from_slice(row);
    }
    match desk.ask(13, &mut [0; 36]) {
        DONE => true,
        (255, 1) => false,
        other => panic!("13 answers {other:?}"),
    }
}

// ---------------------------------------------------------------------------
// Consistency
// ---------------------------------------------------------------------------

#[test]
fn date_entries_stand_in_all_fourth_positions_or_nowhere() {
    let all: Vec<(usize, [u8; 32])> = (0..16).map(|r| (4 * r + 3, dates())).collect();
    assert!(is_consistent(&[]) && is_consistent(&all));
    for missing in 0..16 {
        let mut rest = all.clone();
        let (entry, _) = rest.remove(missing);
        assert!(!is_consistent(&rest), "none at {entry}");
        rest.push((entry, row(0, "A", 0, 0, &[])));
        assert!(!is_consistent(&rest), "a file at {entry}");
        rest.pop();
        rest.push((entry, label(0)));
        assert!(!is_consistent(&rest), "a label at {entry}");
        assert!(!is_consistent(&[(entry, dates())]), "{entry} alone");
    }
    for entry in (0..64).filter(|entry| entry % 4 != 3) {
        let more = [&all[..], &[(entry, dates())]].concat();
        assert!(!is_consistent(&more), "one more at {entry}");
        assert!(!is_consistent(&[(entry, dates())]), "{entry} alone");
    }
}

#[test]
fn there_is_at_most_one_label_and_it_may_stand_anywhere_else() {
    let fourths: Vec<(usize, [u8; 32])> = (0..16).map(|r| (4 * r + 3, dates())).collect();
    for entry in 0..64 {
        assert!(is_consistent(&[(entry, label(CREATE))]), "{entry}");
        let dated = [&fourths[..], &[(entry, label(CREATE))]].concat();
        assert_eq!(is_consistent(&dated), entry % 4 != 3, "dated, {entry}");
        let other = (entry + 7) % 64;
        assert!(!is_consistent(&[(entry, label(0)), (other, label(0))]));
    }
}

#[test]
fn a_label_asks_for_create_or_access_not_for_both() {
    for asks in 0..=255u8 {
        let mut row = label(0);
        row[12] = asks;
        let both = asks & CREATE != 0 && asks & ACCESS != 0;
        assert_eq!(is_consistent(&[(2, row)]), !both, "{asks:02X}");
    }
}

/// "Bad BCD is a nibble over 9, nothing more", in every place of a stamp; every
/// other byte of the two kinds may be anything.
#[test]
fn every_byte_of_a_label_and_of_a_date_entry() {
    let is_bcd = |byte: u8| byte % 16 <= 9 && byte / 16 <= 9;
    let fourths: Vec<(usize, [u8; 32])> = (0..16).map(|r| (4 * r + 3, dates())).collect();
    for at in 1..32 {
        for byte in 0..=255u8 {
            let mut changed = label(0);
            changed[at] = byte;
            let digits = [26, 27, 30, 31].contains(&at);
            let fine = match at {
                12 => byte & (CREATE | ACCESS) != CREATE | ACCESS,
                _ => !digits || is_bcd(byte),
            };
            assert_eq!(is_consistent(&[(0, changed)]), fine, "label, {at}: {byte}");
            let mut changed = dates();
            changed[at] = byte;
            let digits = [3, 4, 7, 8, 13, 14, 17, 18, 23, 24, 27, 28].contains(&at);
            for entry in [3, 63] {
                let mut rows = fourths.clone();
                rows[entry / 4].1 = changed;
                let fine = !digits || is_bcd(byte);
                assert_eq!(is_consistent(&rows), fine, "dates, {at}: {byte}");
            }
        }
    }
}

/// Neither kind lists a block, has an extent, is empty or is a file of anyone.
#[test]
fn labels_and_date_entries_are_no_files() {
    let mut other = label(CREATE | UPDATE);
    other[16..24].fill(9);
    let file = row(0, "LABEL", 0, 8, &[9]);
    let mut desk = dated(&[(0, other), (1, file)]);
    assert_eq!(desk.space(), 8 * 240, "block 9 is the file's");
    let mut any = [0x3F; 36];
    any[0] = 0;
    assert_eq!(desk.ask(17, &mut any), (1, 0));
    desk.refuses(18, &any, Cause::NoMore18);
    assert_eq!(desk.buffer[..32], other, "the record holds the label");
    assert_eq!(desk.buffer[96..], dates(), "and the dates");
    assert_eq!(desk.ask(19, &mut any), DONE);
    desk.refuses(19, &any, Cause::NothingMatches19);
    assert_eq!((desk.entry(0)[0], desk.entry(3)[0]), (0x20, 0x21));
    // 47 entries are left: 64, but 16 date entries and the label.
    for made in 0..47 {
        desk.make(&format!("F{made}"));
    }
    desk.refuses(22, &fcb("MORE"), Cause::NoEmptyEntry22);
}

/// A block pending for a label or a date entry is pending for no file.
#[test]
fn nothing_is_pending_for_a_label_or_a_date_entry() {
    for entry in [0, 3] {
        let mut desk = dated(&[(0, label(0))]);
        desk.map[77] = 16 + 16 * entry;
        desk.refuses(46, &[0; 36], Cause::MapWrong);
    }
}

// ---------------------------------------------------------------------------
// The time handed in
// ---------------------------------------------------------------------------

#[test]
fn bad_bcd_in_the_time_is_refused_by_every_listed_call() {
    for &number in LISTED {
        for (hour, minute, cause) in [
            (0x0A, 0x00, Cause::TimeHour),
            (0xA0, 0x00, Cause::TimeHour),
            (0x00, 0x1F, Cause::TimeMinute),
            (0x00, 0xF1, Cause::TimeMinute),
            (0xFF, 0xFF, Cause::TimeHour),
        ] {
            let mut desk = dated(&[(0, label(CREATE | UPDATE))]);
            desk.time = (1, hour, minute);
            desk.refuses(number, &fcb("A"), cause);
            let mut undated = Desk::empty();
            undated.time = (1, hour, minute);
            undated.refuses(number, &fcb("A"), cause);
        }
    }
    let mut desk = Desk::empty();
    desk.time = (1, 0xFF, 0xFF);
    assert_eq!(desk.ask(99, &mut [0; 36]), (255, 255), "an unlisted number");
    for entry in [3, 63] {
        desk.entry_mut(entry)[0] = 0x77;
    }
    desk.refuses(46, &[0; 36], Cause::TimeHour);
}

/// "Stored as given": any day, 24H to 99H, and the same time again.
#[test]
fn every_time_in_bcd_is_stored_as_given() {
    let digits = |n: u16| (16 * (n / 10) + n % 10) as u8;
    for n in 0..100 {
        let mut desk = dated(&[(1, label(CREATE))]);
        desk.time = (655 * n, digits(n), digits(99 - n));
        desk.make("A");
        let [low, high] = (655 * n).to_le_bytes();
        let stored = [low, high, digits(n), digits(99 - n)];
        assert_eq!(stamp(&desk, 0, FIRST), stored);
    }
}

// ---------------------------------------------------------------------------
// Stamps
// ---------------------------------------------------------------------------

#[test]
fn make_stamps_create_where_the_label_asks() {
    for asks in [0, CREATE, ACCESS, UPDATE, CREATE | UPDATE, ACCESS | UPDATE] {
        let mut desk = dated(&[(0, label(asks))]);
        for (name, entry) in [("A", 1), ("B", 2), ("C", 4)] {
            let before = desk.entry(entry | 3).to_vec();
            let file = desk.make(name);
            let first = match asks & CREATE {
                0 => [0; 4],
                _ => MONDAY_STAMP,
            };
            assert_eq!(stamp(&desk, entry, FIRST), first, "{name}, {asks:02X}");
            assert_eq!(stamp(&desk, entry, SECOND), [0; 4], "{name}, {asks:02X}");
            let at = 1 + 10 * (entry % 4);
            let after = desk.entry(entry | 3);
            assert_eq!(after[..at], before[..at]);
            assert_eq!(after[at + 8..], before[at + 8..], "mode and reserved stay");
            assert_eq!(file[16..32], [0; 16]);
        }
    }
}

#[test]
fn open_stamps_access_where_the_label_asks() {
    for asks in [0, CREATE, ACCESS, UPDATE, CREATE | UPDATE, ACCESS | UPDATE] {
        for entry in [0, 1, 2, 60, 62] {
            let mut desk = dated(&[(5, label(asks)), (entry, row(0, "A", 0, 9, &[2, 3]))]);
            let before = all_but(&desk, entry, FIRST);
            desk.open("A");
            let expected = match asks & ACCESS {
                0 => old_stamp(entry, FIRST),
                _ => MONDAY_STAMP,
            };
            assert_eq!(stamp(&desk, entry, FIRST), expected, "{asks:02X}");
            assert_eq!(all_but(&desk, entry, FIRST), before, "{asks:02X}");
        }
    }
}

/// "Each extent's entry has its own stamps."
#[test]
fn open_stamps_the_extent_that_it_opens() {
    let rows = [
        (0, label(ACCESS)),
        (1, row(0, "A", 0, 128, &[2])),
        (2, row(0, "A", 1, 128, &[3])),
    ];
    let mut desk = dated(&rows);
    let mut file = fcb("A");
    file[12] = 1;
    assert_eq!(desk.ask(15, &mut file), (2, 0));
    assert_eq!(stamp(&desk, 2, FIRST), MONDAY_STAMP);
    assert_eq!(stamp(&desk, 1, FIRST), old_stamp(1, FIRST));
}

#[test]
fn time_that_goes_back_or_repeats_is_stored() {
    let mut desk = dated(&[(0, label(ACCESS)), (1, row(0, "A", 0, 9, &[2]))]);
    for (time, stored) in [
        (MONDAY, MONDAY_STAMP),
        (SUNDAY, SUNDAY_STAMP),
        (SUNDAY, SUNDAY_STAMP),
        ((0, 0, 0), [0; 4]),
    ] {
        desk.time = time;
        desk.open("A");
        assert_eq!(stamp(&desk, 1, FIRST), stored);
    }
}

#[test]
fn a_close_that_changes_its_entry_stamps_update() {
    for asks in [0, CREATE, ACCESS, UPDATE, CREATE | UPDATE, ACCESS | UPDATE] {
        // Both, a count alone, a block alone, and neither.
        for (record, count, changes) in [(8, 2, true), (2, 2, true), (9, 40, true), (0, 2, false)] {
            let file_row = row(0, "A", 0, count, &[2]);
            let mut desk = dated(&[(0, label(asks)), (6, file_row)]);
            let mut file = [0; 36];
            file[1..32].copy_from_slice(&file_row[1..]);
            assert_eq!(desk.write_at(&mut file, record, 7), DONE);
            assert_eq!(stamp(&desk, 6, SECOND), old_stamp(6, SECOND));
            let before = all_but(&desk, 6, SECOND);
            assert_eq!(desk.ask(16, &mut file), (2, 0));
            let expected = match changes && asks & UPDATE != 0 {
                true => MONDAY_STAMP,
                false => old_stamp(6, SECOND),
            };
            assert_eq!(stamp(&desk, 6, SECOND), expected, "{asks:02X}, {record}");
            let after = all_but(&desk, 6, SECOND);
            assert_eq!(after[..32 * 6], before[..32 * 6]);
            assert_eq!(after[32 * 7..], before[32 * 7..]);
            desk.time = SUNDAY;
            assert_eq!(desk.ask(16, &mut file), (2, 0));
            assert_eq!(stamp(&desk, 6, SECOND), expected, "again: no change");
        }
    }
}

/// rc over 128 counts as 128, so a close of such a count may change nothing.
#[test]
fn a_count_over_128_is_no_larger_than_128() {
    for (entry, fcb, changes) in [(128, 255, false), (200, 128, false), (127, 129, true)] {
        let mut desk = dated(&[(0, label(UPDATE)), (1, row(0, "A", 0, entry, &[2]))]);
        let mut file = desk.open("A");
        file[15] = fcb;
        assert_eq!(desk.ask(16, &mut file), (1, 0));
        let stamped = stamp(&desk, 1, SECOND) == MONDAY_STAMP;
        assert_eq!(stamped, changes, "{entry}, {fcb}");
    }
}

/// A file of two extents with its first FCB, at the end of extent 0.
fn at_the_end(asks: u8, changed: bool) -> (Desk, Fcb) {
    let rows = [
        (0, label(asks)),
        (1, row(0, "A", 0, 128, &[2, 0, 4])),
        (2, row(0, "A", 1, 8, &[3])),
    ];
    let mut desk = dated(&rows);
    let mut file = [0; 36];
    file[1..32].copy_from_slice(&desk.entry(1)[1..]);
    if changed {
        assert_eq!(desk.write_at(&mut file, 8, 1), DONE);
    }
    file[32] = 128;
    set_random(&mut file, 128);
    (desk, file)
}

/// Moves to extent 1, and looks at the stamps of both extents.
fn move_and_look(number: u8, changed: bool, asks: u8) {
    let (mut desk, mut file) = at_the_end(asks, changed);
    assert_eq!(desk.ask(number, &mut file), DONE);
    let expected = match changed && asks & UPDATE != 0 {
        true => MONDAY_STAMP,
        false => old_stamp(1, SECOND),
    };
    let told = format!("{number}, {changed}, {asks:02X}");
    assert_eq!(stamp(&desk, 1, SECOND), expected, "{told}");
    for (entry, which) in [(1, FIRST), (2, FIRST), (2, SECOND)] {
        let old = old_stamp(entry, which);
        assert_eq!(stamp(&desk, entry, which), old, "{told}");
    }
}

#[test]
fn a_move_that_changes_its_entry_stamps_update_and_no_access() {
    for number in [20, 21, 33, 34] {
        for asks in [0, CREATE, ACCESS, UPDATE, ACCESS | UPDATE] {
            move_and_look(number, false, asks);
            move_and_look(number, true, asks);
        }
    }
}

#[test]
fn an_entry_made_by_a_move_starts_at_zero() {
    for number in [21, 34] {
        for asks in [0, CREATE | UPDATE, ACCESS | UPDATE] {
            let (mut desk, mut file) = at_the_end(asks, true);
            file[12] = 0;
            set_random(&mut file, 256);
            if number == 21 {
                assert_eq!(desk.ask(33, &mut file), (4, 0));
                assert_eq!(desk.read_at(&mut file, 128), DONE);
                file[32] = 128;
            }
            assert_eq!(desk.ask(number, &mut file), DONE);
            assert_eq!(desk.entry(4)[12], 2, "extent 2 in the first empty entry");
            assert_eq!(stamp(&desk, 4, FIRST), [0; 4]);
            assert_eq!(stamp(&desk, 4, SECOND), [0; 4]);
            for which in [FIRST, SECOND] {
                assert_eq!(stamp(&desk, 5, which), old_stamp(5, which));
            }
            assert_eq!(desk.entry(7)[9..11], dates()[9..11], "mode and reserved");
        }
    }
}

/// The new entry's first close with something to record is an update.
#[test]
fn made_written_and_closed() {
    let mut desk = dated(&[(0, label(CREATE | UPDATE))]);
    let mut file = desk.make("A");
    assert_eq!(desk.ask(16, &mut file), (1, 0));
    assert_eq!(stamp(&desk, 1, SECOND), [0; 4], "nothing to record");
    desk.time = SUNDAY;
    assert_eq!(desk.write_next(&mut file, 1), DONE);
    assert_eq!(desk.ask(16, &mut file), (1, 0));
    assert_eq!(stamp(&desk, 1, FIRST), MONDAY_STAMP);
    assert_eq!(stamp(&desk, 1, SECOND), SUNDAY_STAMP);
}

/// Stamps are looked at by no call, and made by no other.
#[test]
fn delete_rename_search_and_size_stamp_nothing() {
    let rows = [(0, label(ACCESS | UPDATE)), (1, row(0, "A", 0, 9, &[2, 3]))];
    for number in [13, 17, 18, 19, 23, 32, 35, 36, 46, 98] {
        let mut desk = dated(&rows);
        (desk.session.on, desk.session.pattern) = (1, [0x3F; 12]);
        let mut file = rename_fcb("A", "B");
        assert_eq!(desk.ask(number, &mut file).1, 0, "{number}");
        assert_eq!(desk.entry(3), dates(), "{number}");
    }
}

#[test]
fn a_disk_without_date_entries_is_never_stamped() {
    for asks in [CREATE | UPDATE, ACCESS | UPDATE] {
        let rows = [
            (0, label(asks)),
            (1, row(0, "A", 0, 128, &[2])),
            (3, row(0, "B", 0, 9, &[3])),
        ];
        let mut desk = Desk::with(&rows);
        desk.open("A");
        desk.open("B");
        let mut file = desk.make("C");
        assert_eq!(desk.entry(2), row(0, "C", 0, 0, &[]));
        assert_eq!(desk.write_at(&mut file, 128, 1), DONE);
        assert_eq!(desk.ask(16, &mut file), (0, 0));
        assert_eq!(desk.entry(4), row(0, "C", 1, 1, &[4]));
        assert_eq!(desk.entry(3), row(0, "B", 0, 9, &[3]), "no date entry");
        assert_eq!(desk.entry(0), label(asks));
    }
}

#[test]
fn a_disk_without_a_label_is_stamped_with_zeros_alone() {
    let mut desk = dated(&[(1, row(0, "A", 0, 8, &[2]))]);
    let mut file = desk.open("A");
    assert_eq!(desk.write_at(&mut file, 9, 1), DONE);
    assert_eq!(desk.ask(16, &mut file), (1, 0));
    assert_eq!(desk.entry(3), dates());
    desk.make("B");
    assert_eq!(desk.entry(3)[1..9], [0; 8]);
    assert_eq!(desk.entry(3)[9..], dates()[9..]);
}

/// "A refusal stamps nothing." The desk checks that none changes anything;
/// these get as far as the entry whose stamp would be due.
#[test]
fn a_refusal_stamps_nothing() {
    let full = (2..=242u8).collect::<Vec<u8>>();
    let mut rows = vec![(0, label(ACCESS | UPDATE))];
    let places = (1..64).filter(|entry| entry % 4 != 3);
    for (extent, (blocks, entry)) in full.chunks(16).zip(places).enumerate() {
        rows.push((entry, row(0, "A", extent as u16, 100, blocks)));
    }
    let mut desk = dated(&rows);
    let mut file = desk.open("A");
    assert_eq!(stamp(&desk, 1, FIRST), MONDAY_STAMP);
    desk.time = SUNDAY;
    file[15] = 128;
    set_random(&mut file, 128 * 40);
    desk.refuses(34, &file, Cause::NoFreeBlock34);
    desk.refuses(33, &file, Cause::NoExtent33);
    set_random(&mut file, 128 + 127);
    desk.refuses(33, &file, Cause::PastCount33);
    let mut elsewhere = fcb("A");
    elsewhere[12] = 30;
    desk.refuses(15, &elsewhere, Cause::NothingMatches15);
    file[16] = 9;
    desk.refuses(16, &file, Cause::NotCurrent16);
    assert_eq!(stamp(&desk, 1, FIRST), MONDAY_STAMP);
    assert_eq!(stamp(&desk, 1, SECOND), old_stamp(1, SECOND));
}
