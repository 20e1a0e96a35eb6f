//! Open, close, make, rename, delete, size and what FCBs may be used for.

mod common;
use common::*;
use reference::Cause;

#[test]
fn open_copies_all_but_what_is_the_programs() {
    let mut entry = row(0, "ABCDEFGH.XYZ", 3, 100, &[2, 0, 4]);
    for byte in &mut entry[1..12] {
        *byte |= 0x80;
    }
    entry[13] = 0x99;
    let mut desk = Desk::with(&[(42, entry)]);
    let mut file = fcb("ABCDEFGH.XYZ");
    file[0] = 1;
    file[12] = 3;
    file[14] = 0xFF;
    file[32..].copy_from_slice(&[200, 1, 2, 3]);
    assert_eq!(desk.ask(15, &mut file), (2, 0));
    for byte in &mut entry[5..9] {
        *byte &= 0x7F;
    }
    assert_eq!(file[1..32], entry[1..]);
    assert_eq!(file[0], 1);
    assert_eq!(file[32..], [200, 1, 2, 3]);
}

#[test]
fn open_asks_for_s2_0() {
    let mut desk = Desk::with(&[(0, row(0, "A", 35, 1, &[2]))]);
    let mut file = fcb("A");
    file[12] = 3;
    desk.refuses(15, &file, Cause::NothingMatches15);
    file[12] = 35;
    desk.refuses(15, &file, Cause::BadExtent15);
}

#[test]
fn names_of_other_users_are_other_names() {
    let mut desk = Desk::with(&[(0, row(1, "A", 0, 1, &[2]))]);
    desk.refuses(15, &fcb("A"), Cause::NothingMatches15);
    desk.refuses(35, &fcb("A"), Cause::NothingMatches35);
    desk.refuses(19, &fcb("?"), Cause::NothingMatches19);
    assert_eq!(desk.ask_with(32, 1, &mut [0; 36]), DONE);
    assert_eq!(desk.ask_with(32, 255, &mut [0; 36]), (1, 0));
    assert_eq!(desk.ask(15, &mut fcb("A")), (0, 0));
    let asked = desk.asked(32, 16);
    assert_eq!(desk.cause(asked, &[0; 36]), Some(Cause::BadUser32));
}

#[test]
fn make_leaves_attributes_behind() {
    let mut desk = Desk::with(&[(0, row(2, "X", 0, 0, &[]))]);
    desk.session.user = 2;
    let mut file = [0xAA; 36];
    file[0] = 0;
    file[1..12].copy_from_slice(&eleven("MADE.TXT"));
    file[12] = 31;
    file[1] |= 0x80;
    file[9] |= 0x80;
    assert_eq!(desk.ask(22, &mut file), (1, 0));
    let made = row(2, "MADE.TXT", 31, 0, &[]);
    assert_eq!(desk.entry(1), made);
    assert_eq!(file[1..32], made[1..]);
    assert_eq!((file[0], &file[32..]), (0, &[0xAA; 4][..]));
    desk.refuses(22, &file, Cause::Exists22);
}

#[test]
fn make_asks_for_the_same_extent_only() {
    let mut desk = Desk::with(&[(0, row(0, "A", 32, 0, &[])), (1, row(0, "A", 1, 0, &[]))]);
    let mut file = fcb("A");
    assert_eq!(desk.ask(22, &mut file), (2, 0));
    file[12] = 1;
    desk.refuses(22, &file, Cause::Exists22);
}

#[test]
fn close_records_what_is_pending_and_keeps_the_larger_count() {
    let mut desk = Desk::with(&[(6, row(0, "A", 0, 50, &[2]))]);
    let mut file = desk.open("A");
    assert_eq!(desk.write_at(&mut file, 40, 1), DONE);
    assert_eq!((file[15], file[21]), (50, 3));
    assert_eq!(desk.entry(6)[21], 0, "the entry waits for the close");
    for byte in &mut file[5..9] {
        *byte |= 0x80;
    }
    let before = file;
    assert_eq!(desk.ask(16, &mut file), (2, 0));
    assert_eq!(file[5..7], [before[5] & 0x7F, before[6] & 0x7F]);
    assert_eq!(file[7..], before[7..]);
    assert_eq!(desk.entry(6), row(0, "A", 0, 50, &[2, 0, 0, 0, 0, 3]));
    assert_eq!(desk.map[3], 2);

    file[15] = 20;
    assert_eq!(desk.ask(16, &mut file), (2, 0));
    assert_eq!((file[15], desk.entry(6)[15]), (20, 50));
    file[15] = 128;
    assert_eq!(desk.ask(16, &mut file), (2, 0));
    assert_eq!(desk.entry(6)[15], 128);
}

/// "The smaller of rc and 128 for every byte value", and "Close writes the FCB's
/// count so read where it is the larger, and else leaves rc", for every rc of
/// an entry and of an FCB.
#[test]
fn close_writes_the_larger_count_and_else_leaves_rc() {
    for entry in 0..=255u8 {
        for fcb in 0..=255u8 {
            let mut desk = Desk::with(&[(6, row(0, "A", 0, entry, &[2]))]);
            let mut file = desk.open("A");
            assert_eq!(file[15], entry, "open copies the byte");
            file[15] = fcb;
            assert_eq!(desk.ask(16, &mut file), (2, 0));
            let counts = [entry, fcb].map(|rc| rc.min(128));
            let expected = if counts[1] > counts[0] {
                counts[1]
            } else {
                entry
            };
            assert_eq!((desk.entry(6)[15], file[15]), (expected, fcb));
        }
    }
}

#[test]
fn closing_a_read_only_file_is_allowed() {
    let mut desk = Desk::with(&[(0, row(0, "A", 0, 1, &[2]))]);
    desk.entry_mut(0)[9] |= 0x80;
    let mut file = desk.open("A");
    assert_eq!(desk.ask(16, &mut file), (0, 0));
}

/// "Taking blocks from the FCB on trust: a copied or old FCB then claims
/// another file's block."
#[test]
fn a_copy_made_before_a_write_and_used_after_the_close() {
    let mut desk = Desk::empty();
    let mut file = desk.make("A");
    let copy = file;
    assert_eq!(desk.write_next(&mut file, 1), DONE);

    // Before the close the copy is as good as an FCB opened then.
    let mut early = copy;
    assert_eq!(desk.ask(16, &mut early), (0, 0));
    assert_eq!(desk.ask(16, &mut file), (0, 0));

    // After it the extent has a block the copy knows nothing of.
    for (number, cause) in [
        (16, Cause::NotCurrent16),
        (20, Cause::NotCurrent20),
        (21, Cause::NotCurrent21),
        (33, Cause::NotCurrent33),
        (34, Cause::NotCurrent34),
    ] {
        desk.refuses(number, &copy, cause);
    }
    let mut opened = copy;
    assert_eq!(desk.ask(15, &mut opened), (0, 0));
    assert_eq!(desk.ask(20, &mut opened), DONE);
    assert_eq!(desk.buffer, [1; 128]);
}

/// The copy keeps the pending block itself: it is held for that very slot, so
/// the copy is current until the block is freed or handed to another.
#[test]
fn a_copy_made_after_a_write() {
    let mut desk = Desk::empty();
    let mut file = desk.make("A");
    assert_eq!(desk.write_next(&mut file, 1), DONE);
    let mut copy = file;
    assert_eq!(desk.ask(16, &mut file), (0, 0));
    assert_eq!(desk.ask(16, &mut copy), (0, 0), "same block, now recorded");

    let mut file = desk.make("B");
    assert_eq!(desk.write_next(&mut file, 1), DONE);
    let copy = file;
    assert_eq!(desk.ask(98, &mut [0; 36]), DONE);
    desk.refuses(16, &copy, Cause::NotCurrent16);
    let mut other = desk.make("C");
    assert_eq!(desk.write_next(&mut other, 2), DONE);
    assert_eq!(other[16], copy[16], "the freed block");
    desk.refuses(16, &copy, Cause::NotCurrent16);
    desk.refuses(21, &copy, Cause::NotCurrent21);
}

#[test]
fn every_way_of_not_being_current() {
    let mut desk = Desk::with(&[(0, row(0, "A", 33, 8, &[2, 0, 4]))]);
    desk.map[9] = 16 + 1;
    let mut good = [0; 36];
    good[1..32].copy_from_slice(&desk.entry(0)[1..]);
    let check = |desk: &Desk, fcb: &Fcb| {
        let asked = desk.asked(16, 0);
        desk.cause(asked, fcb).is_none()
    };
    assert!(check(&desk, &good));
    let changed = |at: usize, byte: u8| {
        let mut fcb = good;
        fcb[at] = byte;
        check(&desk, &fcb)
    };
    assert!(changed(0, 1) && changed(13, 0xFF) && changed(35, 0xFF));
    assert!(
        changed(1, b'A' | 0x80),
        "attributes are no part of the name"
    );
    assert!(!changed(1, b'B') && !changed(1, b'a') && !changed(1, b'?'));
    assert!(!changed(12, 0) && !changed(14, 2));
    assert!((0..=255).all(|rc| changed(15, rc)), "rc may be anything");
    assert!(changed(32, 128) && !changed(32, 129));
    assert!(!changed(16, 0) && !changed(16, 3) && !changed(18, 0));
    assert!(changed(17, 9), "pending for this entry and slot");
    assert!(!changed(19, 9), "pending, but for another slot");
    assert!(!changed(17, 8), "free");
    assert!(!changed(17, 2), "recorded");
    assert!(!changed(17, 1) && !changed(17, 243) && !changed(17, 255));

    // 32 × s2 + ex must not be reached by an ex over 31.
    let mut over = good;
    (over[12], over[14]) = (33, 0);
    assert!(!check(&desk, &over));
    desk.session.user = 1;
    assert!(!check(&desk, &good));
}

#[test]
fn rename_keeps_attributes_and_takes_every_extent() {
    let mut far = row(0, "OLD.A", 100, 1, &[3]);
    far[2] |= 0x80;
    far[11] |= 0x80;
    let mut desk = Desk::with(&[
        (1, row(0, "OLD.A", 0, 128, &[2])),
        (2, row(1, "OLD.A", 0, 0, &[])),
        (60, far),
    ]);
    let mut names = rename_fcb("OLD.A", "NEW.B");
    names[18] |= 0x80;
    let before = names;
    assert_eq!(desk.ask(23, &mut names), DONE);
    assert_eq!(names, before);
    far[1..12].copy_from_slice(&eleven("NEW.B"));
    far[2] |= 0x80;
    far[11] |= 0x80;
    assert_eq!(desk.entry(60), far);
    assert_eq!(desk.entry(1), row(0, "NEW.B", 0, 128, &[2]));
    assert_eq!(desk.entry(2), row(1, "OLD.A", 0, 0, &[]));

    desk.refuses(23, &rename_fcb("OLD.A", "X"), Cause::NothingMatches23);
    desk.refuses(23, &rename_fcb("NEW.B", "?"), Cause::BadNewName23);
    desk.refuses(23, &rename_fcb("NEW.?", "X"), Cause::BadOldName23);
    desk.entry_mut(60)[9] |= 0x80;
    desk.refuses(23, &rename_fcb("NEW.B", "X"), Cause::ReadOnly23);
}

/// "Freeing only recorded blocks at a delete."
#[test]
fn a_delete_frees_pending_blocks_too() {
    let mut desk = Desk::with(&[
        (0, row(0, "A", 0, 128, &[2])),
        (1, row(0, "A", 7, 8, &[3])),
        (2, row(0, "B", 0, 8, &[4])),
    ]);
    let mut a = desk.open("A");
    let mut twice = a;
    let mut b = desk.open("B");
    assert_eq!(desk.write_at(&mut a, 8, 1), DONE);
    assert_eq!(desk.write_at(&mut twice, 8, 1), DONE);
    assert_eq!(desk.write_at(&mut b, 8, 1), DONE);
    assert_eq!((a[17], twice[17], b[17]), (5, 6, 7));
    assert_eq!(desk.space(), 1_928 - 6 * 8);

    let gone = desk.entry(1)[1..].to_vec();
    assert_eq!(desk.ask(19, &mut fcb("A")), DONE);
    assert_eq!(desk.space(), 1_928 - 2 * 8);
    assert_eq!(desk.map[2..8], [0, 0, 2, 0, 0, 16 + 32 + 1]);
    assert_eq!(desk.entry(1)[0], 0xE5);
    assert_eq!(desk.entry(1)[1..], gone, "byte 0 only");
    desk.refuses(16, &a, Cause::NotCurrent16);
    assert_eq!(desk.ask(16, &mut b), (2, 0));

    // A new file in the same entry is not the old FCB's.
    let mut same = desk.make("A");
    assert_eq!(desk.write_next(&mut same, 9), DONE);
    desk.refuses(16, &a, Cause::NotCurrent16);
}

#[test]
fn a_delete_by_pattern_takes_all_or_none() {
    let mut desk = Desk::with(&[
        (0, row(0, "AB.C", 0, 1, &[2])),
        (1, row(0, "AX.C", 63, 1, &[3])),
        (2, row(0, "AX.D", 0, 1, &[4])),
        (3, row(5, "AB.C", 0, 1, &[5])),
    ]);
    desk.entry_mut(1)[9] |= 0x80;
    desk.refuses(19, &fcb("A?.C"), Cause::ReadOnly19);
    desk.entry_mut(1)[9] &= 0x7F;
    let mut pattern = fcb("A?.C");
    pattern[2] = 0xBF;
    pattern[12] = 0xFF;
    assert_eq!(desk.ask(19, &mut pattern), DONE);
    let users = [0, 1, 2, 3].map(|entry| desk.entry(entry)[0]);
    assert_eq!(users, [0xE5, 0xE5, 0, 5]);
    assert_eq!(desk.map[2..6], [0, 0, 2, 2]);
}

#[test]
fn size_is_the_largest_end() {
    let mut desk = Desk::with(&[
        (0, row(0, "A", 5, 0, &[])),
        (1, row(0, "A", 4, 128, &[])),
        (2, row(0, "A", 0, 128, &[])),
        (3, row(1, "A", 9, 1, &[])),
    ]);
    let mut file = fcb("A");
    file[12] = 0xFF;
    file[32] = 0xFF;
    assert_eq!(desk.ask(35, &mut file), DONE);
    assert_eq!(random(&file), 640);
    assert_eq!(file[32], 0xFF);
    let pattern = fcb("?");
    desk.refuses(35, &pattern, Cause::BadName35);
}

#[test]
fn size_reads_a_count_over_128_as_128() {
    for rc in 0..=255 {
        let mut desk = Desk::with(&[
            (0, row(0, "A", 0, 255, &[])),
            (1, row(0, "A", 3, rc, &[])),
            (2, row(0, "A", 2, 255, &[])),
        ]);
        let mut file = fcb("A");
        assert_eq!(desk.ask(35, &mut file), DONE);
        assert_eq!(random(&file), 384 + u32::from(rc).min(128));
    }
}

/// A write leaves the largest of the FCB's count, the entry's and target + 1,
/// which is at most 128 whatever the bytes were; and every record below the
/// larger count can be read.
#[test]
fn counts_over_128_are_read_and_written_as_128() {
    for (entry, own) in [
        (200, 0),
        (0, 200),
        (129, 255),
        (255, 128),
        (128, 129),
        (9, 130),
    ] {
        let blocks: Vec<u8> = (2..18).collect();
        let mut desk = Desk::with(&[(0, row(0, "A", 0, entry, &blocks))]);
        let mut file = desk.open("A");
        file[15] = own;
        for record in 0..128 {
            set_random(&mut file, record);
            assert_eq!(desk.ask(33, &mut file), DONE, "{entry}, {own}: {record}");
            assert_eq!(file[15], own, "reading leaves rc");
        }
        assert_eq!(desk.write_at(&mut file, 5, 0xEE), DONE);
        assert_eq!((file[15], desk.entry(0)[15]), (128, entry));
    }
}

/// A move copies the byte as open does, and closes as 16 does.
#[test]
fn a_move_copies_rc_as_it_is() {
    let mut desk = Desk::with(&[
        (0, row(0, "A", 0, 250, &[2])),
        (1, row(0, "A", 1, 200, &[3])),
        (2, row(0, "A", 2, 7, &[4])),
    ]);
    let mut file = desk.open("A");
    file[32] = 128;
    assert_eq!(desk.ask(20, &mut file), DONE);
    assert_eq!((file[12], file[15], desk.entry(0)[15]), (1, 200, 250));
    // An FCB with a count over 128 leaves 128 behind where that is the larger.
    set_random(&mut file, 256);
    assert_eq!(desk.ask(33, &mut file), DONE);
    file[15] = 131;
    set_random(&mut file, 128);
    assert_eq!(desk.ask(33, &mut file), DONE);
    assert_eq!((file[12], file[15]), (1, 200));
    assert_eq!([0, 1, 2].map(|e| desk.entry(e)[15]), [250, 200, 128]);
}

#[test]
fn reading_asks_the_larger_count_and_the_fcbs_slot() {
    let mut desk = Desk::with(&[(0, row(0, "A", 0, 4, &[2]))]);
    let mut file = desk.open("A");
    file[32] = 3;
    assert_eq!(desk.ask(20, &mut file), DONE);
    assert_eq!(file[32], 4);
    desk.refuses(20, &file, Cause::PastCount20);
    file[15] = 6;
    assert_eq!(desk.ask(20, &mut file), DONE);
    file[15] = 0;
    file[32] = 3;
    assert_eq!(desk.ask(20, &mut file), DONE, "the entry's count");
    file[15] = 9;
    file[32] = 8;
    desk.refuses(20, &file, Cause::NoBlock20);
    set_random(&mut file, 8);
    desk.refuses(33, &file, Cause::NoBlock33);
    set_random(&mut file, 9);
    desk.refuses(33, &file, Cause::PastCount33);
}

/// "The rest of the block keeps its bytes."
#[test]
fn a_write_changes_its_record_only() {
    let mut desk = Desk::empty();
    let mut file = desk.make("A");
    let before = desk.image.clone();
    assert_eq!(desk.write_at(&mut file, 5, 0xEE), DONE);
    let place = reference::diskette::place(2, 5);
    assert!(desk.image[..place] == before[..place]);
    assert_eq!(desk.image[place..][..128], [0xEE; 128]);
    assert!(desk.image[place + 128..] == before[place + 128..]);
    assert_eq!((file[15], file[32]), (6, 5));
}

#[test]
fn names_that_break_the_rule() {
    let mut desk = Desk::with(&[(0, row(0, "A", 0, 1, &[2]))]);
    for byte in [0x1F, 0x7F, 0xFF, 0x00, 0x9F] {
        let mut bad = rename_fcb("AB", "CD");
        bad[2] = byte;
        desk.refuses(15, &bad, Cause::BadName15);
        desk.refuses(17, &bad, Cause::BadName17);
        desk.refuses(19, &bad, Cause::BadName19);
        desk.refuses(22, &bad, Cause::BadName22);
        desk.refuses(23, &bad, Cause::BadOldName23);
        desk.refuses(35, &bad, Cause::BadName35);
        let mut bad = rename_fcb("AB", "CD");
        bad[27] = byte;
        desk.refuses(23, &bad, Cause::BadNewName23);
    }
    let mut spaced = fcb(" A");
    desk.refuses(15, &spaced, Cause::BadName15);
    spaced[1] = 0xA0;
    desk.refuses(17, &spaced, Cause::BadName17);
    let mut far = fcb("A");
    far[12] = 0xBF;
    desk.refuses(17, &far, Cause::BadExtent17);
    far[12] = 32;
    desk.refuses(17, &far, Cause::BadExtent17);
    desk.refuses(22, &far, Cause::BadExtent22);
}
