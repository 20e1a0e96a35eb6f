//! The checked examples a to j, and the double job.

mod common;
use common::*;
use reference::{diskette, Cause};

#[test]
fn a_to_d_places_in_the_image() {
    assert_eq!(diskette::place(0, 0), 6_656);
    assert_eq!(diskette::place(0, 1), 7_424);
    assert_eq!(diskette::place(3, 2), 9_984);
    assert_eq!(diskette::place(242, 7), 254_336);
}

#[test]
fn c_and_d_as_calls_find_them() {
    let mut desk = Desk::with(&[(0, row(0, "A", 0, 128, &[3, 242]))]);
    let mut file = desk.open("A");
    assert_eq!(desk.write_at(&mut file, 2, 0xC3), DONE);
    assert_eq!(desk.image[9_984..][..128], [0xC3; 128]);
    assert_eq!(desk.write_at(&mut file, 15, 0xD7), DONE);
    assert_eq!(desk.image[254_336..][..128], [0xD7; 128]);
}

#[test]
fn e_space_on_an_empty_disk() {
    let mut desk = Desk::empty();
    desk.buffer.fill(0xAA);
    assert_eq!(desk.ask(46, &mut [0xFF; 36]), DONE);
    assert_eq!(desk.buffer[..4], [0x88, 0x07, 0x00, 0xAA]);
    assert_eq!(desk.space(), 1_928);
}

#[test]
fn f_the_last_random_record() {
    let mut desk = Desk::empty();
    let mut file = desk.make("A");
    assert_eq!(desk.write_at(&mut file, 262_143, 1), DONE);
    assert_eq!((file[12], file[14], file[32]), (31, 63, 127));
    set_random(&mut file, 262_144);
    desk.refuses(34, &file, Cause::TooFar34);
    desk.refuses(33, &file, Cause::TooFar33);
    assert_eq!(desk.ask(34, &mut file), (6, 0));
}

#[test]
fn g_the_largest_size() {
    let mut desk = Desk::with(&[(9, row(0, "A", 2_047, 128, &[]))]);
    let mut file = fcb("A");
    assert_eq!(desk.ask(35, &mut file), DONE);
    assert_eq!(file[33..], [0x00, 0x00, 0x04]);
}

#[test]
fn h_random_record_at_the_end_of_an_extent() {
    let mut desk = Desk::empty();
    let mut file = fcb("?");
    (file[12], file[32]) = (1, 128);
    assert_eq!(desk.ask(36, &mut file), DONE);
    assert_eq!(random(&file), 256);
}

#[test]
fn i_a_pattern_of_eleven_3fh() {
    let rows = [
        (1, row(0, "A", 0, 0, &[])),
        (2, row(1, "B", 0, 0, &[])),
        (3, row(0, "~!", 0, 0, &[])),
    ];
    let mut desk = Desk::with(&rows);
    let mut pattern = [0x3F; 36];
    pattern[0] = 0;
    assert_eq!(desk.ask(17, &mut pattern), (1, 0));
    assert_eq!(desk.ask(18, &mut pattern), (3, 0));
    desk.refuses(18, &pattern, Cause::NoMore18);
}

#[test]
fn j_blocks_a_slot_may_list() {
    for (block, fine) in [(1, false), (2, true), (242, true), (243, false)] {
        let mut desk = Desk::empty();
        desk.entry_mut(5)
            .copy_from_slice(&row(0, "A", 0, 0, &[0, block]));
        let expected = if fine { DONE } else { (255, 1) };
        assert_eq!(desk.ask(13, &mut [0; 36]), expected, "block {block}");
    }
}

#[test]
fn the_double_job() {
    let mut desk = Desk::empty();
    let mut first = desk.make("JOB");
    let mut second = desk.open("JOB");
    assert_eq!(desk.write_next(&mut first, 1), DONE);
    assert_eq!(desk.write_next(&mut second, 2), DONE);
    assert_eq!((first[16], second[16]), (2, 3));
    assert_eq!(desk.ask(16, &mut first), (0, 0));
    assert_eq!(desk.ask(16, &mut second), (255, 0));
    assert_eq!(desk.ask(21, &mut second), (9, 0));
    assert_eq!(desk.ask(20, &mut second), (9, 0), "even for reading");
    assert_eq!(desk.space(), 1_912);
    assert_eq!(desk.ask(98, &mut [0; 36]), DONE);
    assert_eq!(desk.space(), 1_920);
    assert_eq!(desk.record(2, 0), [1; 128]);
}
