//! Moves from one extent to another by 20, 21, 33 and 34.

mod common;
use common::*;
use reference::Cause;

/// Two extents with a block each, in entries 7 and 4.
fn two_extents() -> Desk {
    let mut desk = Desk::with(&[
        (7, row(0, "A", 0, 128, &[2])),
        (4, row(0, "A", 1, 9, &[5, 6])),
    ]);
    for (block, byte) in [(5, 0x51), (6, 0x61)] {
        let place = reference::diskette::place(block, 0);
        desk.image[place..][..128].fill(byte);
    }
    desk
}

/// A second slot's worth of pending data in extent 0.
fn with_pending(desk: &mut Desk) -> Fcb {
    let mut file = desk.open("A");
    assert_eq!(desk.write_at(&mut file, 8, 0x33), DONE);
    assert_eq!((file[17], desk.map[3]), (3, 16 + 16 * 7 + 1));
    file
}

#[test]
fn a_sequential_read_moves_at_the_call_that_needs_it() {
    let mut desk = two_extents();
    let mut file = with_pending(&mut desk);
    file[32] = 127;
    desk.refuses(20, &file, Cause::NoBlock20);
    file[32] = 128;
    assert_eq!(desk.ask(20, &mut file), DONE);
    assert_eq!(desk.buffer, [0x51; 128]);
    assert_eq!((file[12], file[15], file[32]), (1, 9, 1));
    assert_eq!(file[1..32], desk.entry(4)[1..]);
    // The present extent was closed.
    assert_eq!(desk.entry(7)[16..18], [2, 3]);
    assert_eq!(desk.map[3], 2);
}

#[test]
fn a_sequential_read_without_a_next_extent_closes_nothing() {
    let mut desk = two_extents();
    desk.entry_mut(4)[0] = 0xE5;
    desk.log_in();
    let mut file = with_pending(&mut desk);
    file[32] = 128;
    desk.refuses(20, &file, Cause::NoExtent20);
    assert_eq!(desk.entry(7)[17], 0);
}

#[test]
fn a_sequential_write_moves_to_the_entry_that_is_there() {
    let mut desk = two_extents();
    let mut file = with_pending(&mut desk);
    file[32] = 128;
    assert_eq!(desk.write_next(&mut file, 0x44), DONE);
    assert_eq!(desk.record(5, 0), [0x44; 128]);
    assert_eq!((file[12], file[15], file[32]), (1, 9, 1));
    assert_eq!(desk.entry(7)[16..18], [2, 3]);
}

#[test]
fn a_sequential_write_makes_the_next_extent() {
    let mut desk = two_extents();
    desk.entry_mut(4)[0] = 0xE5;
    desk.entry_mut(7)[2] |= 0x80;
    desk.entry_mut(7)[6] |= 0x80;
    desk.entry_mut(7)[11] |= 0x80;
    desk.entry_mut(7)[13] = 77;
    desk.log_in();
    let mut file = with_pending(&mut desk);
    file[3] |= 0x80;
    file[32] = 128;
    assert_eq!(desk.write_next(&mut file, 0x44), DONE);

    // The first empty entry, the present entry's attributes and not the
    // FCB's, s1, rc and slots 0 until the close.
    let mut made = row(0, "A", 1, 0, &[]);
    made[2] |= 0x80;
    made[6] |= 0x80;
    made[11] |= 0x80;
    assert_eq!(desk.entry(0), made);
    assert_eq!(desk.map[4], 16);

    // In the FCB the high bits of bytes 5 to 8 are cleared.
    made[6] &= 0x7F;
    made[15] = 1;
    made[16] = 4;
    assert_eq!(file[..32], made[..]);
    assert_eq!(file[32], 1);
    assert_eq!(desk.record(4, 0), [0x44; 128]);
}

#[test]
fn extents_go_on_past_ex_31() {
    let mut desk = Desk::with(&[(0, row(3, "A", 31, 128, &[2]))]);
    desk.session.user = 3;
    let mut file = [0; 36];
    file[1..32].copy_from_slice(&desk.entry(0)[1..]);
    file[32] = 128;
    assert_eq!(desk.write_next(&mut file, 1), DONE);
    assert_eq!((file[12], file[14]), (0, 1));
    assert_eq!(desk.entry(1)[..15], row(3, "A", 32, 0, &[])[..15]);
}

#[test]
fn random_reads_and_writes_move_both_ways() {
    let mut desk = two_extents();
    let mut file = with_pending(&mut desk);
    assert_eq!(desk.read_at(&mut file, 128 + 8), DONE);
    assert_eq!(desk.buffer, [0x61; 128]);
    assert_eq!((file[12], file[32], random(&file)), (1, 8, 136));
    assert_eq!(desk.entry(7)[17], 3, "closed on the way");

    assert_eq!(desk.write_at(&mut file, 7, 0x77), DONE);
    assert_eq!((file[12], file[32], file[15]), (0, 7, 128));
    assert_eq!(desk.record(2, 7), [0x77; 128]);

    assert_eq!(desk.write_at(&mut file, 128 * 40 + 127, 0x78), DONE);
    assert_eq!((file[12], file[14], file[32]), (8, 1, 127));
    assert_eq!((file[15], file[31], file[16]), (128, 4, 0));
    assert_eq!(desk.entry(0), row(0, "A", 40, 0, &[]));
    assert_eq!(desk.map[4], 16 + 15);

    desk.refuses(
        33,
        &{
            let mut far = file;
            set_random(&mut far, 128 * 41);
            far
        },
        Cause::NoExtent33,
    );
    assert_eq!(desk.ask(16, &mut file), (0, 0));
    assert_eq!(desk.entry(0)[15], 128);
}

#[test]
fn a_move_with_nothing_to_read_there_closes_nothing() {
    let mut desk = two_extents();
    let mut file = with_pending(&mut desk);
    set_random(&mut file, 128 + 9);
    desk.refuses(33, &file, Cause::PastCount33);
    desk.entry_mut(4)[17] = 0;
    desk.map[6] = 0;
    set_random(&mut file, 128 + 8);
    desk.refuses(33, &file, Cause::NoBlock33);
    assert_eq!(desk.entry(7)[17], 0);
}

#[test]
fn a_write_refused_for_want_of_a_block_closes_nothing() {
    let mut desk = two_extents();
    let mut file = with_pending(&mut desk);
    for note in &mut desk.map[7..] {
        *note = 16 + 16 * 4 + 15;
    }
    desk.map[4] = 16 + 16 * 4;
    assert_eq!(desk.space(), 0);
    set_random(&mut file, 128 + 16);
    desk.refuses(34, &file, Cause::NoFreeBlock34);
    file[32] = 128;
    assert_eq!(desk.entry(7)[17], 0);
    assert_eq!(desk.write_next(&mut file, 1), DONE, "extent 1 has block 5");
}

#[test]
fn read_only_is_asked_of_both_entries_and_not_of_the_fcb() {
    let mut desk = two_extents();
    desk.entry_mut(4)[9] |= 0x80;
    let mut file = desk.open("A");
    file[9] |= 0x80;
    assert_eq!(desk.write_next(&mut file, 1), DONE);
    file[32] = 128;
    desk.refuses(21, &file, Cause::ReadOnlyTarget21);
    set_random(&mut file, 128);
    desk.refuses(34, &file, Cause::ReadOnlyTarget34);
    set_random(&mut file, 127);
    assert_eq!(desk.ask(34, &mut file), DONE);
    desk.entry_mut(7)[9] |= 0x80;
    desk.refuses(34, &file, Cause::ReadOnly34);
    desk.refuses(21, &file, Cause::ReadOnly21);
    set_random(&mut file, 128);
    assert_eq!(desk.ask(33, &mut file), DONE, "reading moves all the same");
}

/// The target's pending blocks belong to another FCB: a move takes a new one.
#[test]
fn a_move_never_takes_another_fcbs_pending_block() {
    let mut desk = two_extents();
    let mut file = desk.open("A");
    let mut other = file;
    assert_eq!(desk.write_at(&mut other, 128 + 16, 1), DONE);
    assert_eq!(other[18], 3);
    assert_eq!(desk.write_at(&mut file, 128 + 16, 2), DONE);
    assert_eq!(file[18], 4);
    assert_eq!((desk.map[3], desk.map[4]), (16 + 66, 16 + 66));
}
