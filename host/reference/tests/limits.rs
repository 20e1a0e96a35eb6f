//! Where the disk, the directory, the file and the buffers end.

mod common;
use common::*;
use reference::{call, refusal, Cause, LISTED};

#[test]
fn the_242nd_block_on_a_disk() {
    let mut desk = Desk::empty();
    let mut file = desk.make("BIG");
    // Every eighth record takes a block: 241 of them, into a sixteenth extent.
    for block in 0..241 {
        assert_eq!(desk.write_at(&mut file, 8 * block, block as u8), DONE);
    }
    assert_eq!(desk.space(), 0);
    let taken = file[16..].iter().position(|&block| block == 0);
    assert_eq!((file[12], taken), (15, Some(1)));

    // Here, and where it would take a move to an entry to be made.
    set_random(&mut file, 8 * 241);
    desk.refuses(34, &file, Cause::NoFreeBlock34);
    set_random(&mut file, 128 * 16);
    desk.refuses(34, &file, Cause::NoFreeBlock34);
    file[32] = 8;
    desk.refuses(21, &file, Cause::NoFreeBlock21);
    file[32] = 128;
    desk.refuses(21, &file, Cause::NoFreeBlock21);
    assert_eq!(desk.map[242], 16 + 16 * 15, "the block still waits");

    // Blocks that are there can still be written, and closed.
    assert_eq!(desk.write_at(&mut file, 8 * 240 + 7, 9), DONE);
    assert_eq!(desk.ask(16, &mut file), (3, 0));
    desk.log_in();
    assert_eq!(desk.space(), 0);
    for block in 0..241 {
        assert_eq!(desk.read_at(&mut file, 8 * block), DONE);
        assert_eq!(desk.buffer, [block as u8; 128]);
    }
}

#[test]
fn a_freed_block_is_handed_out_again() {
    let mut desk = Desk::empty();
    let mut file = desk.make("BIG");
    for block in 0..240 {
        assert_eq!(desk.write_at(&mut file, 8 * block, 1), DONE);
        if block == 100 {
            let mut small = desk.make("SMALL");
            assert_eq!(desk.write_next(&mut small, 2), DONE);
            assert_eq!(small[16], 103);
            assert_eq!(desk.ask(16, &mut small).1, 0);
        }
    }
    assert_eq!(desk.space(), 0);
    assert_eq!(desk.ask(19, &mut fcb("SMALL")), DONE);
    assert_eq!(desk.space(), 8);
    let mut other = desk.make("OTHER");
    assert_eq!(desk.write_next(&mut other, 3), DONE);
    assert_eq!(other[16], 103);
}

#[test]
fn the_65th_entry() {
    let mut desk = Desk::empty();
    for entry in 0..64 {
        let mut file = fcb(&format!("F{entry}"));
        assert_eq!(desk.ask(22, &mut file), (entry % 4, 0));
    }
    desk.refuses(22, &fcb("F64"), Cause::NoEmptyEntry22);
    desk.refuses(22, &fcb("F63"), Cause::Exists22);

    let mut file = desk.open("F0");
    file[32] = 128;
    desk.refuses(21, &file, Cause::NoEmptyEntry21);
    desk.refuses(20, &file, Cause::NoExtent20);
    set_random(&mut file, 128);
    desk.refuses(34, &file, Cause::NoEmptyEntry34);
    assert_eq!(desk.ask(34, &mut file), (5, 0));
    desk.refuses(33, &file, Cause::NoExtent33);

    // An entry in the middle becomes empty and is the one made.
    assert_eq!(desk.ask(19, &mut fcb("F37")), DONE);
    assert_eq!(desk.ask(34, &mut file), DONE);
    assert_eq!(desk.entry(37)[..16], row(0, "F0", 1, 0, &[])[..16]);
}

#[test]
fn rename_to_itself() {
    let mut desk = Desk::with(&[(0, row(0, "A.B", 0, 0, &[]))]);
    desk.refuses(23, &rename_fcb("A.B", "A.B"), Cause::Exists23);
    assert_eq!(desk.ask(23, &mut rename_fcb("A.B", "A.B")), (255, 8));

    // Attributes make no other name of it.
    let mut same = rename_fcb("A.B", "A.B");
    same[17] |= 0x80;
    assert_eq!(desk.ask(23, &mut same), (255, 8));

    // Read-only comes before.
    desk.entry_mut(0)[9] |= 0x80;
    desk.refuses(23, &rename_fcb("A.B", "A.B"), Cause::ReadOnly23);
}

/// Lends buffers one too short and one too long for every call.
#[test]
fn lengths_by_one() {
    let right = [256_256, 243, 36, 128];
    for &number in LISTED {
        for buffer in 0..4 {
            for length in [right[buffer] - 1, right[buffer] + 1, 0] {
                let mut lengths = right;
                lengths[buffer] = length;
                let [image, map, fcb, transfer] = lengths;
                let desk = Desk::empty();
                let asked = desk.asked(number, 0);
                let mut image = [desk.image, vec![0; 1]].concat()[..image].to_vec();
                let mut map = [desk.map, vec![0; 1]].concat()[..map].to_vec();
                let (mut fcb, mut transfer) = (vec![0; fcb], vec![7; transfer]);
                let cause = [
                    Cause::ImageLength,
                    Cause::MapLength,
                    Cause::FcbLength,
                    Cause::BufferLength,
                ][buffer];
                let session = desk.session;
                let told = refusal(asked, &image, &map, &fcb, &transfer, session);
                assert_eq!(told, Some(cause));
                let before = (image.clone(), map.clone(), fcb.clone(), transfer.clone());
                let answer = call(
                    asked,
                    &mut image,
                    &mut map,
                    &mut fcb,
                    &mut transfer,
                    session,
                );
                assert_eq!((answer.a, answer.h), (255, 4));
                assert_eq!(answer.session, session);
                assert!(before == (image, map, fcb, transfer));
            }
        }
    }
}

/// An unlisted number comes before a wrong length.
#[test]
fn unlisted_numbers() {
    for number in (0..=255).filter(|number| !LISTED.contains(number)) {
        let mut desk = Desk::empty();
        let asked = desk.asked(number, 0);
        assert_eq!(desk.ask(number, &mut [9; 36]), (255, 255));
        let session = desk.session;
        let answer = call(asked, &mut [], &mut [], &mut [], &mut [], session);
        assert_eq!((answer.a, answer.h), (255, 255));
    }
}

#[test]
fn the_last_extent_is_full_even_with_entries_left() {
    let mut desk = Desk::with(&[(0, row(0, "A", 2_047, 128, &[2, 3]))]);
    let mut file = [0; 36];
    file[1..32].copy_from_slice(&desk.entry(0)[1..]);
    file[32] = 127;
    desk.refuses(20, &file, Cause::NoBlock20);
    assert_eq!(desk.write_next(&mut file, 1), DONE);
    assert_eq!(file[32], 128);
    desk.refuses(20, &file, Cause::LastExtent20);
    desk.refuses(21, &file, Cause::LastExtent21);
    assert_eq!(desk.ask(36, &mut file), DONE);
    assert_eq!(random(&file), 262_144);

    // Read-only comes before.
    desk.entry_mut(0)[9] |= 0x80;
    desk.refuses(21, &file, Cause::ReadOnly21);
}

/// System tracks and the last six logical sectors belong to no block.
#[test]
fn a_full_disk_written_to_the_end_leaves_the_rest_alone() {
    let mut desk = Desk::empty();
    let before = desk.image.clone();
    let mut file = desk.make("ALL");
    for record in 0..241 * 8 {
        assert_eq!(desk.write_at(&mut file, record, 0xEE), DONE);
    }
    file[32] = 8;
    desk.refuses(21, &file, Cause::NoFreeBlock21);
    let mut blocks = vec![false; before.len() / 128];
    for block in 0..243 {
        for record in 0..8 {
            blocks[reference::diskette::place(block, record) / 128] = true;
        }
    }
    assert!(desk.image[..2 * 26 * 128] == before[..2 * 26 * 128]);
    for (sector, in_block) in blocks.iter().enumerate() {
        let bytes = sector * 128..sector * 128 + 128;
        if !in_block {
            assert!(desk.image[bytes.clone()] == before[bytes]);
        }
    }
}
