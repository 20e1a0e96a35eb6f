//! When an FCB is current.

use crate::directory::{
    self, at as entry_at, name_is_plain, Directory, EXTENT_RECORDS, LAST_EX, LAST_S2,
};
use crate::diskette::Image;
use crate::fcb::{self, Fcb};
use crate::map::{pending, Map};

/// The entry of `user` that the FCB is current for, if it is current.
///
/// "Its bytes 1 to 11 obey the name rule; ex, s2 .. are in the ranges above; cr
/// (byte 32) is at most 128; an entry e of the session's user has its seven-bit
/// name and extent; and each slot j equals the entry's, or the entry's is 0 and
/// the FCB's block is noted pending for e, j." rc may be anything.
pub fn current(
    fcb: &Fcb,
    user: u8,
    image: &Image,
    map: &Map,
    directory: &Directory,
) -> Option<usize> {
    let name = fcb::name(fcb);
    if !name_is_plain(&name) || !numbers_in_range(fcb) {
        return None;
    }
    let entry = directory.extent(user, &name, fcb::extent(fcb))?;
    slots_are_current(fcb, image, map, entry).then_some(entry)
}

/// Whether ex, s2 and cr are in range; call 36 asks for no more.
pub fn numbers_in_range(fcb: &Fcb) -> bool {
    fcb[entry_at::EX] <= LAST_EX
        && fcb[entry_at::S2] <= LAST_S2
        && fcb[fcb::at::CR] <= EXTENT_RECORDS
}

/// Whether each slot is the entry's, or is 0 there and held for it.
fn slots_are_current(fcb: &Fcb, image: &Image, map: &Map, entry: usize) -> bool {
    let recorded = directory::slots(image, entry);
    let present = fcb::slots(fcb);
    // As a rule nothing is pending and the slots are simply the same.
    present == recorded
        || (0..16).all(|j| {
            let block = usize::from(present[j]);
            let held = || map.get(block) == Some(&pending(entry, j));
            present[j] == recorded[j] || (recorded[j] == 0 && held())
        })
}
