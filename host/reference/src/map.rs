//! The map: one note a block.
//!
//! "The note for a block is 0 free, 1 directory area (blocks 0 and 1), 2
//! recorded, or 16 + 16e + j: pending for slot j of entry e."

use crate::directory::{Directory, Entries, ENTRIES};
use crate::diskette::BLOCKS;

/// What the map says of one block.
pub type Note = u16;

/// A whole map of the right length.
pub type Map = [Note; BLOCKS];

/// The block is free.
pub const FREE: Note = 0;

/// The block is the directory's.
pub const AREA: Note = 1;

/// The block is listed by a used entry.
pub const RECORDED: Note = 2;

/// The lowest pending note: slot 0 of entry 0.
const PENDING: Note = 16;

/// Slots of an entry, and so pending notes for one entry.
const SLOTS: Note = 16;

/// The note of a block pending for slot `slot` (0 to 15) of entry `entry`.
pub fn pending(entry: usize, slot: usize) -> Note {
    PENDING + SLOTS * entry as Note + slot as Note
}

/// The entry a block with this note is pending for, if any.
pub fn pending_for(note: Note) -> Option<usize> {
    let entry = usize::from(note.checked_sub(PENDING)? / SLOTS);
    (entry < ENTRIES).then_some(entry)
}

/// "The map is right when 1 stands at exactly blocks 0 and 1, 2 at exactly the
/// blocks some used entry lists, and every other note is 0 or pending for a
/// used entry." In other words: each note is the fresh map's, or the fresh map
/// has 0 there and the note is pending for a used entry.
pub fn is_right(map: &Map, directory: &Directory) -> bool {
    let fresh = directory.fresh_map();
    let used = directory.used();
    // Pending notes are few. Sixteen notes at a time are the fresh map's as a
    // rule, and only where they are not is each looked at.
    let (map, map_end) = map.as_chunks::<16>();
    let (fresh, fresh_end) = fresh.as_chunks::<16>();
    let mut pairs = map.iter().zip(fresh);
    pairs.all(|(notes, fresh)| notes == fresh || notes_are_right(notes, fresh, used))
        && notes_are_right(map_end, fresh_end, used)
}

/// The same, note by note.
fn notes_are_right(notes: &[Note], fresh: &[Note], used: Entries) -> bool {
    notes.iter().zip(fresh).all(|(&note, &fresh)| {
        let held = || pending_for(note).is_some_and(|entry| used.holds(entry));
        note == fresh || (fresh == FREE && held())
    })
}

/// The first free block.
pub fn first_free(map: &Map) -> Option<u8> {
    map.iter()
        .position(|&note| note == FREE)
        .map(|block| block as u8)
}

/// How many notes are 0.
pub fn count_free(map: &Map) -> u16 {
    map.iter().map(|&note| u16::from(note == FREE)).sum()
}

/// Frees the blocks that are pending for one of `entries`.
pub fn free_pending_for(map: &mut Map, entries: Entries) {
    for note in map {
        if pending_for(*note).is_some_and(|entry| entries.holds(entry)) {
            *note = FREE;
        }
    }
}

#[cfg(test)]
mod tests {
    use super::*;

    #[test]
    fn pending_notes_tell_their_entry() {
        assert_eq!(pending(0, 0), 16);
        assert_eq!(pending(63, 15), 1_039);
        assert_eq!(pending_for(15), None);
        assert_eq!(pending_for(1_040), None);
        assert_eq!(pending_for(u16::MAX), None);
        for entry in 0..ENTRIES {
            for slot in 0..16 {
                assert_eq!(pending_for(pending(entry, slot)), Some(entry));
            }
        }
    }

    #[test]
    fn free_blocks_are_found_and_counted() {
        let mut map = [RECORDED; BLOCKS];
        assert_eq!((first_free(&map), count_free(&map)), (None, 0));
        map[242] = FREE;
        assert_eq!((first_free(&map), count_free(&map)), (Some(242), 1));
        map[17] = FREE;
        assert_eq!((first_free(&map), count_free(&map)), (Some(17), 2));
    }
}
