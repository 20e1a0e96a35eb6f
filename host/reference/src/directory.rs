//! Directory entries: their layout, the name rule, when an image is
//! consistent, and how entries are found.
//!
//! Every call has to know whether the image is consistent, so that check is
//! what a call costs. [`Directory::gather`] makes it in one pass over the 64
//! entries and keeps what the rest of the call asks for again: the identity of
//! each entry, which entries are used, and the fresh map.

use crate::dates::{Aside, DATES, LABEL};
use crate::diskette::{Image, BLOCKS, DIRECTORY_PLACES, RECORD_BYTES};
use crate::map::{Note, AREA, FREE, RECORDED};

/// Entries in the directory.
pub const ENTRIES: usize = 64;

/// Bytes in an entry.
pub const ROW_BYTES: usize = 32;

/// Byte 0 of an empty entry.
pub const EMPTY: u8 = 0xE5;

/// The highest user number.
pub const LAST_USER: u8 = 15;

/// The highest ex and s2.
pub const LAST_EX: u8 = 31;
/// See [`LAST_EX`].
pub const LAST_S2: u8 = 63;

/// The records of an extent: what an rc can count, and the highest cr.
pub const EXTENT_RECORDS: u8 = 128;

/// In a pattern, 3FH stands for anything.
pub const ANY: u8 = 0x3F;

/// The bit of a name byte that is an attribute and no part of the name.
pub const ATTRIBUTE: u8 = 0x80;

/// Where things stand in an entry. Bytes 1 to 31 of an FCB are laid out alike.
pub mod at {
    use std::ops::Range;

    /// The user, or [`EMPTY`](super::EMPTY), or the byte of a label or a date
    /// entry.
    pub const USER: usize = 0;
    /// Name and type.
    pub const NAME: usize = 1;
    /// Past name and type.
    pub const NAME_END: usize = 12;
    /// t1', the read-only attribute, is the high bit of this name byte.
    pub const T1: usize = 9;
    /// The low five bits of the extent number.
    pub const EX: usize = 12;
    /// The high six bits of the extent number.
    pub const S2: usize = 14;
    /// rc, which [`count`](super::count) makes a record count of.
    pub const RC: usize = 15;
    /// The first of sixteen slots.
    pub const SLOTS: usize = 16;
    /// What open and move copy from an entry to the FCB.
    pub const COPIED: Range<usize> = 1..32;
    /// Name bytes whose high bits open clears in the FCB (f5' to f8').
    pub const INTERFACE: Range<usize> = 5..9;
}

/// One entry.
pub type Row = [u8; ROW_BYTES];

/// Name and type, high bits as found.
pub type Name = [u8; 11];

/// The slots of an entry or FCB.
pub type Slots = [u8; 16];

/// "The extent number is 32 × s2 + ex."
pub fn extent_number(ex: u8, s2: u8) -> u16 {
    32 * u16::from(s2) + u16::from(ex)
}

/// The records that an entry or FCB counts by its rc: "the smaller of rc and
/// 128 for every byte value".
pub fn count(rc: u8) -> u8 {
    rc.min(EXTENT_RECORDS)
}

// ---------------------------------------------------------------------------
// The name rule
// ---------------------------------------------------------------------------

/// A byte without its attribute: "Names, and 3FH in them, are compared by the
/// low seven bits."
pub const fn seven_bits(byte: u8) -> u8 {
    byte & !ATTRIBUTE
}

/// The name rule: "low seven bits of each name byte in 20H to 7EH, not 3FH,
/// the first not 20H".
pub fn name_is_plain(name: &Name) -> bool {
    pattern_is_plain(name) && name.iter().all(|&byte| seven_bits(byte) != ANY)
}

/// The name rule with "3FH allowed".
pub fn pattern_is_plain(name: &Name) -> bool {
    name.iter()
        .all(|&byte| (0x20..=0x7E).contains(&seven_bits(byte)))
        && seven_bits(name[0]) != 0x20
}

// ---------------------------------------------------------------------------
// What entries are told apart by, and how they are asked for
// ---------------------------------------------------------------------------

/// The first sixteen bytes of an entry as one number, byte 0 lowest.
type Head = u128;

/// The bits of a head that tell entries apart: "user, seven-bit name and
/// extent". s1 and rc are left out, and attributes are too.
const IDENTITY: Head = head(0xFF, &[0x7F; 11], 0xFF, 0xFF);

/// The bits of a head that ex and s2 take up.
const EXTENT: Head = head(0, &[0; 11], 0xFF, 0xFF);

/// Lays out the parts of a head, with s1 and rc 0.
const fn head(user: u8, name: &Name, ex: u8, s2: u8) -> Head {
    let mut bytes = [0; 16];
    bytes[at::USER] = user;
    let mut i = 0;
    while i < name.len() {
        bytes[at::NAME + i] = name[i];
        i += 1;
    }
    bytes[at::EX] = ex;
    bytes[at::S2] = s2;
    Head::from_le_bytes(bytes)
}

/// What a call looks for: heads that agree with `head` in all bits of `care`.
#[derive(Clone, Copy)]
pub struct Wanted {
    head: Head,
    care: Head,
}

impl Wanted {
    /// All extents of this user and seven-bit name.
    pub fn file(user: u8, name: &Name) -> Self {
        Self::bits(head(user, name, 0, 0), IDENTITY & !EXTENT)
    }

    /// All extents of this user whose name matches: "3FH in a name place
    /// matches anything".
    pub fn files(user: u8, pattern: &Name) -> Self {
        let care = pattern.map(|byte| if seven_bits(byte) == ANY { 0 } else { 0x7F });
        Self::bits(head(user, pattern, 0, 0), head(0xFF, &care, 0, 0))
    }

    /// What searches look for: "3FH in byte 12 matches any extent, another
    /// value needs ex equal and s2 0".
    pub fn search(user: u8, pattern: &[u8; 12]) -> Self {
        let [name @ .., byte_12] = pattern;
        let files = Self::files(user, name);
        if *byte_12 == ANY {
            return files;
        }
        Self::bits(
            files.head | head(0, &[0; 11], *byte_12, 0),
            files.care | EXTENT,
        )
    }

    /// Whether an entry with this head is asked for.
    fn is(&self, head: Head) -> bool {
        (head ^ self.head) & self.care == 0
    }

    fn bits(head: Head, care: Head) -> Self {
        Self {
            head: head & care,
            care,
        }
    }
}

/// A set of entry numbers, one bit each.
#[derive(Clone, Copy, Debug, PartialEq, Eq)]
pub struct Entries(u64);

impl Entries {
    /// No entry at all.
    pub const NONE: Self = Self(0);

    /// The fourth entry of every record.
    pub const FOURTHS: Self = Self(0x8888_8888_8888_8888);

    /// Takes in entry `entry`, 0 to 63.
    pub fn add(&mut self, entry: usize) {
        self.0 |= 1 << entry;
    }

    /// Those of either set.
    pub fn and(self, others: Self) -> Self {
        Self(self.0 | others.0)
    }

    /// All but these.
    pub fn others(self) -> Self {
        Self(!self.0)
    }

    /// Whether there is one or none.
    pub fn at_most_one(self) -> bool {
        self.0.count_ones() <= 1
    }

    /// The lowest-numbered: "'First' means lowest-numbered."
    pub fn first(self) -> Option<usize> {
        (!self.is_empty()).then(|| self.0.trailing_zeros() as usize)
    }

    /// Whether there is none.
    pub fn is_empty(self) -> bool {
        self.0 == 0
    }

    /// Whether entry `entry` is one of them; numbers over 63 are not.
    pub fn holds(self, entry: usize) -> bool {
        entry < ENTRIES && self.0 >> entry & 1 == 1
    }

    /// Each of them, lowest-numbered first.
    pub fn each(self) -> impl Iterator<Item = usize> {
        let mut rest = self;
        std::iter::from_fn(move || {
            let entry = rest.first()?;
            rest.0 &= rest.0 - 1;
            Some(entry)
        })
    }
}

// ---------------------------------------------------------------------------
// Entries in the image
// ---------------------------------------------------------------------------

/// Where entry `entry` (0 to 63) stands in the image.
fn place_of(entry: usize) -> usize {
    DIRECTORY_PLACES[entry / 4] + ROW_BYTES * (entry % 4)
}

/// Entry `entry`, 0 to 63.
pub fn row(image: &Image, entry: usize) -> &[u8] {
    &image[place_of(entry)..][..ROW_BYTES]
}

/// Entry `entry`, 0 to 63, to be changed.
pub fn row_mut(image: &mut Image, entry: usize) -> &mut [u8] {
    &mut image[place_of(entry)..][..ROW_BYTES]
}

/// "The directory record of four entries holding" entry `entry`.
pub fn record_holding(image: &Image, entry: usize) -> &[u8] {
    &image[DIRECTORY_PLACES[entry / 4]..][..RECORD_BYTES]
}

/// Whether t1' is set in entry `entry`.
pub fn is_read_only(image: &Image, entry: usize) -> bool {
    row(image, entry)[at::T1] & ATTRIBUTE != 0
}

/// The slots of entry `entry`.
pub fn slots(image: &Image, entry: usize) -> Slots {
    let row = row(image, entry);
    std::array::from_fn(|j| row[at::SLOTS + j])
}

// ---------------------------------------------------------------------------
// Consistency
// ---------------------------------------------------------------------------

/// Sixteen bytes side by side, the first or the second half of an entry.
type Half = [u8; 16];

/// The first half of an entry as it has to be when used. The byte under `MASK`
/// has to be in `LOW` to `LOW + SPAN` and must not be `BARRED`.
mod allowed {
    use super::{Half, ANY, LAST_EX, LAST_S2, LAST_USER};

    /// Attributes are no part of a name, and s1 and rc may be anything.
    pub const MASK: Half = half(0xFF, 0x7F, 0x7F, [0xFF, 0, 0xFF, 0]);
    /// "20H to 7EH", "the first not 20H".
    pub const LOW: Half = half(0, 0x21, 0x20, [0; 4]);
    /// How far up from `LOW`.
    pub const SPAN: Half = half(LAST_USER, 0x5D, 0x5E, [LAST_EX, 0, LAST_S2, 0]);
    /// "Not 3FH" in the name; elsewhere FFH, which is out of range anyway.
    pub const BARRED: Half = half(0xFF, ANY, ANY, [0xFF; 4]);

    /// User, first name byte, ten other name bytes, then ex, s1, s2 and rc.
    const fn half(user: u8, first: u8, other: u8, rest: [u8; 4]) -> Half {
        let mut bytes = [other; 16];
        bytes[0] = user;
        bytes[1] = first;
        let mut i = 0;
        while i < rest.len() {
            bytes[12 + i] = rest[i];
            i += 1;
        }
        bytes
    }
}

/// Faults in the first halves of used entries, byte place by byte place: not 0
/// where a byte was not allowed. The sixteen places are treated alike and none
/// is waited for, so that they can be done at once.
struct Faults(Half);

impl Faults {
    const NONE: Self = Self([0; 16]);

    /// Looks at the first half of a used entry.
    fn look(&mut self, half: &Half) {
        for (i, faults) in self.0.iter_mut().enumerate() {
            let byte = half[i] & allowed::MASK[i];
            let up = byte.wrapping_sub(allowed::LOW[i]);
            let barred = u8::from(byte == allowed::BARRED[i]);
            *faults |= up.saturating_sub(allowed::SPAN[i]) | barred;
        }
    }

    /// Whether every byte was allowed.
    fn none(&self) -> bool {
        self.0 == [0; 16]
    }
}

/// A count of the slots that list a block, in eight columns side by side. No
/// column passes 128: there are 64 entries of twice eight slots.
struct Listings(u64);

impl Listings {
    const NONE: Self = Self(0);

    /// Adds one to each column whose slot is not 0.
    fn count(&mut self, eight: u64) {
        const SEVEN: u64 = 0x7F7F_7F7F_7F7F_7F7F;
        // A byte's high bit is reached from any bit below, or is set itself;
        // nothing goes over into the next byte.
        let not_0 = (((eight & SEVEN) + SEVEN) | eight) & !SEVEN;
        self.0 += not_0 >> 7;
    }

    /// All columns together.
    fn total(&self) -> Note {
        self.0.to_le_bytes().into_iter().map(Note::from).sum()
    }
}

/// Where entries are found by what tells them apart, without a walk over all:
/// one mark a used entry, in the first free place from the one its identity
/// gives. Identities are compared only where a mark is already set.
struct Marks {
    /// One more than the entry whose mark it is, 0 where there is none. With
    /// four places for each entry, marks seldom meet and one place is always
    /// free.
    places: [u8; 4 * ENTRIES],
}

impl Marks {
    const NONE: Self = Self {
        places: [0; 4 * ENTRIES],
    };

    /// The entry with this identity, or else the place for its mark.
    fn find(&self, heads: &[Head; ENTRIES], head: Head) -> Result<usize, u8> {
        let mut place = Self::first_place(head);
        loop {
            let Some(entry) = self.places[usize::from(place)].checked_sub(1) else {
                return Err(place);
            };
            let entry = usize::from(entry) % ENTRIES;
            if heads[entry] == head {
                return Ok(entry);
            }
            place = place.wrapping_add(1);
        }
    }

    fn set(&mut self, place: u8, entry: usize) {
        self.places[usize::from(place)] = entry as u8 + 1;
    }

    /// Any spread over all places will do.
    fn first_place(head: Head) -> u8 {
        let (low, high) = (head as u64, (head >> 64) as u64);
        let mixed = (low ^ high.rotate_left(23)).wrapping_mul(0x9E37_79B9_7F4A_7C15);
        (mixed >> 56) as u8
    }
}

/// What one pass over the entries of a consistent image tells.
pub struct Directory {
    /// What tells each used entry apart, and [`NOBODY`] for empty ones.
    heads: [Head; ENTRIES],
    /// Where in `heads` to look.
    marks: Marks,
    /// The used entries.
    used: Entries,
    /// Labels and date entries.
    aside: Aside,
    /// The fresh map, with room for every block number a byte can hold.
    fresh: [Note; 256],
}

/// Stands for an empty entry. Its user is 255, which nobody asks for.
const NOBODY: Head = Head::MAX;

impl Directory {
    /// Nothing gathered yet.
    pub fn unread() -> Self {
        Self {
            heads: [NOBODY; ENTRIES],
            marks: Marks::NONE,
            used: Entries::NONE,
            aside: Aside::NONE,
            fresh: [FREE; 256],
        }
    }

    /// Reads the entries of `image` and tells whether it is consistent. If it
    /// is not, what was gathered means nothing.
    pub fn gather(&mut self, image: &Image) -> bool {
        let mut faults = Faults::NONE;
        let mut listings = Listings::NONE;
        let mut twice = false;
        for (number, &place) in DIRECTORY_PLACES.iter().enumerate() {
            let (rows, _) = image[place..][..RECORD_BYTES].as_chunks::<ROW_BYTES>();
            for (i, row) in rows.iter().enumerate() {
                let entry = 4 * number + i;
                match row[at::USER] {
                    EMPTY => continue,
                    // "These two kinds are allowed and list no blocks."
                    LABEL => self.aside.take_label(entry, row),
                    DATES => self.aside.take_dates(entry, row),
                    _ => {
                        let (halves, _) = row.as_chunks::<16>();
                        self.used.add(entry);
                        faults.look(&halves[0]);
                        twice |= self.take_head(entry, &halves[0]);
                        self.take_slots(&halves[1], &mut listings);
                    }
                }
            }
        }
        let files_are_right = faults.none() && !twice && self.finish_map(listings.total());
        files_are_right && self.aside.is_right()
    }

    /// Takes in what tells used entry `entry` apart, and whether another has
    /// the same: "no two used entries agree in user, seven-bit name and
    /// extent".
    fn take_head(&mut self, entry: usize, half: &Half) -> bool {
        let head = Head::from_le_bytes(*half) & IDENTITY;
        match self.marks.find(&self.heads, head) {
            Ok(_) => true,
            Err(place) => {
                self.marks.set(place, entry);
                self.heads[entry % ENTRIES] = head;
                false
            }
        }
    }

    /// Takes in the slots of a used entry.
    fn take_slots(&mut self, slots: &Slots, listings: &mut Listings) {
        for eight in slots.as_chunks::<8>().0 {
            let together = u64::from_le_bytes(*eight);
            // Half the slots of an entry often list nothing at all.
            if together != 0 {
                listings.count(together);
                for &block in eight {
                    self.fresh[usize::from(block)] = RECORDED;
                }
            }
        }
    }

    /// Ends the fresh map, and tells whether each slot lists a block it may
    /// and no block stands twice. A block stands twice exactly when fewer
    /// blocks are listed than slots list one.
    fn finish_map(&mut self, listings: Note) -> bool {
        // Slots of 0 have set the note of block 0; they list nothing.
        self.fresh[0] = FREE;
        let listed: Note = self.fresh[2..BLOCKS].iter().sum::<Note>() / RECORDED;
        // "Each slot 0 or 2 to 242".
        let beyond: Note = self.fresh[BLOCKS..].iter().sum();
        let sound = self.fresh[1] + beyond == FREE && listed == listings;
        self.fresh[..2].fill(AREA);
        sound
    }

    /// The used entries.
    pub fn used(&self) -> Entries {
        self.used
    }

    /// Labels and date entries.
    pub fn aside(&self) -> &Aside {
        &self.aside
    }

    /// The first empty entry: one that is neither a file's nor aside.
    pub fn first_empty(&self) -> Option<usize> {
        self.used.and(self.aside.entries()).others().first()
    }

    /// "The fresh map has no pending notes."
    pub fn fresh_map(&self) -> &[Note] {
        &self.fresh[..BLOCKS]
    }

    /// The entry of this user, seven-bit name and extent.
    pub fn extent(&self, user: u8, name: &Name, extent: u16) -> Option<usize> {
        let (ex, s2) = ((extent % 32) as u8, (extent / 32) as u8);
        let head = head(user, name, ex, s2) & IDENTITY;
        self.marks.find(&self.heads, head).ok()
    }

    /// The used entries that `wanted` asks for.
    pub fn find(&self, wanted: Wanted) -> Entries {
        let found = self
            .heads
            .iter()
            .rev()
            .fold(0, |found, &head| found << 1 | u64::from(wanted.is(head)));
        Entries(found)
    }

    /// The first entry numbered `place` or higher that `wanted` asks for.
    pub fn find_from(&self, place: u16, wanted: Wanted) -> Option<usize> {
        let mut heads = self.heads.iter().enumerate().skip(usize::from(place));
        heads
            .find(|(_, &head)| wanted.is(head))
            .map(|(entry, _)| entry)
    }
}

#[cfg(test)]
mod tests {
    use super::*;

    const NAME: Name = *b"ABCDEFGHTXT";

    fn used_row() -> Row {
        let mut row = [0; ROW_BYTES];
        row[at::NAME..at::NAME_END].copy_from_slice(&NAME);
        row
    }

    fn image_with(rows: &[(usize, Row)]) -> Box<Image> {
        let bytes = vec![EMPTY; crate::diskette::IMAGE_BYTES].into_boxed_slice();
        let mut image: Box<Image> = bytes.try_into().unwrap();
        for (entry, row) in rows {
            row_mut(&mut image, *entry).copy_from_slice(row);
        }
        image
    }

    fn consistent(rows: &[(usize, Row)]) -> bool {
        Directory::unread().gather(&image_with(rows))
    }

    fn gathered(rows: &[(usize, Row)]) -> Directory {
        let mut directory = Directory::unread();
        assert!(directory.gather(&image_with(rows)));
        directory
    }

    /// The values that byte `at` of a used entry may have.
    fn values_allowed_at(at: usize) -> Vec<u8> {
        let is_used = |row: &Row| ![EMPTY, LABEL, DATES].contains(&row[at::USER]);
        (0..=255)
            .filter(|&byte| {
                let mut row = used_row();
                row[at] = byte;
                is_used(&row) && consistent(&[(9, row)])
            })
            .collect()
    }

    #[test]
    fn checked_example_j_and_every_other_slot_value() {
        let allowed: Vec<u8> = std::iter::once(0).chain(2..=242).collect();
        assert_eq!(values_allowed_at(at::SLOTS), allowed);
        assert_eq!(values_allowed_at(at::SLOTS + 15), allowed);
    }

    #[test]
    fn every_value_of_the_numbers() {
        assert!(values_allowed_at(at::USER).into_iter().eq(0..=15));
        assert!(values_allowed_at(at::EX).into_iter().eq(0..=31));
        assert_eq!(values_allowed_at(at::EX + 1).len(), 256, "s1 is free");
        assert!(values_allowed_at(at::S2).into_iter().eq(0..=63));
        assert!(values_allowed_at(at::RC).into_iter().eq(0..=255));
    }

    #[test]
    fn every_value_of_the_name_bytes() {
        for at in at::NAME..at::NAME_END {
            let expected: Vec<u8> = (0..=255u8)
                .filter(|byte| {
                    let low = byte & 0x7F;
                    (0x20..=0x7E).contains(&low) && low != 0x3F && (at != at::NAME || low != 0x20)
                })
                .collect();
            assert_eq!(values_allowed_at(at), expected, "byte {at}");
        }
    }

    #[test]
    fn the_name_rule_and_the_entry_rule_agree() {
        for i in 0..11 {
            for byte in 0..=255 {
                let mut name = NAME;
                name[i] = byte;
                let mut row = used_row();
                row[at::NAME..at::NAME_END].copy_from_slice(&name);
                assert_eq!(name_is_plain(&name), consistent(&[(0, row)]));
                let wild = seven_bits(byte) == ANY;
                assert_eq!(pattern_is_plain(&name), name_is_plain(&name) || wild);
            }
        }
    }

    #[test]
    fn a_block_stands_once() {
        let mut row = used_row();
        row[at::SLOTS] = 7;
        row[at::SLOTS + 9] = 8;
        assert!(consistent(&[(3, row)]));
        row[at::SLOTS + 9] = 7;
        assert!(!consistent(&[(3, row)]));

        row[at::SLOTS + 9] = 0;
        let mut other = row;
        other[at::EX] = 1;
        assert!(!consistent(&[(3, row), (60, other)]));
        other[at::SLOTS] = 9;
        assert!(consistent(&[(3, row), (60, other)]));
        other[at::SLOTS] = 7;
        other[at::USER] = EMPTY;
        assert!(consistent(&[(3, row), (60, other)]), "empty lists nothing");
    }

    #[test]
    fn an_identity_stands_once() {
        let row = used_row();
        for (at, byte) in [
            (at::USER, 1),
            (at::NAME + 5, b'Z'),
            (at::EX, 1),
            (at::S2, 1),
        ] {
            let mut other = row;
            other[at] = byte;
            assert!(
                consistent(&[(63, row), (0, other)]),
                "byte {at} tells apart"
            );
        }
        for (at, byte) in [(at::NAME + 5, NAME[5] | 0x80), (at::EX + 1, 1), (at::RC, 1)] {
            let mut other = row;
            other[at] = byte;
            assert!(!consistent(&[(63, row), (0, other)]), "byte {at} does not");
        }
    }

    #[test]
    fn a_full_directory_of_one_name_is_consistent_until_one_stands_twice() {
        let mut rows: Vec<(usize, Row)> = (0..ENTRIES)
            .map(|entry| {
                let mut row = used_row();
                row[at::EX] = entry as u8 % 32;
                row[at::S2] = entry as u8 / 32;
                (entry, row)
            })
            .collect();
        assert!(consistent(&rows));
        let directory = gathered(&rows);
        assert_eq!(directory.first_empty(), None);
        assert_eq!(directory.used().each().count(), ENTRIES);
        for entry in 0..ENTRIES - 1 {
            rows[63] = (63, rows[entry].1);
            assert!(!consistent(&rows));
        }
    }

    #[test]
    fn checked_example_i() {
        let mut other = used_row();
        other[at::NAME] |= 0x80;
        other[at::NAME + 10] = b'!';
        other[at::S2] = 40;
        let directory = gathered(&[(5, used_row()), (50, other)]);
        let found = directory.find(Wanted::files(0, &[ANY; 11]));
        assert!(found.each().eq([5, 50]));
        let found = directory.find(Wanted::files(0, &[ANY | 0x80; 11]));
        assert!(found.each().eq([5, 50]), "BFH counts as 3FH");
        assert!(directory.find(Wanted::files(1, &[ANY; 11])).is_empty());
    }

    #[test]
    fn searches_look_at_byte_12_as_it_is() {
        let mut far = used_row();
        far[at::EX] = 3;
        far[at::S2] = 1;
        let mut near = used_row();
        near[at::EX] = 3;
        let directory = gathered(&[(1, far), (2, near), (3, used_row())]);
        let find = |byte_12: u8| {
            let mut pattern = [ANY; 12];
            pattern[11] = byte_12;
            let found = directory.find(Wanted::search(0, &pattern));
            found.each().collect::<Vec<_>>()
        };
        assert_eq!(find(0x3F), [1, 2, 3]);
        assert_eq!(find(0xBF), [0usize; 0]);
        assert_eq!(find(3), [2]);
        assert_eq!(find(0), [3]);
        assert_eq!(find(35), [0usize; 0]);
    }

    #[test]
    fn sets_of_entries() {
        let set = Entries(1 << 63 | 1 << 4 | 1);
        assert_eq!(set.first(), Some(0));
        assert_eq!(Entries(1 << 63).first(), Some(63));
        assert_eq!(Entries(0).first(), None);
        assert!(set.each().eq([0, 4, 63]));
        assert!(set.holds(63) && !set.holds(62) && !set.holds(64));
        assert!(Entries::FOURTHS
            .each()
            .eq((0..ENTRIES).filter(|e| e % 4 == 3)));
        let mut added = Entries::NONE;
        assert!(added.at_most_one());
        added.add(63);
        assert!(added == Entries(1 << 63) && added.at_most_one());
        assert!(!set.at_most_one() && added.and(Entries(1 << 4 | 1)) == set);
        assert!(!set.others().holds(4) && set.others().holds(5));
    }
}
