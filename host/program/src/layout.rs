//! The layout of the diskette, its directory and its map, read plainly: what
//! `check`, `map` and `call` need to name a place, and `free` to count entries.
//! Nothing here changes an image.

use benzokamuri::{Image, BUFFER_LEN, ENTRIES, ENTRY_LEN, IMAGE_LEN, MAP_LEN};

/// Byte 0 of an empty entry, and every byte of an erased disk.
pub const ERASED: u8 = 0xE5;

/// Byte 0 of a label.
pub const LABEL: u8 = 0x20;

/// Byte 0 of a date entry.
pub const DATES: u8 = 0x21;

/// Where a label's own stamps begin: when it was made, and last changed.
pub const LABEL_STAMPS: [usize; 2] = [24, 28];

/// The bytes of a stamp: the day, low byte first, hour and minute.
pub const STAMP_LEN: usize = 4;

/// The block number past the last.
pub const BLOCKS: usize = MAP_LEN;

/// Blocks of the directory.
pub const AREA: usize = 2;

/// Records in a block.
pub const BLOCK_RECORDS: usize = 8;

/// Sectors on a track, and tracks before block 0.
const SECTORS: usize = 26;
const SYSTEM_TRACKS: usize = 2;

/// The physical sector, counted from 1, of a logical one (0 to 25).
fn physical(logical: usize) -> usize {
    6 * logical % SECTORS + logical / 13 + 1
}

/// Where a record (0 to 7) of a block (0 to 242) stands in the image.
pub fn place(block: usize, record: usize) -> usize {
    let d = BLOCK_RECORDS * block + record;
    let track = SYSTEM_TRACKS + d / SECTORS;
    (SECTORS * track + physical(d % SECTORS) - 1) * BUFFER_LEN
}

/// Where an entry (0 to 63) stands in the image.
pub fn entry_place(entry: usize) -> usize {
    let record = entry / 4;
    place(record / BLOCK_RECORDS, record % BLOCK_RECORDS) + ENTRY_LEN * (entry % 4)
}

/// The block and record whose bytes stand at a place of the image, if it
/// belongs to one.
pub fn record_at(place_in_image: usize) -> Option<(usize, usize)> {
    let sector = place_in_image / BUFFER_LEN;
    let track = (sector / SECTORS).checked_sub(SYSTEM_TRACKS)?;
    let logical = (0..SECTORS).find(|&logical| physical(logical) == sector % SECTORS + 1)?;
    let d = SECTORS * track + logical;
    let block = d / BLOCK_RECORDS;
    (block < BLOCKS && place_in_image < IMAGE_LEN).then_some((block, d % BLOCK_RECORDS))
}

/// A directory entry's fields.
#[derive(Clone, Copy, Debug, PartialEq, Eq)]
pub struct Row<'a>(pub &'a [u8]);

impl<'a> Row<'a> {
    /// An entry of an image.
    pub fn of(image: &'a Image, entry: usize) -> Row<'a> {
        Row(&image[entry_place(entry)..][..ENTRY_LEN])
    }

    /// Byte 0: the user, or what other kind of entry it is.
    pub fn user(self) -> u8 {
        self.0[0]
    }

    /// Whether the entry is a user's.
    pub fn is_used(self) -> bool {
        self.user() <= 15
    }

    /// Whether nothing stands here.
    pub fn is_empty(self) -> bool {
        self.user() == ERASED
    }

    /// Whether it is a label.
    pub fn is_label(self) -> bool {
        self.user() == LABEL
    }

    /// Whether it is a date entry.
    pub fn is_dates(self) -> bool {
        self.user() == DATES
    }

    /// Where its stamps begin, of which only labels and date entries have any.
    pub fn stamps(self) -> &'static [usize] {
        match self.user() {
            LABEL => &LABEL_STAMPS,
            DATES => &[1, 5, 11, 15, 21, 25],
            _ => &[],
        }
    }

    /// Whether a label asks for stamps of a kind.
    pub fn asks_for(self, stamp: Stamp) -> bool {
        self.0[Stamp::BYTE] & stamp.bit() != 0
    }

    /// Name and type with their attributes.
    pub fn name(self) -> [u8; 11] {
        std::array::from_fn(|i| self.0[1 + i])
    }

    /// The extent number.
    pub fn extent(self) -> u16 {
        32 * u16::from(self.0[14]) + u16::from(self.0[12])
    }

    /// The bytes used in a file's last record, or 0.
    pub fn s1(self) -> u8 {
        self.0[13]
    }

    /// The byte rc, whatever it is.
    pub fn rc(self) -> u8 {
        self.0[15]
    }

    /// The records that it counts: the smaller of rc and 128.
    pub fn count(self) -> u8 {
        self.rc().min(128)
    }

    /// The slots.
    pub fn slots(self) -> &'a [u8] {
        &self.0[16..]
    }

    /// The blocks that the slots list.
    pub fn blocks(self) -> impl Iterator<Item = u8> + 'a {
        self.slots().iter().copied().filter(|&block| block != 0)
    }
}

/// What a label may ask for.
#[derive(Clone, Copy, Debug, PartialEq, Eq)]
pub enum Stamp {
    /// When a file was made.
    Create,
    /// When it was last opened.
    Access,
    /// When it was last changed.
    Update,
}

impl Stamp {
    /// All of them. The first two share a place, so no label asks for both.
    pub const ALL: [Stamp; 3] = [Stamp::Create, Stamp::Access, Stamp::Update];

    /// The byte of a label that has the bits.
    pub const BYTE: usize = 12;

    /// Its bit there.
    pub const fn bit(self) -> u8 {
        match self {
            Stamp::Create => 1 << 4,
            Stamp::Update => 1 << 5,
            Stamp::Access => 1 << 6,
        }
    }

    /// What it is called.
    pub const fn name(self) -> &'static str {
        match self {
            Stamp::Create => "create",
            Stamp::Access => "access",
            Stamp::Update => "update",
        }
    }
}

/// What a note of the map says.
#[derive(Clone, Copy, Debug, PartialEq, Eq)]
pub enum Note {
    /// 0.
    Free,
    /// 1.
    Directory,
    /// 2.
    Recorded,
    /// 16 + 16e + j.
    Pending {
        /// e.
        entry: usize,
        /// j.
        slot: usize,
    },
    /// Any other number.
    Meaningless,
}

impl Note {
    /// Reads a note.
    pub fn read(note: u16) -> Note {
        match note {
            0 => Note::Free,
            1 => Note::Directory,
            2 => Note::Recorded,
            3..=15 => Note::Meaningless,
            _ => {
                let number = usize::from(note) - 16;
                let (entry, slot) = (number / 16, number % 16);
                match entry < ENTRIES {
                    true => Note::Pending { entry, slot },
                    false => Note::Meaningless,
                }
            }
        }
    }
}

impl std::fmt::Display for Note {
    fn fmt(&self, f: &mut std::fmt::Formatter) -> std::fmt::Result {
        match self {
            Note::Free => f.write_str("free"),
            Note::Directory => f.write_str("directory"),
            Note::Recorded => f.write_str("recorded"),
            Note::Pending { entry, slot } => {
                write!(f, "pending for slot {slot} of entry {entry}")
            }
            Note::Meaningless => f.write_str("of no meaning"),
        }
    }
}

#[cfg(test)]
mod tests {
    use super::*;

    #[test]
    fn the_published_sectors() {
        let published = [
            1, 7, 13, 19, 25, 5, 11, 17, 23, 3, 9, 15, 21, 2, 8, 14, 20, 26, 6, 12, 18, 24, 4, 10,
            16, 22,
        ];
        let computed: [usize; SECTORS] = std::array::from_fn(physical);
        assert_eq!(computed, published);
    }

    #[test]
    fn checked_examples_a_to_d() {
        assert_eq!(place(0, 0), 6_656);
        assert_eq!(place(0, 1), 7_424);
        assert_eq!(place(3, 2), 9_984);
        assert_eq!(place(242, 7), 254_336);
    }

    #[test]
    fn places_and_records_go_together() {
        for block in 0..BLOCKS {
            for record in 0..BLOCK_RECORDS {
                let at = place(block, record);
                assert_eq!(record_at(at), Some((block, record)));
                assert_eq!(record_at(at + 127), Some((block, record)));
            }
        }
        let none = (0..IMAGE_LEN).step_by(BUFFER_LEN);
        let none = none.filter(|&at| record_at(at).is_none()).count();
        assert_eq!(none, 2 * 26 + 6);
        assert_eq!(record_at(IMAGE_LEN), None);
        assert_eq!(entry_place(0), 6_656);
        assert_eq!(entry_place(5), 7_424 + 32);
    }

    #[test]
    fn notes() {
        assert_eq!(Note::read(16), Note::Pending { entry: 0, slot: 0 });
        let last = Note::Pending {
            entry: 63,
            slot: 15,
        };
        assert_eq!(Note::read(1_039), last);
        assert_eq!(Note::read(1_040), Note::Meaningless);
        assert_eq!(Note::read(15), Note::Meaningless);
        assert_eq!(last.to_string(), "pending for slot 15 of entry 63");
    }
}
