//! Dates: labels, date entries, and the stamps beside entries.
//!
//! "Directory labels (byte 0 20H) and date entries (21H, in every fourth
//! position) .. with create or access and update stamps: days since 1 January
//! 1978, where that day is 1, then hour and minute in BCD."

use crate::directory::{row_mut, Entries, Row};
use crate::diskette::Image;
use crate::Asked;

/// Byte 0 of a label.
pub const LABEL: u8 = 0x20;

/// Byte 0 of a date entry.
pub const DATES: u8 = 0x21;

/// A stamp: the day, low byte first, hour and minute.
type Stamp = [u8; STAMP_BYTES];

/// Bytes in a stamp.
const STAMP_BYTES: usize = 4;

/// The stamp of an entry that nothing has happened to.
const NEVER: Stamp = [0; STAMP_BYTES];

/// Where things stand in a label and in a date entry.
mod at {
    /// What a label asks for.
    pub const ASKS: usize = 12;
    /// The label's own two stamps.
    pub const OF_LABEL: [usize; 2] = [24, 28];
    /// The first stamp in a date entry.
    pub const FIRST: usize = 1;
    /// From what stands for one entry of the record to what stands for the
    /// next: two stamps, the mode and a reserved byte.
    pub const APART: usize = 10;
}

/// Bits of a label's byte 12.
mod bit {
    /// Stamps of files that are made.
    pub const CREATE: u8 = 1 << 4;
    /// Stamps of entries that are changed.
    pub const UPDATE: u8 = 1 << 5;
    /// Stamps of files that are opened.
    pub const ACCESS: u8 = 1 << 6;
}

/// Which stamp beside an entry.
#[derive(Clone, Copy)]
enum Which {
    /// The first: created, or last opened.
    CreateOrAccess,
    /// The second: last changed.
    Update,
}

/// Two decimal digits.
pub const fn is_bcd(byte: u8) -> bool {
    byte & 0x0F <= 9 && byte >> 4 <= 9
}

/// Where in its date entry a stamp for entry `entry` stands.
const fn stamp_place(entry: usize, which: Which) -> usize {
    at::FIRST + at::APART * (entry % 4) + STAMP_BYTES * which as usize
}

/// Whether hour and minute of the stamp at `place` are in BCD.
fn stamp_is_right(row: &Row, place: usize) -> bool {
    is_bcd(row[place + 2]) && is_bcd(row[place + 3])
}

/// The entries that are neither empty nor a file's, as one pass finds them.
pub struct Aside {
    labels: Entries,
    dates: Entries,
    /// Byte 12 of the label, 0 where there is none.
    asks: u8,
    /// A stamp is bad, or a label asks for what it can't have.
    faulty: bool,
}

impl Aside {
    /// Nothing found.
    pub const NONE: Self = Self {
        labels: Entries::NONE,
        dates: Entries::NONE,
        asks: 0,
        faulty: false,
    };

    /// Takes in a label: "Bad BCD on the disk, or a label asking for both
    /// create and access stamps, is 255, 1".
    pub fn take_label(&mut self, entry: usize, row: &Row) {
        const BOTH: u8 = bit::CREATE | bit::ACCESS;
        self.labels.add(entry);
        self.asks = row[at::ASKS];
        self.faulty |= self.asks & BOTH == BOTH;
        self.faulty |= !at::OF_LABEL.iter().all(|&at| stamp_is_right(row, at));
    }

    /// Takes in a date entry. The stamps beside empty entries have to be right
    /// too.
    pub fn take_dates(&mut self, entry: usize, row: &Row) {
        self.dates.add(entry);
        for before in 0..3 {
            for which in [Which::CreateOrAccess, Which::Update] {
                self.faulty |= !stamp_is_right(row, stamp_place(before, which));
            }
        }
    }

    /// "A disk has date entries in all fourth positions or none, and there is
    /// at most one label."
    pub fn is_right(&self) -> bool {
        let placed = self.dates.is_empty() || self.dates == Entries::FOURTHS;
        placed && self.labels.at_most_one() && !self.faulty
    }

    /// All of them.
    pub fn entries(&self) -> Entries {
        self.labels.and(self.dates)
    }
}

/// What stamps the entries of an image whose [`Aside`] is right, for one call.
#[derive(Clone, Copy)]
pub struct Stamper {
    /// "A disk without date entries is never stamped, whatever its label asks."
    dated: bool,
    asks: u8,
    now: Stamp,
}

impl Stamper {
    /// Stamps nothing.
    pub const NONE: Self = Self {
        dated: false,
        asks: 0,
        now: NEVER,
    };

    /// For the call that is asked for: the time is "stored as given".
    pub fn new(aside: &Aside, asked: Asked) -> Self {
        let [low, high] = asked.day.to_le_bytes();
        Self {
            dated: !aside.dates.is_empty(),
            asks: aside.asks,
            now: [low, high, asked.hour, asked.minute],
        }
    }

    /// Entry `entry` is new: "a new entry's stamps start at zero", whatever the
    /// label asks.
    pub fn begin(self, image: &mut Image, entry: usize) {
        self.put(image, entry, Which::CreateOrAccess, NEVER);
        self.put(image, entry, Which::Update, NEVER);
    }

    /// Entry `entry` was made by 22.
    pub fn created(self, image: &mut Image, entry: usize) {
        self.put_if_asked(bit::CREATE, image, entry, Which::CreateOrAccess);
    }

    /// Entry `entry` was opened by 15.
    pub fn opened(self, image: &mut Image, entry: usize) {
        self.put_if_asked(bit::ACCESS, image, entry, Which::CreateOrAccess);
    }

    /// Entry `entry` was changed by a close or a move.
    pub fn changed(self, image: &mut Image, entry: usize) {
        self.put_if_asked(bit::UPDATE, image, entry, Which::Update);
    }

    /// "Where the label asks".
    fn put_if_asked(self, asked: u8, image: &mut Image, entry: usize, which: Which) {
        if self.asks & asked != 0 {
            self.put(image, entry, which, self.now);
        }
    }

    /// Puts a stamp beside an entry, into the date entry of its record.
    fn put(self, image: &mut Image, entry: usize, which: Which, stamp: Stamp) {
        if self.dated {
            let dates = row_mut(image, entry | 3);
            dates[stamp_place(entry, which)..][..STAMP_BYTES].copy_from_slice(&stamp);
        }
    }
}

#[cfg(test)]
mod tests {
    use super::*;

    #[test]
    fn bcd_is_two_digits_up_to_9() {
        let digits = (0..=255).filter(|&byte| is_bcd(byte));
        assert!(digits.eq((0..100).map(|n| 16 * (n / 10) + n % 10)));
    }

    #[test]
    fn stamps_stand_where_the_text_has_them() {
        let places = [0, 1, 2].map(|entry| {
            [Which::CreateOrAccess, Which::Update].map(|which| stamp_place(60 + entry, which))
        });
        assert_eq!(places, [[1, 5], [11, 15], [21, 25]]);
    }
}
