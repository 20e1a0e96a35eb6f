//! The word picker: the word of a day out of a book, and a log of the days that
//! were picked.
//!
//! It is written apart from the one above the proved calls, and makes no calls
//! at all: it looks at the directory, the map and the records, tells from them
//! how the run ends, and puts the log's new record down with all that belongs to
//! it. [`pick`] asks in the order in which troubles are told.

use crate::dates::{is_bcd, Stamper};
use crate::directory::{
    at, count, extent_number, is_read_only, name_is_plain, row, row_mut, seven_bits, Directory,
    Entries, Name, Wanted as Asking, EXTENT_RECORDS, LAST_USER, ROW_BYTES,
};
use crate::diskette::{record, record_mut, Image, Record, RECORD_BYTES};
use crate::map::{self, Map, RECORDED};
use crate::{Asked, Session};
use std::io::Write;

/// The highest day of a year, counted from 0.
const LAST_DAY: u16 = 365;

/// The records of a log that is full.
const FULL_LOG: u32 = 1_024;

/// The bytes of a log record that tell its year and day.
const STAMP_BYTES: usize = 9;

/// What fills up a text.
const FILLING: u8 = 0x1A;

/// What is wanted: the word of a day of a year, out of a book, with a log.
#[derive(Clone, Copy, Debug, PartialEq, Eq)]
pub struct Wanted {
    /// The year.
    pub year: u16,
    /// The day, counted from 0.
    pub day: u16,
    /// Name and type of the book.
    pub book: [u8; 11],
    /// Name and type of the log.
    pub log: [u8; 11],
}

/// The time at which it is wanted.
#[derive(Clone, Copy, Debug, Default, PartialEq, Eq)]
pub struct Time {
    /// The day, where 1 January 1978 is 1.
    pub day: u16,
    /// The hour, in BCD.
    pub hour: u8,
    /// The minute, in BCD.
    pub minute: u8,
}

/// How a run ends.
#[derive(Clone, Copy, Debug, PartialEq, Eq)]
pub enum Pick {
    /// The day was picked, and is in the log now.
    Logged,
    /// The log had the day.
    Again,
    /// The day is over 365.
    DayOver,
    /// The book has no extent 0.
    NoBook,
    /// The day's record is not in the book.
    NoWord,
    /// Book and log are one file.
    OneFile,
    /// The log has entries, but no extent 0.
    NoFirst,
    /// The log has 1,024 records or more.
    LogFull,
    /// The log is read-only.
    LogReadOnly,
    /// The log needs an entry and none is empty.
    DirectoryFull,
    /// The log needs a block and none is free.
    DiskFull,
    /// Any other refusal.
    Other {
        /// Its A.
        a: u8,
        /// Its H.
        h: u8,
    },
}

impl Pick {
    /// The number that hosts are told.
    pub const fn number(self) -> u8 {
        match self {
            Pick::Logged => 0,
            Pick::Again => 1,
            Pick::DayOver => 2,
            Pick::NoBook => 3,
            Pick::NoWord => 4,
            Pick::OneFile => 5,
            Pick::NoFirst => 6,
            Pick::LogFull => 7,
            Pick::LogReadOnly => 8,
            Pick::DirectoryFull => 9,
            Pick::DiskFull => 10,
            Pick::Other { .. } => 11,
        }
    }
}

/// What a run tells.
#[derive(Clone, Copy, Debug, PartialEq, Eq)]
pub struct Picked {
    /// How it ended.
    pub pick: Pick,
    /// Whether the word was handed out.
    pub given: bool,
    /// The session for what comes next.
    pub session: Session,
}

/// A length, the session or the time is wrong.
const BAD_CALL: Pick = Pick::Other { a: 255, h: 4 };

/// The image is not consistent, or the map not right.
const BAD_DISK: Pick = Pick::Other { a: 255, h: 1 };

/// A name breaks the name rule.
const BAD_NAME: Pick = Pick::Other { a: 255, h: 9 };

/// Picks a word. `word` gets it where it is handed out.
pub fn pick(
    wanted: Wanted,
    time: Time,
    image: &mut [u8],
    map: &mut [u16],
    word: &mut [u8],
    session: Session,
) -> Picked {
    let ended = session.search_ended();
    let told = |pick, given, session| Picked {
        pick,
        given,
        session,
    };
    let mut desk = match Desk::with_the_book(wanted, time, image, map, session) {
        Err(pick) => return told(pick, false, session),
        Ok(desk) => desk,
    };
    match desk.read_word(word) {
        Err(pick) => told(pick, false, ended),
        Ok(()) => told(desk.log().unwrap_or_else(|trouble| trouble), true, ended),
    }
}

/// The record of a day in a log: five digits of the year, a space, three digits
/// of the day, CR, LF, 117 bytes 1AH.
fn log_record(wanted: Wanted) -> Record {
    let mut bytes = [FILLING; RECORD_BYTES];
    let (year, day) = (wanted.year, wanted.day);
    let written = write!(&mut bytes[..], "{year:05} {day:03}\r\n");
    written.expect("eleven bytes have room in a record");
    bytes
}

/// A sound disk with the book on it, and who is at work.
struct Desk<'a> {
    wanted: Wanted,
    image: &'a mut Image,
    map: &'a mut Map,
    directory: Directory,
    user: u8,
    /// Stamps what is opened: nothing where the session is protected.
    opening: Stamper,
    /// Stamps the log's entries, for which the protection is lifted.
    logging: Stamper,
}

/// Where the log's next record goes.
struct Place {
    entry: usize,
    /// What a new entry is, where one has to be made.
    made: Option<[u8; ROW_BYTES]>,
    /// The record in its extent, 0 to 127.
    within: u8,
    /// The block, and whether it was free.
    block: u8,
    taken: bool,
}

impl<'a> Desk<'a> {
    /// What is told before anything is touched, up to a book that is missing.
    /// The book's entry gets its access stamp.
    fn with_the_book(
        wanted: Wanted,
        time: Time,
        image: &'a mut [u8],
        map: &'a mut [u16],
        session: Session,
    ) -> Result<Self, Pick> {
        if wanted.day > LAST_DAY {
            return Err(Pick::DayOver);
        }
        let image: &mut Image = image.try_into().map_err(|_| BAD_CALL)?;
        let map: &mut Map = map.try_into().map_err(|_| BAD_CALL)?;
        let session_is_right = session.user <= LAST_USER && session.place <= 64;
        if !session_is_right || !is_bcd(time.hour) || !is_bcd(time.minute) {
            return Err(BAD_CALL);
        }
        let mut directory = Directory::unread();
        if !directory.gather(image) || !map::is_right(map, &directory) {
            return Err(BAD_DISK);
        }
        let logging = Stamper::new(directory.aside(), at_time(time));
        let mut desk = Self {
            wanted,
            image,
            map,
            directory,
            user: session.user,
            opening: match session.is_protected() {
                true => Stamper::NONE,
                false => logging,
            },
            logging,
        };
        plain(&wanted.book)?;
        desk.open(&wanted.book).ok_or(Pick::NoBook)?;
        Ok(desk)
    }

    /// The word: the book's record of the day, whose number is the day's.
    fn read_word(&self, word: &mut [u8]) -> Result<(), Pick> {
        let word: &mut Record = word.try_into().map_err(|_| BAD_CALL)?;
        let (extent, within) = parts(u32::from(self.wanted.day));
        let entry = self.extent(&self.wanted.book, extent).ok_or(Pick::NoWord)?;
        let block = self.block_there(entry, within).ok_or(Pick::NoWord)?;
        word.copy_from_slice(record(self.image, block, within));
        Ok(())
    }

    /// The day is in the log afterwards, or the trouble is told.
    fn log(&mut self) -> Result<Pick, Pick> {
        let Wanted { book, log, .. } = self.wanted;
        if book.map(seven_bits) == log.map(seven_bits) {
            return Err(Pick::OneFile);
        }
        plain(&log)?;
        let entries = self.directory.find(Asking::file(self.user, &log));
        let place = match entries.is_empty() {
            true => self.place_in_new_log()?,
            false => {
                let first = self.open(&log).ok_or(Pick::NoFirst)?;
                if self.has_day(entries) {
                    return Ok(Pick::Again);
                }
                self.place_in_log(entries, first)?
            }
        };
        self.put_down(place);
        Ok(Pick::Logged)
    }

    /// The entry of a file's extent 0, which gets an access stamp.
    fn open(&mut self, name: &Name) -> Option<usize> {
        let entry = self.extent(name, 0)?;
        self.opening.opened(self.image, entry);
        Some(entry)
    }

    fn extent(&self, name: &Name, extent: u16) -> Option<usize> {
        self.directory.extent(self.user, name, extent)
    }

    /// The slot of a record of an entry: a block, or 0.
    fn slot(&self, entry: usize, within: u8) -> u8 {
        row(self.image, entry)[slot_place(within)]
    }

    fn count(&self, entry: usize) -> u8 {
        count(row(self.image, entry)[at::RC])
    }

    /// The block of a record that is there.
    fn block_there(&self, entry: usize, within: u8) -> Option<u8> {
        let block = self.slot(entry, within);
        (within < self.count(entry) && block != 0).then_some(block)
    }

    /// Whether a record of the log has the year and day. All below its size are
    /// searched, also past 1,024; one that is not there has no day.
    fn has_day(&self, entries: Entries) -> bool {
        let wanted = log_record(self.wanted);
        let tells = |entry: usize, within: u8| {
            self.block_there(entry, within).is_some_and(|block| {
                record(self.image, block, within)[..STAMP_BYTES] == wanted[..STAMP_BYTES]
            })
        };
        let mut each = entries.each();
        each.any(|entry| (0..self.count(entry)).any(|within| tells(entry, within)))
    }

    /// The log's size: the end of its last extent.
    fn size(&self, entries: Entries) -> u32 {
        let end = |entry: usize| {
            let row = row(self.image, entry);
            let extent = extent_number(row[at::EX], row[at::S2]);
            u32::from(EXTENT_RECORDS) * u32::from(extent) + u32::from(self.count(entry))
        };
        entries.each().map(end).max().unwrap_or(0)
    }

    /// Where the next record goes in a log that is there; `first` is the entry
    /// of its extent 0.
    fn place_in_log(&self, entries: Entries, first: usize) -> Result<Place, Pick> {
        let size = self.size(entries);
        if size >= FULL_LOG {
            return Err(Pick::LogFull);
        }
        let (extent, within) = parts(size);
        let there = self.extent(&self.wanted.log, extent);
        let mut written = [Some(first), there].into_iter().flatten();
        if written.any(|entry| is_read_only(self.image, entry)) {
            return Err(Pick::LogReadOnly);
        }
        let (entry, made) = match there {
            Some(entry) => (entry, None),
            None => {
                let empty = self.directory.first_empty();
                let like = row(self.image, first);
                let name = std::array::from_fn(|i| like[at::NAME + i]);
                let made = new_row(self.user, &name, extent as u8);
                (empty.ok_or(Pick::DirectoryFull)?, Some(made))
            }
        };
        let listed = there.map_or(0, |entry| self.slot(entry, within));
        let (block, taken) = match listed {
            0 => (map::first_free(self.map).ok_or(Pick::DiskFull)?, true),
            block => (block, false),
        };
        Ok(Place {
            entry,
            made,
            within,
            block,
            taken,
        })
    }

    /// The place of record 0 of a log that is to be made: a full disk is told
    /// before a full directory, so that no empty log is left behind.
    fn place_in_new_log(&self) -> Result<Place, Pick> {
        let block = map::first_free(self.map).ok_or(Pick::DiskFull)?;
        let entry = self.directory.first_empty().ok_or(Pick::DirectoryFull)?;
        let name = self.wanted.log.map(seven_bits);
        Ok(Place {
            entry,
            made: Some(new_row(self.user, &name, 0)),
            within: 0,
            block,
            taken: true,
        })
    }

    /// Puts the day's record down, closed: entry, note and stamps say so.
    fn put_down(&mut self, place: Place) {
        let Place {
            entry,
            within,
            block,
            ..
        } = place;
        if let Some(made) = place.made {
            row_mut(self.image, entry).copy_from_slice(&made);
            self.logging.begin(self.image, entry);
            if made[at::EX] == 0 {
                self.logging.created(self.image, entry);
            }
        }
        let row = row_mut(self.image, entry);
        row[at::RC] = within + 1;
        if place.taken {
            row[slot_place(within)] = block;
            self.map[usize::from(block)] = RECORDED;
        }
        self.logging.changed(self.image, entry);
        record_mut(self.image, block, within).copy_from_slice(&log_record(self.wanted));
    }
}

/// Where in an entry the slot of a record (0 to 127) stands.
fn slot_place(within: u8) -> usize {
    at::SLOTS + usize::from(within / 8)
}

/// The extent of a record, and which one it is there.
fn parts(record: u32) -> (u16, u8) {
    let records = u32::from(EXTENT_RECORDS);
    ((record / records) as u16, (record % records) as u8)
}

/// A new entry of extent 0 to 7, without records.
fn new_row(user: u8, name: &Name, extent: u8) -> [u8; ROW_BYTES] {
    let mut row = [0; ROW_BYTES];
    row[at::USER] = user;
    row[at::NAME..at::NAME_END].copy_from_slice(name);
    row[at::EX] = extent;
    row
}

/// A name that obeys the name rule.
fn plain(name: &Name) -> Result<(), Pick> {
    name_is_plain(name).then_some(()).ok_or(BAD_NAME)
}

/// The time, as stamps take it.
fn at_time(time: Time) -> Asked {
    let Time { day, hour, minute } = time;
    Asked {
        day,
        hour,
        minute,
        ..Asked::default()
    }
}

#[cfg(test)]
mod tests {
    use super::*;

    #[test]
    fn a_log_record_is_text() {
        let wanted = |year, day| Wanted {
            year,
            day,
            book: *b"WORDS   DAT",
            log: *b"WORDS   LOG",
        };
        let record = log_record(wanted(2026, 7));
        assert_eq!(record[..11], *b"02026 007\r\n");
        assert_eq!(record[11..], [0x1A; 117]);
        assert_eq!(log_record(wanted(65_535, 365))[..9], *b"65535 365");
        assert_eq!(log_record(wanted(0, 0))[..9], *b"00000 000");
    }

    #[test]
    fn records_have_their_extents() {
        assert_eq!(parts(0), (0, 0));
        assert_eq!(parts(365), (2, 109));
        assert_eq!(parts(1_023), (7, 127));
    }
}
