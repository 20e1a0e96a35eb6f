//! A disk: an image with what the calls need beside it.

use crate::{
    lend, lift, pick, protect, Asked, Buffer, Call, Code, Entry, Fcb, Image, Map, Name, Pick,
    Picked, Session, Time, Wanted, BUFFER_LEN, ENTRY_LEN, IMAGE_LEN, MAP_LEN,
};
use std::fmt;

/// The byte that an erased disk is full of.
const ERASED: u8 = 0xE5;

/// Byte 0 of a date entry.
const DATES: u8 = 0x21;

/// An image, its map, a transfer buffer, a session, and the time that calls are
/// handed. Nothing but the calls changes image and map.
///
/// A disk begins write-protected: no call changes its image, and those that
/// would are refused with [`Code::Protected`], until [`Disk::lift`] is called.
/// Reading, listing and logging in need no lift; only a read that would leave an
/// extent which was written to and not closed is refused, since it closes it. The
/// word picker lifts the protection for its log by itself: after [`Disk::pick`] has
/// told [`Pick::Logged`] the image is to be saved, lifted or not.
///
/// A disk begins at [`Time::ZERO`], and its time stands still until
/// [`Disk::set_time`] is called: what a call does is decided by what it is given
/// alone. The time is stored by disks with date entries, and by no others.
#[derive(Clone, PartialEq, Eq)]
pub struct Disk {
    image: Box<Image>,
    map: Box<Map>,
    session: Session,
    time: Time,
    /// The transfer buffer: what writes take and reads give.
    pub buffer: Buffer,
}

/// Without image, map and buffer, which would fill pages.
impl fmt::Debug for Disk {
    fn fmt(&self, f: &mut fmt::Formatter) -> fmt::Result {
        let mut shown = f.debug_struct("Disk");
        shown.field("session", &self.session);
        shown.field("time", &self.time);
        shown.finish_non_exhaustive()
    }
}

/// A directory entry that a search found.
#[derive(Clone, Copy, Debug, PartialEq, Eq)]
pub struct Found {
    /// Its number, 0 to 63.
    pub number: usize,
    /// Its bytes.
    pub entry: Entry,
    /// The stamps beside it, where the disk has date entries.
    pub stamps: Option<Stamps>,
}

/// The two stamps beside an entry.
#[derive(Clone, Copy, Debug, PartialEq, Eq)]
pub struct Stamps {
    /// When the entry was made or last opened: the disk's label says which of
    /// the two is kept.
    pub first: Time,
    /// When a close or a move last changed the entry.
    pub update: Time,
}

impl Stamps {
    /// The stamps of one of the first three entries of a directory record.
    fn beside(record: &Buffer, which: usize) -> Option<Stamps> {
        let dates = &record[3 * ENTRY_LEN..];
        let stamp = |at: usize| Time::from_stamp(std::array::from_fn(|i| dates[at + i]));
        let at = 1 + 10 * which;
        if dates[0] != DATES || which > 2 {
            return None;
        }
        Some(Stamps {
            first: stamp(at)?,
            update: stamp(at + 4)?,
        })
    }
}

/// Bytes that are no image, for their number.
#[derive(Clone, Copy, Debug, PartialEq, Eq)]
pub struct WrongLength {
    /// How many there are.
    pub found: usize,
}

impl fmt::Display for WrongLength {
    fn fmt(&self, f: &mut fmt::Formatter) -> fmt::Result {
        write!(
            f,
            "the image is {} bytes long and has to be {IMAGE_LEN}",
            self.found
        )
    }
}

impl std::error::Error for WrongLength {}

/// Why bytes are no disk.
#[derive(Clone, Copy, Debug, PartialEq, Eq)]
pub enum NoDisk {
    /// There are too few or too many of them.
    WrongLength(WrongLength),
    /// The log-in was refused.
    Refused(Code),
}

impl fmt::Display for NoDisk {
    fn fmt(&self, f: &mut fmt::Formatter) -> fmt::Result {
        match self {
            NoDisk::WrongLength(wrong) => wrong.fmt(f),
            NoDisk::Refused(code) => code.fmt(f),
        }
    }
}

impl std::error::Error for NoDisk {}

/// Bytes on the heap; an image is too large for the stack.
fn boxed<T: Copy, const N: usize>(bytes: Vec<T>) -> Result<Box<[T; N]>, WrongLength> {
    let found = bytes.len();
    let boxed = bytes.into_boxed_slice().try_into();
    boxed.map_err(|_| WrongLength { found })
}

impl Disk {
    /// An erased disk, logged in and write-protected: every byte is E5H, so every
    /// entry is empty.
    pub fn erased() -> Disk {
        let disk = Disk::new(vec![ERASED; IMAGE_LEN]);
        disk.expect("an erased image is consistent")
    }

    /// A disk with this image, logged in as user 0 and write-protected.
    pub fn new(image: Vec<u8>) -> Result<Disk, NoDisk> {
        let image = boxed(image).map_err(NoDisk::WrongLength)?;
        let map = boxed(vec![0; MAP_LEN]).map_err(NoDisk::WrongLength)?;
        let mut disk = Disk::resumed(image, map, Session::default());
        disk.log_in().map_err(NoDisk::Refused)?;
        Ok(disk)
    }

    /// A disk with a map and a session kept from earlier. Nothing is asked of
    /// them; the calls refuse what does not fit. The session says whether the
    /// disk is write-protected, as [`Session::default`] is.
    pub fn resumed(image: Box<Image>, map: Box<Map>, session: Session) -> Disk {
        Disk {
            image,
            map,
            session,
            time: Time::ZERO,
            buffer: [0; BUFFER_LEN],
        }
    }

    /// The image.
    pub fn image(&self) -> &Image {
        &self.image
    }

    /// The map.
    pub fn map(&self) -> &Map {
        &self.map
    }

    /// The session.
    pub fn session(&self) -> Session {
        self.session
    }

    /// Whether the disk is write-protected.
    pub fn is_protected(&self) -> bool {
        self.session.lifted == 0
    }

    /// Lifts the write protection: from now on calls may change the image. A
    /// search that is on stays on.
    pub fn lift(&mut self) {
        self.session = lift(self.session);
    }

    /// Sets the write protection again: from now on no call changes the image.
    /// What was written and not closed stays pending, and can be closed after
    /// another [`Disk::lift`].
    pub fn protect(&mut self) {
        self.session = protect(self.session);
    }

    /// The time that calls are handed.
    pub fn time(&self) -> Time {
        self.time
    }

    /// Sets the time that calls are handed from now on.
    pub fn set_time(&mut self, time: Time) {
        self.time = time;
    }

    /// The image alone.
    pub fn into_image(self) -> Vec<u8> {
        self.image.to_vec()
    }

    /// Makes any call, with the time that stands in `asked`: A where it is
    /// accepted, or why it is refused.
    pub fn ask(&mut self, asked: Asked, fcb: &mut Fcb) -> Result<u8, Code> {
        let before = self.session;
        let answer = lend(
            asked,
            &mut *self.image,
            &mut *self.map,
            fcb.bytes_mut(),
            &mut self.buffer,
            before,
        );
        self.session = answer.session;
        Code::read(asked, &before, &answer)
    }

    /// Makes a listed call with argument 0.
    pub fn call(&mut self, call: Call, fcb: &mut Fcb) -> Result<u8, Code> {
        self.call_with(call, 0, fcb)
    }

    /// Makes a listed call with an argument.
    fn call_with(&mut self, call: Call, argument: u8, fcb: &mut Fcb) -> Result<u8, Code> {
        self.ask(Asked::new(call.number(), argument, self.time), fcb)
    }

    /// A call that doesn't use the FCB.
    fn call_without_fcb(&mut self, call: Call) -> Result<u8, Code> {
        self.call(call, &mut Fcb::ZERO.clone())
    }

    /// Call 13: the map becomes the fresh map.
    pub fn log_in(&mut self) -> Result<(), Code> {
        self.call_without_fcb(Call::LogIn).map(|_| ())
    }

    /// Call 15: opens the extent that byte 12 names, and answers its entry's
    /// number mod 4. On a write-protected disk it stamps no access.
    pub fn open(&mut self, fcb: &mut Fcb) -> Result<u8, Code> {
        self.call(Call::Open, fcb)
    }

    /// Call 16: records what was written to the present extent.
    pub fn close(&mut self, fcb: &mut Fcb) -> Result<u8, Code> {
        self.call(Call::Close, fcb)
    }

    /// Call 17: the first entry that matches.
    pub fn search_first(&mut self, fcb: &mut Fcb) -> Result<Found, Code> {
        let a = self.call(Call::SearchFirst, fcb)?;
        Ok(self.found(a))
    }

    /// Call 18: the next entry that matches.
    pub fn search_next(&mut self) -> Result<Found, Code> {
        let a = self.call_without_fcb(Call::SearchNext)?;
        Ok(self.found(a))
    }

    /// The entry that a search has just found: A says which of the four in the
    /// buffer it is, and the search place is one past it.
    fn found(&self, a: u8) -> Found {
        let start = ENTRY_LEN * usize::from(a);
        Found {
            number: usize::from(self.session.place).saturating_sub(1),
            entry: std::array::from_fn(|i| self.buffer[start + i]),
            stamps: Stamps::beside(&self.buffer, usize::from(a)),
        }
    }

    /// Call 19: deletes all files that match.
    pub fn delete(&mut self, fcb: &mut Fcb) -> Result<(), Code> {
        self.call(Call::Delete, fcb).map(|_| ())
    }

    /// Call 20: reads the next record into the buffer.
    pub fn read_next(&mut self, fcb: &mut Fcb) -> Result<(), Code> {
        self.call(Call::ReadNext, fcb).map(|_| ())
    }

    /// Call 21: writes the buffer as the next record.
    pub fn write_next(&mut self, fcb: &mut Fcb) -> Result<(), Code> {
        self.call(Call::WriteNext, fcb).map(|_| ())
    }

    /// Call 22: makes the extent that byte 12 names, and answers its entry's
    /// number mod 4.
    pub fn make(&mut self, fcb: &mut Fcb) -> Result<u8, Code> {
        self.call(Call::Make, fcb)
    }

    /// Call 23: renames a file.
    pub fn rename(&mut self, fcb: &mut Fcb) -> Result<(), Code> {
        self.call(Call::Rename, fcb).map(|_| ())
    }

    /// Call 32 with argument 255: the user number.
    pub fn user(&mut self) -> Result<u8, Code> {
        self.call_with(Call::User, 255, &mut Fcb::ZERO.clone())
    }

    /// Call 32: sets the user number, 0 to 15.
    pub fn set_user(&mut self, user: u8) -> Result<(), Code> {
        // 255 would ask for the user, and no other argument is a user's.
        let argument = user.min(254);
        self.call_with(Call::User, argument, &mut Fcb::ZERO.clone())
            .map(|_| ())
    }

    /// Call 33: reads the FCB's random record into the buffer.
    pub fn read_random(&mut self, fcb: &mut Fcb) -> Result<(), Code> {
        self.call(Call::ReadRandom, fcb).map(|_| ())
    }

    /// Call 34: writes the buffer as the FCB's random record.
    pub fn write_random(&mut self, fcb: &mut Fcb) -> Result<(), Code> {
        self.call(Call::WriteRandom, fcb).map(|_| ())
    }

    /// Call 35: the file's size in records, which the FCB's random record
    /// becomes too.
    pub fn size(&mut self, fcb: &mut Fcb) -> Result<u32, Code> {
        self.call(Call::Size, fcb)?;
        Ok(fcb.random())
    }

    /// Call 36: the FCB's position in the file, which its random record
    /// becomes too.
    pub fn random_record(&mut self, fcb: &mut Fcb) -> Result<u32, Code> {
        self.call(Call::RandomRecord, fcb)?;
        Ok(fcb.random())
    }

    /// Call 46: the free records, eight to a block.
    pub fn space(&mut self) -> Result<u32, Code> {
        let kept = self.buffer;
        self.call_without_fcb(Call::Space)?;
        let told = std::mem::replace(&mut self.buffer, kept);
        Ok(u32::from_le_bytes([told[0], told[1], told[2], 0]))
    }

    /// Call 98: frees the blocks that are pending.
    pub fn free_blocks(&mut self) -> Result<(), Code> {
        self.call_without_fcb(Call::FreeBlocks).map(|_| ())
    }

    /// Picks the word of a day, 0 to 365, out of a book, and logs the day unless
    /// the log has it. Both files are the present user's. The disk may be
    /// write-protected, and is afterwards what it was: the protection is lifted
    /// for the log alone. The transfer buffer stays as it is.
    ///
    /// After [`Pick::Logged`] the image is to be saved, or the day is picked and
    /// logged once more the next time. On a disk that is lifted any answer may have
    /// left access stamps.
    ///
    /// ```
    /// # fn main() -> Result<(), Box<dyn std::error::Error>> {
    /// # let mut disk = benzokamuri::Disk::erased();
    /// let picked = disk.pick(2026, 297, "WORDS.DAT".parse()?, "WORDS.LOG".parse()?);
    /// println!("{}", picked.answer); // the help card's sentence
    /// if let Some(word) = picked.word {
    ///     println!("{} bytes", word.len()); // 128
    /// }
    /// # assert_eq!(picked.answer, benzokamuri::Pick::NoBook);
    /// # Ok(())
    /// # }
    /// ```
    pub fn pick(&mut self, year: u16, day: u16, book: Name, log: Name) -> Picked {
        let wanted = Wanted {
            year,
            day,
            book: *book.bytes(),
            log: *log.bytes(),
        };
        let (image, map) = (&mut *self.image, &mut *self.map);
        let mut word = [0; BUFFER_LEN];
        let told = pick(
            wanted,
            self.time.into(),
            image,
            map,
            &mut word,
            self.session,
        );
        self.session = told.session;
        Picked {
            answer: Pick::read(&told),
            word: (told.given != 0).then_some(word),
        }
    }
}

#[cfg(test)]
mod tests {
    use super::*;

    #[test]
    fn a_disk_is_shown_in_short() {
        let shown = format!("{:?}", Disk::erased());
        assert!(shown.starts_with("Disk { session: Session { user: 0, "));
        assert!(shown.ends_with(", .. }") && shown.len() < 200, "{shown}");
        assert_eq!(
            Disk::new(vec![]).unwrap_err(),
            NoDisk::WrongLength(WrongLength { found: 0 })
        );
    }

    #[test]
    fn records_that_no_file_has_are_refused_as_such() {
        let mut disk = Disk::erased();
        disk.lift();
        let mut fcb = Fcb::named("A".parse().unwrap());
        disk.make(&mut fcb).unwrap();
        disk.write_next(&mut fcb).unwrap();
        for record in [262_144, 0xFF_FFFF, 0x100_0000, 0x100_0001, u32::MAX] {
            fcb.set_random(record);
            assert_eq!(disk.read_random(&mut fcb), Err(Code::TooFar), "{record}");
        }
        fcb.set_random(0);
        assert_eq!(disk.read_random(&mut fcb), Ok(()));
    }
}
