//! Files on a disk, by its calls.

use crate::layout::Row;
use crate::looking::Looking;
use benzokamuri::{Code, Disk, Fcb, Found, Name, Pattern, Stamps, BUFFER_LEN};

/// What fills up a file's last record.
pub const FILLING: u8 = 0x1A;

/// A text without what fills it up: it ends before the first such byte.
pub fn text(bytes: &[u8]) -> &[u8] {
    let end = bytes.iter().position(|&byte| byte == FILLING);
    &bytes[..end.unwrap_or(bytes.len())]
}

/// The highest user.
pub const LAST_USER: u8 = 15;

/// A file, with the entries that are its.
#[derive(Clone, Debug, PartialEq, Eq)]
pub struct File {
    /// Its user.
    pub user: u8,
    /// Its name.
    pub name: Name,
    /// Its entries, lowest extent first.
    pub entries: Vec<Found>,
    /// Its size in records, as call 35 says.
    pub records: u32,
}

impl File {
    /// Its size in bytes. CP/M Plus keeps the bytes used in a file's last
    /// record in s1; 0 is a whole record.
    pub fn bytes(&self) -> u64 {
        let whole = BUFFER_LEN as u64 * u64::from(self.records);
        let last = self.entries.last().map(|found| Row(&found.entry).s1());
        match last {
            Some(used @ 1..=127) if self.records > 0 => whole - BUFFER_LEN as u64 + u64::from(used),
            _ => whole,
        }
    }

    /// Its attributes: high bits of name and type that an entry of it has.
    pub fn attributes(&self) -> Vec<&'static str> {
        const NAMES: [&str; 11] = [
            "f1", "f2", "f3", "f4", "f5", "f6", "f7", "f8", "ro", "sys", "arc",
        ];
        let has = |at: usize| {
            let mut entries = self.entries.iter();
            entries.any(|found| Row(&found.entry).name()[at] & 0x80 != 0)
        };
        let set = NAMES.iter().enumerate().filter(|(at, _)| has(*at));
        set.map(|(_, name)| *name).collect()
    }

    /// Its stamps, where the disk has date entries: those of its first entry.
    pub fn stamps(&self) -> Option<Stamps> {
        self.entries.first().and_then(|found| found.stamps)
    }

    /// The blocks that its entries list.
    pub fn blocks(&self) -> impl Iterator<Item = u8> + '_ {
        let entries = self.entries.iter();
        entries.flat_map(|found| Row(&found.entry).blocks())
    }
}

/// The files of a user that match, by calls 17, 18 and 35, in the order of
/// their names.
pub fn matching(disk: &mut Looking, user: u8, pattern: Pattern) -> Result<Vec<File>, Code> {
    let before = disk.user()?;
    disk.set_user(user)?;
    let mut files: Vec<File> = Vec::new();
    for found in entries(disk, pattern)? {
        let name = Name::of(&Row(&found.entry).name());
        let name = name.ok_or(Code::BadDisk)?;
        match files.iter_mut().find(|file| file.name == name) {
            Some(file) => file.entries.push(found),
            None => files.push(File {
                user,
                name,
                entries: vec![found],
                records: disk.size(&mut Fcb::named(name))?,
            }),
        }
    }
    for file in &mut files {
        file.entries.sort_by_key(|found| Row(&found.entry).extent());
    }
    files.sort_by_key(|file| file.name);
    disk.set_user(before)?;
    Ok(files)
}

/// The files of every user.
pub fn all(disk: &mut Looking) -> Result<Vec<File>, Code> {
    let mut files = Vec::new();
    for user in 0..=LAST_USER {
        files.extend(matching(disk, user, Pattern::EVERY)?);
    }
    Ok(files)
}

/// The present user's entries that match, lowest-numbered first.
fn entries(disk: &mut Looking, pattern: Pattern) -> Result<Vec<Found>, Code> {
    let mut fcb = Fcb::matching(pattern).in_every_extent();
    let mut found = match disk.search_first(&mut fcb) {
        Err(Code::NothingMatches) => return Ok(Vec::new()),
        first => vec![first?],
    };
    loop {
        match disk.search_next() {
            Err(Code::NoMore) => return Ok(found),
            next => found.push(next?),
        }
    }
}

/// What a file holds.
#[derive(Clone, Debug, PartialEq, Eq)]
pub struct Contents {
    /// Its bytes, whole records.
    pub bytes: Vec<u8>,
    /// Records below its end that are not there; zeros stand for them.
    pub missing: u32,
}

/// Reads a file of the present user, by calls 15 and 33. No read is refused for
/// the write protection: no move has anything to close, since nothing is written.
pub fn read(disk: &mut Looking, file: &File) -> Result<Contents, Code> {
    let mut fcb = current(disk, file)?;
    let mut contents = Contents {
        bytes: Vec::new(),
        missing: 0,
    };
    for record in 0..file.records {
        fcb.set_random(record);
        match disk.read_random(&mut fcb) {
            Ok(record) => contents.bytes.extend(record),
            Err(Code::NotThere | Code::NoExtent) => {
                contents.missing += 1;
                contents.bytes.extend([0; BUFFER_LEN]);
            }
            Err(code) => return Err(code),
        }
    }
    Ok(contents)
}

/// An FCB that is current for a file. For a file that open does not reach it is
/// filled as open would fill it.
fn current(disk: &mut Looking, file: &File) -> Result<Fcb, Code> {
    if let Some(mut fcb) = to_open(file) {
        disk.open(&mut fcb)?;
        return Ok(fcb);
    }
    let mut fcb = Fcb::named(file.name);
    let first = file.entries.first().ok_or(Code::NothingMatches)?;
    fcb.bytes_mut()[1..32].copy_from_slice(&first.entry[1..]);
    Ok(fcb)
}

/// An FCB to open a file with, at its first extent. Open reaches the extents 0
/// to 31; there is none for a file that has none of these.
fn to_open(file: &File) -> Option<Fcb> {
    let extent = Row(&file.entries.first()?.entry).extent();
    let ex = u8::try_from(extent).ok().filter(|ex| *ex <= 31)?;
    let mut fcb = Fcb::named(file.name);
    fcb.bytes_mut()[12] = ex;
    Some(fcb)
}

/// Leaves the access stamp of a file of the present user that was read, by call
/// 15. The disk's write protection has to be lifted.
pub fn stamp_access(disk: &mut Disk, file: &File) -> Result<(), Code> {
    let opened = to_open(file).map(|mut fcb| disk.open(&mut fcb));
    opened.transpose().map(|_| ())
}

/// Makes a file of the present user and writes it, by calls 22, 21 and 16. The
/// disk's write protection has to be lifted.
pub fn write(disk: &mut Disk, name: Name, bytes: &[u8]) -> Result<(), Code> {
    let mut fcb = Fcb::named(name);
    disk.make(&mut fcb)?;
    for record in bytes.chunks(BUFFER_LEN) {
        disk.buffer.fill(FILLING);
        disk.buffer[..record.len()].copy_from_slice(record);
        disk.write_next(&mut fcb)?;
    }
    disk.close(&mut fcb).map(|_| ())
}

#[cfg(test)]
mod tests {
    use super::*;

    fn name(text: &str) -> Name {
        text.parse().expect("a name")
    }

    /// A file, and the disk that it is to be read from.
    fn one(disk: &Disk, user: u8, text: &str) -> (File, Looking) {
        let mut disk = Looking::at(disk.clone());
        let files = matching(&mut disk, user, name(text).into()).expect("a sound disk");
        let file = files.into_iter().next().expect("the file is there");
        (file, disk)
    }

    #[test]
    fn what_is_written_is_read_back_filled_up() {
        let mut disk = Disk::erased();
        disk.lift();
        for (user, length) in [
            (0, 0),
            (0, 1),
            (3, 128),
            (3, 129),
            (15, 16_384),
            (0, 50_000),
        ] {
            let bytes: Vec<u8> = (0..length).map(|i| (i % 251) as u8).collect();
            let text = format!("F{length}");
            disk.set_user(user).unwrap();
            write(&mut disk, name(&text), &bytes).unwrap();
            let (file, mut looked_at) = one(&disk, user, &text);
            assert_eq!(file.records as usize, bytes.len().div_ceil(128));
            assert_eq!(file.bytes() % 128, 0);
            let contents = read(&mut looked_at, &file).unwrap();
            assert_eq!(contents.missing, 0);
            assert_eq!(contents.bytes[..length], bytes);
            assert!(contents.bytes[length..].iter().all(|&byte| byte == FILLING));
        }
        let mut disk = Looking::at(disk);
        assert_eq!(all(&mut disk).unwrap().len(), 6);
        assert_eq!(disk.user(), Ok(0));
    }

    #[test]
    fn records_that_are_not_there_are_counted() {
        let mut disk = Disk::erased();
        disk.lift();
        let mut fcb = Fcb::named(name("HOLES"));
        disk.make(&mut fcb).unwrap();
        disk.buffer.fill(7);
        for record in [3, 300] {
            fcb.set_random(record);
            disk.write_random(&mut fcb).unwrap();
        }
        disk.close(&mut fcb).unwrap();
        let (file, mut disk) = one(&disk, 0, "HOLES");
        let contents = read(&mut disk, &file).unwrap();
        assert_eq!(contents.bytes.len(), 301 * 128);
        assert_eq!(contents.bytes[3 * 128..4 * 128], [7; 128]);
        assert_eq!(contents.bytes[300 * 128..], [7; 128]);
        // Records 0 to 2 stand in the block of record 3 and count as there.
        assert_eq!(contents.missing, 301 - 4 - 5);
    }

    #[test]
    fn a_file_that_open_can_not_reach() {
        let mut disk = Disk::erased();
        disk.lift();
        let mut fcb = Fcb::named(name("FAR"));
        disk.make(&mut fcb).unwrap();
        fcb.set_random(128 * 40);
        disk.buffer.fill(9);
        disk.write_random(&mut fcb).unwrap();
        disk.close(&mut fcb).unwrap();
        // Without the entry that make made, extent 40 is all there is.
        let mut image = disk.into_image();
        image[crate::layout::entry_place(0)] = 0xE5;
        let (file, mut disk) = one(&Disk::new(image).unwrap(), 0, "FAR");
        assert_eq!(file.records, 128 * 40 + 1);
        let contents = read(&mut disk, &file).unwrap();
        assert_eq!(contents.missing, 128 * 40);
        assert_eq!(contents.bytes[128 * 128 * 40..], [9; 128]);
    }
}
