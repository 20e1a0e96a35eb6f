//! The word picker of the safe crate: every answer on a disk of its own.

mod common;

use benzokamuri::{Code, Disk, Fcb, Name, Pick, Picked, Stamps, Time, LOG_RECORDS};

fn name(text: &str) -> Name {
    text.parse().expect("a name")
}

fn book() -> Name {
    name("WORDS.DAT")
}

fn log() -> Name {
    name("WORDS.LOG")
}

/// The word of a day in a book of these tests.
fn word(day: usize) -> [u8; 128] {
    let mut word = [0x1A; 128];
    let text = format!("word {day}");
    word[..text.len()].copy_from_slice(text.as_bytes());
    word
}

/// Writes a file of records, one after the other.
fn write(disk: &mut Disk, file: Name, records: impl IntoIterator<Item = [u8; 128]>) {
    disk.lift();
    let mut fcb = Fcb::named(file);
    disk.make(&mut fcb).expect("an entry is empty");
    for record in records {
        disk.buffer = record;
        disk.write_next(&mut fcb).expect("a block is free");
    }
    disk.close(&mut fcb).expect("it is current");
    disk.protect();
}

/// A disk with a book of a leap year's days, write-protected.
fn with_book() -> Disk {
    let mut disk = Disk::erased();
    write(&mut disk, book(), (0..366).map(word));
    disk
}

/// A log's record of a day.
fn logged(year: u16, day: u16) -> [u8; 128] {
    let mut record = [0x1A; 128];
    record[..11].copy_from_slice(format!("{year:05} {day:03}\r\n").as_bytes());
    record
}

/// All records of a file.
fn read(disk: &Disk, file: Name) -> Vec<[u8; 128]> {
    let mut disk = disk.clone();
    let mut fcb = Fcb::named(file);
    disk.open(&mut fcb).expect("the file is there");
    let mut records = Vec::new();
    while disk.read_next(&mut fcb).is_ok() {
        records.push(disk.buffer);
    }
    records
}

/// Picks a word, which must leave the disk as it was and tell this.
#[track_caller]
fn troubled(disk: &mut Disk, day: u16, files: [Name; 2], told: Pick, given: bool) {
    let before = disk.clone();
    let Picked {
        answer,
        word: handed,
    } = disk.pick(2026, day, files[0], files[1]);
    assert_eq!(answer, told);
    assert_eq!(handed, given.then(|| word(usize::from(day))));
    assert!(disk.image() == before.image() && disk.map() == before.map());
}

#[test]
fn a_day_is_logged_once() {
    let mut disk = with_book();
    disk.buffer.fill(9);
    let first = disk.pick(2026, 297, book(), log());
    assert_eq!(first.answer, Pick::Logged);
    assert_eq!(first.word, Some(word(297)));
    assert!(disk.is_protected(), "as it was");
    assert_eq!(disk.buffer, [9; 128]);
    troubled(&mut disk, 297, [book(), log()], Pick::Again, true);
    assert_eq!(disk.pick(2026, 298, book(), log()).answer, Pick::Logged);
    assert_eq!(disk.pick(2027, 297, book(), log()).answer, Pick::Logged);
    let due = [logged(2026, 297), logged(2026, 298), logged(2027, 297)];
    assert_eq!(read(&disk, log()), due);
    // A disk whose protection is lifted stays lifted.
    disk.lift();
    assert_eq!(disk.pick(65_535, 0, book(), log()).answer, Pick::Logged);
    assert!(!disk.is_protected());
}

/// The picker is handed the disk's time: the log is stamped with it.
#[test]
fn the_log_is_stamped_with_the_time() {
    // The label asks for create and update.
    let mut disk = Disk::new(common::dated_image(0x30)).expect("a disk");
    write(&mut disk, book(), (0..3).map(word));
    let mut stamps_at = |time: &str, day: u16| {
        disk.set_time(time.parse().expect("a time"));
        assert_eq!(disk.pick(2026, day, book(), log()).answer, Pick::Logged);
        let found = disk.search_first(&mut Fcb::named(log())).expect("a log");
        found.stamps.expect("a dated disk")
    };
    let at = |time: &str| -> Time { time.parse().expect("a time") };
    let first = at("2026-10-25 02:30");
    let made = stamps_at("2026-10-25 02:30", 1);
    assert_eq!(
        made,
        Stamps {
            first,
            update: first
        }
    );
    let update = at("2031-02-03 17:45");
    let later = stamps_at("2031-02-03 17:45", 2);
    assert_eq!(later, Stamps { first, update });
}

#[test]
fn troubles_without_a_word() {
    let mut disk = with_book();
    let files = [book(), log()];
    troubled(&mut disk, 366, files, Pick::DayOver, false);
    troubled(&mut disk, 0, [name("OTHER"), log()], Pick::NoBook, false);
    disk.set_user(3).expect("a user");
    troubled(&mut disk, 0, files, Pick::NoBook, false);
    let mut disk = Disk::erased();
    write(&mut disk, book(), (0..200).map(word));
    troubled(&mut disk, 200, files, Pick::NoWord, false);
    troubled(&mut disk, 365, files, Pick::NoWord, false);
}

#[test]
fn one_file_and_a_full_log() {
    let mut disk = with_book();
    troubled(&mut disk, 5, [book(), book()], Pick::OneFile, true);
    let days = (0..LOG_RECORDS as u16).map(|day| logged(3_000 + day / 366, day % 366));
    write(&mut disk, log(), days);
    troubled(&mut disk, 5, [book(), log()], Pick::LogFull, true);
    // A full log still knows its days.
    assert_eq!(disk.pick(3_000, 5, book(), log()).answer, Pick::Again);
    assert_eq!(disk.pick(3_002, 291, book(), log()).answer, Pick::Again);
}

#[test]
fn a_full_directory_and_a_full_disk() {
    let mut disk = with_book();
    // The book has three entries.
    for file in 0..61 {
        write(&mut disk, name(&format!("F{file}")), []);
    }
    troubled(&mut disk, 5, [book(), log()], Pick::DirectoryFull, true);
    let mut disk = with_book();
    let free = disk.space().expect("space");
    let records = (0..free).map(|_| [1; 128]);
    write(&mut disk, name("LARGE"), records);
    troubled(&mut disk, 5, [book(), log()], Pick::DiskFull, true);
    let mut fcb = Fcb::named(log());
    assert_eq!(
        disk.size(&mut fcb),
        Err(Code::NothingMatches),
        "no log is left"
    );
}

#[test]
fn a_wrong_map_is_told_as_a_refusal() {
    let disk = with_book();
    let map = Box::new([0; 243]);
    let mut disk = Disk::resumed(Box::new(*disk.image()), map, disk.session());
    troubled(
        &mut disk,
        5,
        [book(), log()],
        Pick::Other(Code::BadDisk),
        false,
    );
}
