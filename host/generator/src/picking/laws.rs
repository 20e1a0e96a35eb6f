//! What holds for every run of a right picker, told from outside: from the disk
//! before and after it, and from the run after it.

use super::{Picker, Run};
use crate::disks::some_time;
use crate::random::Random;
use crate::world::{asks, World, DATES, EMPTY};
use reference::diskette::{self, BLOCKS, RECORD_BYTES};
use reference::{Pick, Picked, Session};

/// The records that an rc counts.
fn count(row: &[u8]) -> u8 {
    row[15].min(128)
}

fn extent(row: &[u8]) -> u32 {
    32 * u32::from(row[14]) + u32::from(row[12])
}

/// The entries of a file of the session's user.
pub fn entries_of(world: &World, name: &[u8; 11]) -> Vec<usize> {
    let alike = |row: &[u8]| {
        row[0] == world.session.user && (0..11).all(|i| (row[1 + i] ^ name[i]) & 0x7F == 0)
    };
    let entries = world.used().filter(|&entry| alike(world.entry(entry)));
    entries.collect()
}

/// A file's size, the end of its last extent, where it has entries.
pub fn size_of(world: &World, name: &[u8; 11]) -> Option<u32> {
    let end = |entry: usize| {
        let row = world.entry(entry);
        128 * extent(row) + u32::from(count(row))
    };
    entries_of(world, name).into_iter().map(end).max()
}

/// The entry of an extent of a file.
pub fn extent_of(world: &World, name: &[u8; 11], wanted: u32) -> Option<usize> {
    let mut entries = entries_of(world, name).into_iter();
    entries.find(|&entry| extent(world.entry(entry)) == wanted)
}

/// Every record of a file that is there: its number and where it stands.
pub fn records_of(world: &World, name: &[u8; 11]) -> Vec<(u32, usize)> {
    let of_entry = |entry: usize| {
        let row: [u8; 32] = std::array::from_fn(|i| world.entry(entry)[i]);
        (0..count(&row)).filter_map(move |within| {
            let block = row[16 + usize::from(within / 8)];
            let number = 128 * extent(&row) + u32::from(within);
            // A damaged disk may list blocks that there are not.
            let there = block != 0 && usize::from(block) < BLOCKS;
            there.then(|| (number, diskette::place(block, within)))
        })
    };
    let entries = entries_of(world, name);
    entries.into_iter().flat_map(of_entry).collect()
}

/// The bytes of a record.
pub fn bytes_at(world: &World, place: usize) -> &[u8] {
    &world.image.cells()[place..][..RECORD_BYTES]
}

/// A log record of a run.
pub fn log_record(run: &Run) -> Vec<u8> {
    let text = format!("{:05} {:03}\r\n", run.wanted.year, run.wanted.day);
    let mut bytes = text.into_bytes();
    bytes.resize(RECORD_BYTES, 0x1A);
    bytes
}

/// Tells which law a run broke, if it broke one.
pub fn check(before: &World, after: &World, run: &Run, picked: Picked) -> Result<(), &'static str> {
    check_session(before.session, picked)?;
    if !picked.given && before.buffer != after.buffer {
        return Err("a word that was not handed out changed its bytes");
    }
    match picked.pick {
        Pick::Logged => check_logged(before, after, run)?,
        _ => only_access_stamps(before, after, run)?,
    }
    if before.is_sound() && !after.is_sound() {
        return Err("a sound disk is one no more");
    }
    check_word(before, after, run, picked)?;
    match is_so(before, run, picked.pick) {
        true => Ok(()),
        false => Err("what is told is not so"),
    }
}

/// Whether it is so what a run tells, in words of the directory and the map; that
/// the word is missing is told by [`check_word`].
fn is_so(before: &World, run: &Run, told: Pick) -> bool {
    let (book, log) = (&run.wanted.book, &run.wanted.log);
    match told {
        Pick::DayOver => run.wanted.day > 365,
        _ if run.wanted.day > 365 => false,
        Pick::Other { a, h } => a == 255 && [1, 4, 9].contains(&h),
        Pick::NoBook => extent_of(before, book, 0).is_none(),
        Pick::NoWord => true,
        Pick::OneFile => one_file(book, log),
        _ => !one_file(book, log) && is_so_of_the_log(before, run, told),
    }
}

/// The same of answers that are told of a log which is not the book.
fn is_so_of_the_log(before: &World, run: &Run, told: Pick) -> bool {
    let log = &run.wanted.log;
    let size = size_of(before, log).unwrap_or(0);
    let first = extent_of(before, log, 0);
    let last = extent_of(before, log, size / 128);
    let read_only = [first, last]
        .into_iter()
        .flatten()
        .any(|entry| before.entry(entry)[9] & 0x80 != 0);
    let no_entry = (0..64).all(|entry| before.entry(entry)[0] != EMPTY);
    match told {
        Pick::NoFirst => first.is_none() && !entries_of(before, log).is_empty(),
        Pick::Again => has_day(before, run),
        _ if has_day(before, run) => false,
        Pick::LogFull => size >= 1_024,
        _ if size >= 1_024 => false,
        Pick::LogReadOnly => read_only,
        _ if read_only => false,
        Pick::DirectoryFull => no_entry,
        Pick::DiskFull => !before.map.cells().contains(&0),
        _ => true,
    }
}

/// Whether two names are one by their low seven bits.
fn one_file(book: &[u8; 11], log: &[u8; 11]) -> bool {
    book.iter()
        .zip(log)
        .all(|(one, other)| (one ^ other) & 0x7F == 0)
}

/// Whether a record of the log that is there has the year and day.
fn has_day(world: &World, run: &Run) -> bool {
    let wanted = log_record(run);
    let mut records = records_of(world, &run.wanted.log).into_iter();
    records.any(|(_, place)| bytes_at(world, place)[..9] == wanted[..9])
}

/// The session is the one that came, or the same with its search ended.
fn check_session(before: Session, picked: Picked) -> Result<(), &'static str> {
    let ended = Session {
        place: 0,
        on: 0,
        ..before
    };
    let due = match picked.pick {
        Pick::DayOver | Pick::NoBook => picked.session == before,
        Pick::Other { .. } => [before, ended].contains(&picked.session),
        _ => picked.session == ended,
    };
    due.then_some(()).ok_or("the session is not the one due")
}

/// The word is the book's record, and is handed out wherever it is there.
fn check_word(
    before: &World,
    after: &World,
    run: &Run,
    picked: Picked,
) -> Result<(), &'static str> {
    if matches!(picked.pick, Pick::DayOver | Pick::Other { .. }) && !picked.given {
        return Ok(());
    }
    let book = &run.wanted.book;
    let day = u32::from(run.wanted.day);
    let mut records = records_of(before, book).into_iter();
    let there = records.find(|&(number, _)| number == day);
    let there = there.filter(|_| extent_of(before, book, 0).is_some());
    match (there, picked.given) {
        (Some((_, place)), true) if after.buffer.cells() == bytes_at(before, place) => Ok(()),
        (None, false) => Ok(()),
        _ => Err("the word is not the book's record"),
    }
}

/// Nothing changes but access stamps.
fn only_access_stamps(before: &World, after: &World, run: &Run) -> Result<(), &'static str> {
    if before.map != after.map {
        return Err("the map changed");
    }
    match with_access_stamps(before, after, run).image == after.image {
        true => Ok(()),
        false => Err("the image changed in more than access stamps"),
    }
}

/// The world before, with those access stamps of book and log that it has now:
/// where the label asks for them and the session is not protected.
fn with_access_stamps(before: &World, after: &World, run: &Run) -> World {
    let mut due = before.clone();
    if before.asks(asks::ACCESS) && before.is_dated() && !before.is_protected() {
        for name in [&run.wanted.book, &run.wanted.log] {
            let Some(entry) = extent_of(before, name, 0) else {
                continue;
            };
            let place = stamps_place(entry);
            if after.image.cells()[place..][..4] == before.time.stamp() {
                put(&mut due, place, &before.time.stamp());
            }
        }
    }
    due
}

/// Puts bytes into an image.
fn put(world: &mut World, place: usize, bytes: &[u8]) {
    world.image.cells_mut()[place..][..bytes.len()].copy_from_slice(bytes);
}

/// Where the two stamps beside an entry stand.
fn stamps_place(entry: usize) -> usize {
    World::entry_place(entry | 3) + 1 + 10 * (entry % 4)
}

/// The log has one record more, the day's; all others are as they were, and
/// nothing else has changed but stamps.
fn check_logged(before: &World, after: &World, run: &Run) -> Result<(), &'static str> {
    let log = &run.wanted.log;
    let size = size_of(before, log).unwrap_or(0);
    if size_of(after, log) != Some(size + 1) {
        return Err("the log's size is not one more");
    }
    let records = records_of(after, log);
    let new = records.iter().find(|(number, _)| *number == size);
    let Some(&(_, place)) = new else {
        return Err("the new record is not there");
    };
    if bytes_at(after, place) != log_record(run) {
        return Err("the new record is not the day's");
    }
    let stay = records_of(before, log).into_iter().all(|(number, place)| {
        let now = records.iter().find(|(other, _)| *other == number);
        now.is_some_and(|&(_, there)| bytes_at(after, there) == bytes_at(before, place))
    });
    if !stay {
        return Err("a record of the log changed");
    }
    check_frame(before, after, run, place)
}

/// One entry of the log changed, and the stamps that are due for it; of the rest
/// access stamps and the new record alone; of the map at most one note, of a free
/// block to 2.
fn check_frame(before: &World, after: &World, run: &Run, new: usize) -> Result<(), &'static str> {
    let changed = (0..64).filter(|&entry| {
        before.entry(entry)[0] != DATES && before.entry(entry) != after.entry(entry)
    });
    let log = entries_of(after, &run.wanted.log);
    let entry = match changed.collect::<Vec<usize>>()[..] {
        [entry] if log.contains(&entry) => entry,
        _ => return Err("not one entry of the log changed"),
    };
    let mut due = with_access_stamps(before, after, run);
    put_log_stamps(&mut due, before, after, entry);
    put(&mut due, World::entry_place(entry), after.entry(entry));
    put(&mut due, new, bytes_at(after, new));
    if due.image != after.image {
        return Err("more changed than the new record, the log's entry and stamps beside it");
    }
    let notes = before.map.cells().iter().zip(after.map.cells());
    let mut changes = notes.filter(|(was, is)| was != is);
    match (changes.next(), changes.next()) {
        (None, _) | (Some((0, 2)), None) => Ok(()),
        _ => Err("the map changed in more than the new block"),
    }
}

/// The stamps of the log's entry that changed: a new one's begin at zero, its
/// extent 0 is created now, and any is updated now, where the label asks for it.
fn put_log_stamps(due: &mut World, before: &World, after: &World, entry: usize) {
    if !before.is_dated() {
        return;
    }
    let place = stamps_place(entry);
    let now = before.time.stamp();
    if !before.is_used(entry) {
        put(due, place, &[0; 8]);
        if extent(after.entry(entry)) == 0 && before.asks(asks::CREATE) {
            put(due, place, &now);
        }
    }
    if before.asks(asks::UPDATE) {
        put(due, place + 4, &now);
    }
}

/// A second run, with any bytes for the word and any time: it answers again, with
/// the same word, and changes nothing but access stamps.
pub fn check_next(
    seed: u64,
    after: &World,
    run: &Run,
    picked: Picked,
    picker: &mut dyn Picker,
) -> Result<(), &'static str> {
    if !matches!(picked.pick, Pick::Logged | Pick::Again) {
        return Ok(());
    }
    let mut random = Random::new(seed);
    let mut next = after.clone();
    let bytes: [u8; RECORD_BYTES] = random.bytes();
    next.buffer.cells_mut().copy_from_slice(&bytes);
    next.time = some_time(&mut random);
    let began = next.clone();
    let again = next.pick(picker, run);
    if (again.pick, again.given) != (Pick::Again, true) {
        return Err("the second run does not answer again");
    }
    if next.buffer != after.buffer {
        return Err("the second run has another word");
    }
    check_session(began.session, again)?;
    only_access_stamps(&began, &next, run)
}
