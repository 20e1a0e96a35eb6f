//! Disks to start from: consistent ones of every fullness.

use crate::random::Random;
use crate::sequence::{Step, Time};
use crate::world::{asks, World, DATES, EMPTY, LABEL};
use reference::diskette::{BLOCKS, DIRECTORY_PLACES, RECORD_BYTES};

/// Name and type without attributes.
pub type Name = [u8; 11];

/// One entry.
pub type Row = [u8; 32];

/// The names, users and times of a sequence. There are few, and they are alike,
/// so that calls meet each other's files, nearly equal names and stamps of the
/// same time.
pub struct Cast {
    /// Names that obey the name rule.
    pub names: Vec<Name>,
    /// Users; the first is the session's as a rule.
    pub users: Vec<u8>,
    /// Times in BCD.
    pub times: Vec<Time>,
}

impl Cast {
    /// Names and users for one sequence.
    pub fn new(random: &mut Random) -> Self {
        let first = plain_name(random);
        let mut names = vec![first];
        for _ in 0..random.from_to(1, 5) {
            let near = random.one_of(&names);
            let name = if random.chance(70) {
                nearly(random, near)
            } else {
                plain_name(random)
            };
            names.push(name);
        }
        let mut users = vec![random.one_of(&[0, 0, 1, 15, 7])];
        for _ in 0..random.below(3) {
            users.push(random.below(16) as u8);
        }
        let times = (0..3).map(|_| some_time(random)).collect();
        Self {
            names,
            users,
            times,
        }
    }

    /// A time: one of the cast's, or another.
    pub fn time(&self, random: &mut Random) -> Time {
        match random.chance(70) {
            true => random.one_of(&self.times),
            false => some_time(random),
        }
    }
}

/// Two decimal digits in a byte.
fn some_bcd(random: &mut Random, most: usize) -> u8 {
    let number = random.from_to(0, most) as u8;
    16 * (number / 10) + number % 10
}

/// Any time in BCD, of a clock in most cases.
pub fn some_time(random: &mut Random) -> Time {
    let (hours, minutes) = match random.chance(70) {
        true => (23, 59),
        false => (99, 99),
    };
    Time {
        day: match random.below(6) {
            0 => random.one_of(&[0, 1, 255, 256, 65_535]),
            _ => random.number() as u16,
        },
        hour: some_bcd(random, hours),
        minute: some_bcd(random, minutes),
    }
}

/// What stands on a disk beside files.
#[derive(Clone, Copy, Debug)]
pub(crate) struct Aside {
    dates: bool,
    /// What the label asks for, where there is one.
    label: Option<u8>,
}

/// How likely each is. Nearly half the disks have neither.
pub(crate) const ASIDES: [(usize, Aside); 14] = [
    (112, aside(false, None)),
    (4, aside(false, Some(0))),
    (11, aside(false, Some(asks::CREATE | asks::UPDATE))),
    (9, aside(false, Some(asks::ACCESS | asks::UPDATE))),
    (2, aside(false, Some(asks::CREATE))),
    (2, aside(false, Some(asks::ACCESS))),
    (2, aside(false, Some(asks::UPDATE))),
    (8, aside(true, None)),
    (5, aside(true, Some(0))),
    (7, aside(true, Some(asks::CREATE))),
    (7, aside(true, Some(asks::ACCESS))),
    (8, aside(true, Some(asks::UPDATE))),
    (34, aside(true, Some(asks::CREATE | asks::UPDATE))),
    (27, aside(true, Some(asks::ACCESS | asks::UPDATE))),
];

const fn aside(dates: bool, label: Option<u8>) -> Aside {
    Aside { dates, label }
}

/// A stamp, of a time of the cast's in many cases.
fn some_stamp(random: &mut Random, cast: &Cast) -> [u8; 4] {
    match random.below(4) {
        0 => [0; 4],
        1 => some_time(random).stamp(),
        _ => random.one_of(&cast.times).stamp(),
    }
}

/// A date entry that is right: mode and reserved bytes may be anything.
pub fn dates_row(random: &mut Random, cast: &Cast) -> Row {
    let mut row: Row = random.bytes();
    row[0] = DATES;
    for at in [1, 5, 11, 15, 21, 25] {
        row[at..at + 4].copy_from_slice(&some_stamp(random, cast));
    }
    row
}

/// A label that asks for some stamps, and right but for these. What else it
/// holds may be anything, as the numbers of blocks that files have.
pub fn label_row(random: &mut Random, cast: &Cast, asked: u8) -> Row {
    let mut row: Row = random.bytes();
    if random.chance(50) {
        row[1..12].copy_from_slice(&random.one_of(&cast.names));
    }
    row[0] = LABEL;
    row[12] = asked | row[12] & 0x8F;
    for at in [24, 28] {
        row[at..at + 4].copy_from_slice(&some_stamp(random, cast));
    }
    row
}

/// Name bytes at the borders of the rule and beside 3FH, and letters.
const NAME_BYTES: [u8; 14] = [
    0x20, 0x20, 0x20, 0x21, 0x22, 0x3E, 0x40, 0x41, 0x42, 0x5A, 0x61, 0x65, 0x7D, 0x7E,
];

/// A name that obeys the rule.
pub fn plain_name(random: &mut Random) -> Name {
    let mut name: Name = std::array::from_fn(|_| random.one_of(&NAME_BYTES));
    name[0] = random.one_of(&NAME_BYTES[3..]);
    name
}

/// A name that obeys the rule and differs from another in one byte at most.
pub fn nearly(random: &mut Random, mut name: Name) -> Name {
    let at = random.below(11);
    name[at] = random.one_of(&NAME_BYTES[if at == 0 { 3 } else { 0 }..]);
    name
}

/// How full a disk is.
#[derive(Clone, Copy, Debug)]
struct Fullness {
    /// Used entries, from and to.
    entries: (usize, usize),
    /// Blocks listed, from and to, as far as the entries have slots for them.
    blocks: (usize, usize),
    /// Blocks of a hundred free ones that are pending at the start.
    pending: usize,
}

/// How likely each fullness is.
const FULLNESSES: [(usize, Fullness); 9] = [
    // Empty.
    (1, fullness((0, 0), (0, 0), 0)),
    // A few files.
    (4, fullness((1, 6), (0, 40), 10)),
    // Half full.
    (4, fullness((20, 44), (60, 160), 10)),
    // A full directory.
    (3, fullness((64, 64), (0, 200), 20)),
    // A nearly full directory.
    (3, fullness((60, 63), (0, 200), 20)),
    // Full blocks.
    (3, fullness((16, 63), (241, 241), 0)),
    // Nearly full blocks.
    (3, fullness((16, 60), (225, 240), 0)),
    // Blocks all pending or listed.
    (2, fullness((2, 30), (20, 120), 100)),
    // Full of both.
    (1, fullness((63, 64), (238, 241), 50)),
];

const fn fullness(entries: (usize, usize), blocks: (usize, usize), pending: usize) -> Fullness {
    Fullness {
        entries,
        blocks,
        pending,
    }
}

/// The steps that put a disk into a new world.
pub fn some_disk(random: &mut Random, cast: &Cast) -> Vec<Step> {
    let fullness = random.weighted(&FULLNESSES);
    let aside = random.weighted(&ASIDES);
    let mut rows = some_rows(random, cast, fullness, aside);
    let mut free = list_blocks(random, &mut rows, fullness);
    let mut steps = Vec::new();
    for (record, four) in rows.as_chunks::<4>().0.iter().enumerate() {
        let bytes = four.as_flattened();
        steps.push(Step::Sector {
            number: (DIRECTORY_PLACES[record] / RECORD_BYTES) as u16,
            bytes: std::array::from_fn(|i| bytes[i]),
        });
    }
    steps.extend(recorded_notes(&rows));
    free.retain(|_| random.chance(fullness.pending));
    steps.extend(pending_notes(random, &rows, &free));
    steps
}

/// 64 entries, as many used as asked for and as there is room for, without
/// blocks yet.
fn some_rows(random: &mut Random, cast: &Cast, fullness: Fullness, aside: Aside) -> [Row; 64] {
    let (low, high) = fullness.entries;
    let read_only = random.one_of(&[0, 5, 15, 30]);
    let mut rows: [Row; 64] = std::array::from_fn(|_| empty_row(random, cast));
    let mut places = put_aside(random, cast, aside, &mut rows);
    if random.chance(60) {
        random.shuffle(&mut places);
    }
    // What is left out is left out at the end: nearly full stays nearly full.
    let count = random.from_to(low, high).saturating_sub(match low {
        60.. => 64 - places.len(),
        _ => 0,
    });
    let mut taken = Vec::new();
    for &place in places.iter().take(count) {
        let row = loop {
            let row = used_row(random, cast, read_only, &taken);
            if !taken.contains(&identity(&row)) {
                break row;
            }
        };
        taken.push(identity(&row));
        rows[place] = row;
    }
    rows
}

/// Puts label and date entries on a disk, and gives the places that are left.
pub(crate) fn put_aside(
    random: &mut Random,
    cast: &Cast,
    aside: Aside,
    rows: &mut [Row; 64],
) -> Vec<usize> {
    let mut places: Vec<usize> = (0..64).collect();
    if aside.dates {
        places.retain(|place| place % 4 != 3);
        for fourth in (3..64).step_by(4) {
            rows[fourth] = dates_row(random, cast);
        }
    }
    if let Some(asked) = aside.label {
        let at = match random.chance(50) {
            true => 0,
            false => random.below(places.len()),
        };
        rows[places.remove(at)] = label_row(random, cast, asked);
    }
    places
}

/// What tells an entry apart.
pub(crate) fn identity(row: &Row) -> (u8, Name, u16) {
    let name = std::array::from_fn(|i| row[1 + i] & 0x7F);
    (row[0], name, 32 * u16::from(row[14]) + u16::from(row[12]))
}

/// An empty entry: all E5H, or what a delete leaves.
pub(crate) fn empty_row(random: &mut Random, cast: &Cast) -> Row {
    if random.chance(50) {
        return [0xE5; 32];
    }
    let mut row = used_row(random, cast, 20, &[]);
    row[0] = 0xE5;
    for slot in &mut row[16..] {
        *slot = random.byte();
    }
    row
}

/// A used entry without blocks, and with an identity that is not taken in most
/// cases.
fn used_row(random: &mut Random, cast: &Cast, read_only: usize, taken: &[(u8, Name, u16)]) -> Row {
    let user = match random.chance(80) {
        true => cast.users[0],
        false => random.one_of(&cast.users),
    };
    let name = match random.chance(90) {
        true => random.one_of(&cast.names),
        false => plain_name(random),
    };
    let next = (0..).find(|&extent| !taken.contains(&(user, name, extent)));
    let extent = match random.below(10) {
        0..=5 => next.unwrap_or(0),
        6 => random.from_to(30, 34) as u16,
        7 => random.from_to(2_044, 2_047) as u16,
        8 => 2_047,
        _ => random.below(2_048) as u16,
    };
    let mut row = [0; 32];
    row[0] = user;
    row[1..12].copy_from_slice(&name);
    for byte in &mut row[1..12] {
        *byte |= u8::from(random.chance(10)) << 7;
    }
    row[9] = row[9] & 0x7F | u8::from(random.chance(read_only)) << 7;
    row[12] = (extent % 32) as u8;
    row[13] = if random.chance(20) { random.byte() } else { 0 };
    row[14] = (extent / 32) as u8;
    row[15] = some_rc(random);
    row
}

/// Any rc: a full count most often, and one over 128 in more than a quarter.
pub fn some_rc(random: &mut Random) -> u8 {
    match random.below(10) {
        0..=3 => 128,
        4 => 0,
        5 | 6 => random.from_to(129, 255) as u8,
        7 => random.one_of(&[127, 129, 130, 255]),
        _ => random.from_to(0, 128) as u8,
    }
}

/// Puts blocks into the slots of used entries and gives those left free.
fn list_blocks(random: &mut Random, rows: &mut [Row; 64], fullness: Fullness) -> Vec<u8> {
    let mut blocks: Vec<u8> = (2..BLOCKS as u8).collect();
    random.shuffle(&mut blocks);
    let mut slots: Vec<(usize, usize)> = (0..64)
        .filter(|&entry| is_used(&rows[entry]))
        .flat_map(|entry| (16..32).map(move |slot| (entry, slot)))
        .collect();
    // From the front in some cases, anywhere in others.
    match random.chance(50) {
        true => slots.sort_by_key(|&(entry, slot)| (slot, entry)),
        false => random.shuffle(&mut slots),
    }
    let (low, high) = fullness.blocks;
    let count = random.from_to(low, high).min(slots.len());
    for (&block, &(entry, slot)) in blocks.iter().zip(&slots[..count]) {
        rows[entry][slot] = block;
    }
    blocks.split_off(count.min(blocks.len()))
}

/// Whether an entry is a file's.
pub(crate) fn is_used(row: &Row) -> bool {
    ![EMPTY, LABEL, DATES].contains(&row[0])
}

/// A note of 2 for every listed block.
fn recorded_notes(rows: &[Row; 64]) -> Vec<Step> {
    let used = rows.iter().filter(|row| is_used(row));
    let listed = used.flat_map(|row| &row[16..]).filter(|&&block| block != 0);
    listed.map(|&block| Step::Note { block, note: 2 }).collect()
}

/// A pending note for each of some free blocks.
fn pending_notes(random: &mut Random, rows: &[Row; 64], blocks: &[u8]) -> Vec<Step> {
    let used: Vec<usize> = (0..64).filter(|&entry| is_used(&rows[entry])).collect();
    if used.is_empty() {
        return Vec::new();
    }
    let note = |random: &mut Random| {
        let (entry, slot) = (random.one_of(&used), random.below(16));
        (16 + 16 * entry + slot) as u16
    };
    let noted = blocks.iter().map(|&block| Step::Note {
        block,
        note: note(random),
    });
    noted.collect()
}

/// A world with a disk from a seed, for tests.
pub fn world_with_disk(seed: u64) -> World {
    let mut random = Random::new(seed);
    let cast = Cast::new(&mut random);
    let mut world = World::new(seed);
    for step in some_disk(&mut random, &cast) {
        world.prepare(&step);
    }
    world
}

#[cfg(test)]
mod tests {
    use super::*;

    #[test]
    fn every_disk_is_sound() {
        for seed in 0..300 {
            let world = world_with_disk(seed);
            assert_eq!(crate::faults::in_image(&world), None, "seed {seed}");
            assert_eq!(crate::faults::in_map(&world), None, "seed {seed}");
        }
    }

    #[test]
    fn disks_are_of_every_fullness() {
        for dated in [false, true] {
            let (mut empty, mut half, mut no_entry, mut no_block) = (0, 0, 0, 0);
            for seed in 0..300 {
                let world = world_with_disk(seed);
                if world.is_dated() != dated {
                    continue;
                }
                let used = world.used().count();
                empty += usize::from(used == 0);
                half += usize::from((20..45).contains(&used));
                no_entry += usize::from(world.of_kind(EMPTY).next().is_none());
                no_block += usize::from(!world.map.cells().contains(&0));
            }
            assert!(empty.min(half).min(no_entry).min(no_block) > 2, "{dated}");
        }
    }

    #[test]
    fn times_are_of_every_kind() {
        let mut random = Random::new(9);
        let times: Vec<Time> = (0..20_000).map(|_| some_time(&mut random)).collect();
        for day in [0, 1, 255, 256, 65_535] {
            assert!(times.iter().any(|time| time.day == day), "{day}");
        }
        let different = |part: fn(&Time) -> u8| {
            let parts: std::collections::BTreeSet<u8> = times.iter().map(part).collect();
            parts.len()
        };
        assert_eq!(different(|time| time.hour), 100);
        assert_eq!(different(|time| time.minute), 100);
        assert_eq!(different(|time| time.day.to_le_bytes()[0]), 256);
        assert_eq!(different(|time| time.day.to_le_bytes()[1]), 256);
    }

    /// Many disks have neither date entries nor a label; the others have
    /// labels of every kind, or none.
    #[test]
    fn disks_are_dated_and_labelled_in_every_way() {
        let mut times = std::collections::BTreeMap::new();
        for seed in 0..2_000 {
            let world = world_with_disk(seed);
            let label = world.of_kind(LABEL).next();
            let asked = label.map(|entry| world.entry(entry)[12] & 0x70);
            *times.entry((world.is_dated(), asked)).or_insert(0) += 1;
        }
        assert_eq!(times.len(), 14, "{times:?}");
        assert!(times.values().all(|&times| times > 5), "{times:?}");
        assert!(times[&(false, None)] > 800, "{times:?}");
        let undated = times.iter().filter(|((dated, _), _)| !dated);
        let undated: usize = undated.map(|(_, times)| times).sum();
        assert!(undated > 1_000, "{times:?}");
    }
}
