//! Runs to be made: disks with books and logs of every shape, and what is asked.

use super::Run;
use crate::disks::{
    self, identity, is_used, nearly, plain_name, put_aside, some_rc, some_time, Cast, Name, Row,
};
use crate::random::Random;
use crate::world::{World, RIGHT_LENGTHS};
use reference::diskette::{self, BLOCKS};
use reference::{Session, Wanted};

/// What a case is meant to show. What comes of it is not asked here.
#[derive(Clone, Copy, Debug, PartialEq, Eq)]
enum Aim {
    Fine,
    NewLog,
    Hit,
    DayOver,
    NoBook,
    NoWord,
    OneFile,
    NoFirst,
    FullLog,
    ReadOnly,
    FullDirectory,
    FullDisk,
    BothFull,
}

/// How likely each is.
const AIMS: [(usize, Aim); 13] = [
    (12, Aim::Fine),
    (6, Aim::NewLog),
    (9, Aim::Hit),
    (6, Aim::DayOver),
    (6, Aim::NoBook),
    (8, Aim::NoWord),
    (6, Aim::OneFile),
    (7, Aim::NoFirst),
    (11, Aim::FullLog),
    (11, Aim::ReadOnly),
    (11, Aim::FullDirectory),
    (11, Aim::FullDisk),
    (4, Aim::BothFull),
];

/// Where the day stands in the log.
#[derive(Clone, Copy, Debug, PartialEq, Eq)]
enum Hit {
    Nowhere,
    Anywhere,
    Last,
    First,
    /// In the last extents, past record 1,024 where the log is that long.
    Late,
}

/// Which entries of the log are read-only.
#[derive(Clone, Copy, Debug, PartialEq, Eq)]
enum ReadOnly {
    None,
    First,
    Last,
    Middle,
    All,
}

/// What the disk is to be like.
#[derive(Clone, Copy, Debug)]
struct Plan {
    year: u16,
    day: u16,
    /// The book has extent 0.
    book: bool,
    /// The day's record is in the book.
    word: bool,
    one_file: bool,
    log: bool,
    /// The log has extent 0.
    first: bool,
    /// The log's size.
    size: u32,
    /// Slots of a hundred that are holes.
    holes: usize,
    hit: Hit,
    read_only: ReadOnly,
    full_directory: bool,
    full_disk: bool,
}

/// Sizes of logs that are not full.
fn some_size(random: &mut Random) -> u32 {
    match random.below(10) {
        0 => 0,
        1 => random.one_of(&[1, 7, 8, 9, 15, 16, 17]),
        2 => random.one_of(&[120, 127, 129, 135, 136, 255, 257]),
        3 => random.one_of(&[1_015, 1_016, 1_022, 1_023, 1_023, 1_023, 897]),
        4 => random.below(1_024) as u32,
        5 => 128 * random.one_of(&[1, 1, 2, 3, 7]),
        _ => random.below(200) as u32,
    }
}

/// Sizes of logs that are.
fn some_full_size(random: &mut Random) -> u32 {
    match random.below(60) {
        0 if random.chance(10) => random.one_of(&[262_143, 262_144]),
        0 => random.one_of(&[4_096, 4_097, 4_224, 5_000]),
        1 => random.one_of(&[1_025, 1_032, 1_100, 1_152, 1_153, 1_300]),
        2..=30 => 1_024,
        _ => random.from_to(1_024, 1_200) as u32,
    }
}

impl Plan {
    fn new(random: &mut Random) -> Plan {
        let mut plan = Plan {
            year: match random.below(3) {
                0 => random.one_of(&[0, 1, 9, 10, 255, 256, 1_978, 9_999, 10_000, 65_535]),
                1 => random.number() as u16,
                _ => 2_026,
            },
            day: match random.below(3) {
                0 => random.one_of(&[0, 1, 9, 10, 99, 100, 127, 128, 255, 256, 364, 365, 365]),
                _ => random.below(366) as u16,
            },
            book: true,
            word: true,
            one_file: false,
            log: random.chance(85),
            first: true,
            size: some_size(random),
            holes: random.one_of(&[0, 0, 0, 10, 40, 100]),
            hit: Hit::Nowhere,
            read_only: ReadOnly::None,
            full_directory: false,
            full_disk: false,
        };
        let aim = random.weighted(&AIMS);
        plan.take(aim, random);
        // Two troubles at once show which is told first.
        if random.chance(20) {
            let other = random.weighted(&AIMS);
            plan.take(other, random);
        }
        plan
    }

    fn take(&mut self, aim: Aim, random: &mut Random) {
        match aim {
            Aim::Fine => {}
            Aim::NewLog => self.log = false,
            Aim::Hit => self.take_hit(random),
            Aim::DayOver => self.day = some_late_day(random),
            Aim::NoBook => self.book = false,
            Aim::NoWord => self.word = false,
            Aim::OneFile => self.one_file = true,
            Aim::NoFirst => (self.log, self.first) = (true, false),
            Aim::FullLog => {
                (self.log, self.size) = (true, some_full_size(random));
                if random.chance(25) {
                    self.take_hit(random);
                }
            }
            Aim::ReadOnly => {
                let which = [
                    ReadOnly::First,
                    ReadOnly::First,
                    ReadOnly::Last,
                    ReadOnly::Last,
                    ReadOnly::Middle,
                    ReadOnly::Middle,
                    ReadOnly::All,
                ];
                (self.log, self.read_only) = (true, random.one_of(&which));
                if random.chance(12) {
                    self.take_hit(random);
                }
            }
            Aim::FullDirectory => self.take_full_directory(random),
            Aim::FullDisk => self.take_full_disk(random),
            Aim::BothFull => {
                self.take_full_disk(random);
                self.take_full_directory(random);
            }
        }
    }

    fn take_hit(&mut self, random: &mut Random) {
        let hits = [
            Hit::Anywhere,
            Hit::Anywhere,
            Hit::Last,
            Hit::First,
            Hit::Late,
        ];
        (self.log, self.hit) = (true, random.one_of(&hits));
        self.size = self.size.max(1);
    }

    /// A full directory matters where an entry is to be made.
    fn take_full_directory(&mut self, random: &mut Random) {
        self.full_directory = true;
        self.log = random.chance(60);
        if random.chance(80) {
            self.size = 128 * random.from_to(1, 7) as u32;
        }
    }

    /// A full disk matters where a block is to be taken.
    fn take_full_disk(&mut self, random: &mut Random) {
        self.full_disk = true;
        self.log = random.chance(60);
        if random.chance(80) {
            self.size -= self.size % 8;
        }
    }
}

/// Days that no year has.
fn some_late_day(random: &mut Random) -> u16 {
    match random.below(3) {
        0 => 366,
        1 => random.from_to(366, 400) as u16,
        _ => random.from_to(366, 65_535) as u16,
    }
}

/// A disk that is being put together.
struct Builder<'a> {
    random: &'a mut Random,
    plan: Plan,
    wanted: Wanted,
    user: u8,
    rows: [Row; 64],
    /// Entries and blocks that are still free.
    places: Vec<usize>,
    blocks: Vec<u8>,
    log_entries: Vec<usize>,
}

impl<'a> Builder<'a> {
    /// An empty disk, with a label and date entries or without.
    fn new(random: &'a mut Random, plan: Plan, wanted: Wanted, user: u8) -> Self {
        let cast = Cast::new(random);
        let mut rows = std::array::from_fn(|_| disks::empty_row(random, &cast));
        let aside = random.weighted(&disks::ASIDES);
        let mut places = put_aside(random, &cast, aside, &mut rows);
        random.shuffle(&mut places);
        let mut blocks: Vec<u8> = (2..BLOCKS as u8).collect();
        random.shuffle(&mut blocks);
        Builder {
            random,
            plan,
            wanted,
            user,
            rows,
            places,
            blocks,
            log_entries: Vec::new(),
        }
    }

    /// Book, log and others.
    fn build(&mut self, others: &[Name]) {
        if self.random.chance(30) {
            self.put_others(others);
        }
        self.put_book();
        if self.plan.log && !self.plan.one_file {
            self.put_log();
        }
        self.put_others(others);
        self.fill();
    }

    /// Takes an entry for an extent of a file; nothing where none is left.
    fn put(&mut self, user: u8, name: &Name, extent: u16, rc: u8) -> Option<usize> {
        let mut row = [0; 32];
        row[0] = user;
        row[1..12].copy_from_slice(name);
        for byte in &mut row[1..12] {
            *byte |= u8::from(self.random.chance(8)) << 7;
        }
        row[9] &= 0x7F;
        row[12] = (extent % 32) as u8;
        row[13] = u8::from(self.random.chance(10)) * self.random.byte();
        row[14] = (extent / 32) as u8;
        row[15] = rc;
        let known = |other: &Row| is_used(other) && identity(other) == identity(&row);
        if self.rows.iter().any(known) {
            return None;
        }
        let entry = self.places.pop()?;
        self.rows[entry] = row;
        Some(entry)
    }

    /// Lists blocks for the records that an entry counts, but for holes.
    fn list(&mut self, entry: usize, holes: usize) {
        let count = usize::from(self.rows[entry][15].min(128));
        let more = usize::from(self.random.chance(5));
        for slot in 0..(count.div_ceil(8) + more).min(16) {
            if self.random.chance(holes) {
                continue;
            }
            if let Some(block) = self.blocks.pop() {
                self.rows[entry][16 + slot] = block;
            }
        }
    }

    /// The book: three extents, of which some may be missing.
    fn put_book(&mut self) {
        let name = self.wanted.book.map(|byte| byte & 0x7F);
        let of_day = self.wanted.day / 128;
        let within = (self.wanted.day % 128) as u8;
        // Without its word: no extent, a count that is too low, or a hole.
        let way = self.random.below(3);
        let missing = |extent: u16| !self.plan.word && way == 0 && extent == of_day;
        let extents: Vec<u16> = (0..3)
            .filter(|&extent| extent > 0 || self.plan.book)
            .filter(|&extent| extent == 0 || !missing(extent))
            .collect();
        for extent in extents {
            let is_last = extent == of_day;
            let rc = match self.plan.word || !is_last || way == 2 {
                true if self.random.chance(30) => 128,
                true if self.random.chance(20) => self.random.from_to(128, 255) as u8,
                true => self.random.from_to(usize::from(within) + 1, 128) as u8,
                false => self.random.from_to(0, usize::from(within)) as u8,
            };
            let Some(entry) = self.put(self.user, &name, extent, rc) else {
                continue;
            };
            let holes = self.random.one_of(&[0, 0, 30]);
            self.list(entry, holes);
            let slot = 16 + usize::from(within / 8);
            if is_last && !self.plan.word && way != 1 {
                self.blocks
                    .extend(Some(self.rows[entry][slot]).filter(|&b| b != 0));
                self.rows[entry][slot] = 0;
            } else if is_last && self.plan.word && self.rows[entry][slot] == 0 {
                self.rows[entry][slot] = self.blocks.pop().unwrap_or(0);
            }
        }
    }

    /// The log, whose last entry ends at its size.
    fn put_log(&mut self) {
        let name = self.wanted.log.map(|byte| byte & 0x7F);
        let size = self.plan.size;
        // At the end of an extent the next one may be there already, empty.
        let next = size > 0 && size.is_multiple_of(128) && self.random.chance(15);
        let last = match size.is_multiple_of(128) && size > 0 && !next {
            true => size / 128 - 1,
            false => size / 128,
        } as u16;
        let mut extents = vec![0, last];
        let gaps = self.random.one_of(&[0, 0, 0, 20, 70]);
        extents.extend((1..last.min(12)).filter(|_| !self.random.chance(gaps)));
        extents.sort_unstable();
        extents.dedup();
        if !self.plan.first {
            extents.retain(|&extent| extent > 0);
            if extents.is_empty() {
                extents.push(self.random.from_to(1, 40) as u16);
            }
        }
        for extent in extents {
            let rc = match (extent == last, self.random.below(10)) {
                (true, _) => match size - 128 * u32::from(last) {
                    128 if self.random.chance(30) => self.random.from_to(129, 255) as u8,
                    rc => rc as u8,
                },
                (false, 0) => some_rc(self.random),
                (false, 1) => self.random.below(128) as u8,
                (false, _) => 128,
            };
            if let Some(entry) = self.put(self.user, &name, extent, rc) {
                self.list(entry, self.plan.holes);
                self.log_entries.push(entry);
            }
        }
        self.mark_read_only();
    }

    fn mark_read_only(&mut self) {
        let entries = &self.log_entries;
        let marked: Vec<usize> = match (self.plan.read_only, &entries[..]) {
            (ReadOnly::First, [first, ..]) => vec![*first],
            (ReadOnly::Last, [.., last]) => vec![*last],
            (ReadOnly::Middle, [_, middle @ .., _]) => middle.to_vec(),
            (ReadOnly::All, all) => all.to_vec(),
            _ => Vec::new(),
        };
        for entry in marked {
            self.rows[entry][9] |= 0x80;
        }
    }

    /// Files beside book and log: of names like theirs, and theirs of other users.
    fn put_others(&mut self, names: &[Name]) {
        let count = match self.random.below(3) {
            0 => 0,
            1 => self.random.below(6),
            _ => self.random.below(20),
        };
        for _ in 0..count {
            let stranger = self.random.chance(40);
            let user = match stranger {
                true => (self.user + 1 + self.random.below(15) as u8) % 16,
                false => self.user,
            };
            let name = match self.random.below(3) {
                0 if stranger => self.wanted.book.map(|byte| byte & 0x7F),
                1 if stranger => self.wanted.log.map(|byte| byte & 0x7F),
                _ => self.random.one_of(names),
            };
            self.put_other(user, &name);
        }
    }

    fn put_other(&mut self, user: u8, name: &Name) -> Option<usize> {
        let extent = self.random.below(4) as u16;
        let rc = some_rc(self.random);
        let entry = self.put(user, name, extent, rc)?;
        self.list(entry, 50);
        if self.random.chance(20) {
            self.rows[entry][9] |= 0x80;
        }
        Some(entry)
    }

    /// Takes every entry that is left, or every block, for files of others.
    fn fill(&mut self) {
        if self.plan.full_disk && self.random.chance(70) {
            while !self.blocks.is_empty() && self.places.len() > 1 {
                let name = plain_name(self.random);
                let Some(entry) = self.put(self.user, &name, 0, 128) else {
                    continue;
                };
                self.list(entry, 0);
            }
        }
        while self.plan.full_directory && !self.places.is_empty() {
            let name = plain_name(self.random);
            let rc = some_rc(self.random);
            if let Some(entry) = self.put(self.user, &name, 0, rc) {
                self.list(entry, 90);
            }
        }
    }

    /// The map, with some or all free blocks pending.
    fn map(&mut self) -> Vec<u16> {
        let mut map = vec![0; BLOCKS];
        map[..2].fill(1);
        for row in self.rows.iter().filter(|row| is_used(row)) {
            for &block in row[16..].iter().filter(|&&block| block != 0) {
                map[usize::from(block)] = 2;
            }
        }
        let used: Vec<usize> = (0..64).filter(|&e| is_used(&self.rows[e])).collect();
        let pending = match self.plan.full_disk {
            true => 100,
            false => self.random.one_of(&[0, 0, 5, 30]),
        };
        for &block in &self.blocks {
            if self.random.chance(pending) && !used.is_empty() {
                let (entry, slot) = (self.random.one_of(&used), self.random.below(16));
                map[usize::from(block)] = (16 + 16 * entry + slot) as u16;
            }
        }
        map
    }
}

/// The nine bytes of a year and day.
fn stamp(year: u32, day: u32) -> [u8; 9] {
    let text = format!("{:05} {:03}", year % 100_000, day % 1_000);
    std::array::from_fn(|i| text.as_bytes()[i])
}

/// A stamp that is nearly that of a year and day.
fn nearly_stamp(random: &mut Random, wanted: &Wanted) -> [u8; 9] {
    let (year, day) = (u32::from(wanted.year), u32::from(wanted.day));
    match random.below(4) {
        0 => stamp(year, day + 1 + random.below(300) as u32),
        1 => stamp(year + random.one_of(&[1, 10, 100, 1_000, 10_000]), day),
        2 => stamp(random.below(65_536) as u32, random.below(366) as u32),
        _ => {
            let mut bytes = stamp(year, day);
            let at = random.below(9);
            bytes[at] ^= 1 << random.below(8);
            bytes
        }
    }
}

/// Where the records of an entry are that it counts and lists.
fn records_there(row: &Row) -> Vec<usize> {
    let there = |within: &u8| row[16 + usize::from(within / 8)] != 0;
    let place = |within: u8| diskette::place(row[16 + usize::from(within / 8)], within);
    (0..row[15].min(128)).filter(there).map(place).collect()
}

/// Writes days into a log, and the wanted one where the plan has it.
fn write_log(random: &mut Random, world: &mut World, rows: &[&Row], plan: &Plan, wanted: &Wanted) {
    let there: Vec<usize> = rows.iter().flat_map(|row| records_there(row)).collect();
    let image = world.image.cells_mut();
    let mut put = |place: usize, bytes: [u8; 9], random: &mut Random| {
        image[place..place + 9].copy_from_slice(&bytes);
        if random.chance(80) {
            image[place + 9..place + 128].fill(0x1A);
            image[place + 9..place + 11].copy_from_slice(b"\r\n");
        }
    };
    for _ in 0..there.len().min(40) {
        let bytes = nearly_stamp(random, wanted);
        if bytes != stamp(u32::from(wanted.year), u32::from(wanted.day)) {
            put(random.one_of(&there), bytes, random);
        }
    }
    let late = rows.last().map_or(Vec::new(), |row| records_there(row));
    let place = match plan.hit {
        Hit::Nowhere => None,
        Hit::Anywhere => (!there.is_empty()).then(|| random.one_of(&there)),
        Hit::First => there.first().copied(),
        Hit::Last => there.last().copied(),
        Hit::Late => (!late.is_empty()).then(|| random.one_of(&late)),
    };
    if let Some(place) = place {
        let bytes = stamp(u32::from(wanted.year), u32::from(wanted.day));
        put(place, bytes, random);
    }
}

/// Writes the wanted day where no record of the log is: into blocks that are not
/// listed, and past the counts.
fn write_decoys(
    random: &mut Random,
    world: &mut World,
    rows: &[&Row],
    free: &[u8],
    wanted: &Wanted,
) {
    let past = rows.iter().flat_map(|row| {
        let beyond = |within: &u8| row[16 + usize::from(within / 8)] != 0;
        let place = |within: u8| diskette::place(row[16 + usize::from(within / 8)], within);
        (row[15].min(128)..128).filter(beyond).map(place)
    });
    let unlisted = free
        .iter()
        .flat_map(|&block| (0..8).map(move |r| diskette::place(block, r)));
    let bytes = stamp(u32::from(wanted.year), u32::from(wanted.day));
    for place in past.chain(unlisted) {
        if random.chance(50) {
            world.image.cells_mut()[place..place + 9].copy_from_slice(&bytes);
        }
    }
}

/// Names for a case: the book's, the log's, and such as are like them.
fn some_names(random: &mut Random) -> [Name; 4] {
    let book = match random.chance(50) {
        true => *b"WORDS   DAT",
        false => plain_name(random),
    };
    let other = |random: &mut Random, than: &[Name]| loop {
        let near = random.one_of(than);
        let name = match random.chance(60) {
            true => nearly(random, near),
            false => plain_name(random),
        };
        if !than.contains(&name) {
            return name;
        }
    };
    let log = other(random, &[book]);
    let third = other(random, &[book, log]);
    let fourth = other(random, &[book, log, third]);
    [book, log, third, fourth]
}

/// What is wanted, by a plan.
fn some_wanted(random: &mut Random, plan: &Plan, book: Name, log: Name) -> Wanted {
    let mut wanted = Wanted {
        year: plan.year,
        day: plan.day,
        book,
        log: if plan.one_file { book } else { log },
    };
    // Attributes in the names that are asked for mean nothing.
    for name in [&mut wanted.book, &mut wanted.log] {
        if random.chance(40) {
            for byte in name {
                *byte |= u8::from(random.chance(30)) << 7;
            }
        }
    }
    wanted
}

/// Any session of a user.
fn some_session(random: &mut Random, user: u8) -> Session {
    Session {
        user,
        pattern: random.bytes(),
        place: random.below(65) as u16,
        on: random.one_of(&[0, 0, 1, 255]),
        lifted: random.one_of(&[0, 0, 0, 0, 1, 1, 2, 255]),
    }
}

/// A run on a world, from a seed.
pub fn case(seed: u64) -> (World, Run) {
    // Another stream than that of the world's own bytes.
    let mut random = Random::new(!seed);
    let random = &mut random;
    let plan = Plan::new(random);
    let [book, log, others @ ..] = some_names(random);
    let wanted = some_wanted(random, &plan, book, log);
    let user = random.below(16) as u8;
    let mut builder = Builder::new(random, plan, wanted, user);
    builder.build(&others);
    let map = builder.map();
    let (rows, free, entries) = (builder.rows, builder.blocks, builder.log_entries);
    let mut world = world_with(seed, &rows, &map);
    let log_rows: Vec<&Row> = entries.iter().map(|&entry| &rows[entry]).collect();
    if random.chance(50) {
        write_decoys(random, &mut world, &log_rows, &free, &wanted);
    }
    write_log(random, &mut world, &log_rows, &plan, &wanted);
    world.session = some_session(random, user);
    world.time = some_time(random);
    let word: [u8; 128] = random.bytes();
    world.buffer.cells_mut().copy_from_slice(&word);
    let mut run = Run {
        wanted,
        lengths: RIGHT_LENGTHS,
    };
    spoil(random, &mut world, &mut run);
    (world, run)
}

/// A world with these entries and this map.
fn world_with(seed: u64, rows: &[Row; 64], map: &[u16]) -> World {
    let mut world = World::new(seed);
    for (entry, row) in rows.iter().enumerate() {
        let place = World::entry_place(entry);
        world.image.cells_mut()[place..][..32].copy_from_slice(row);
    }
    world.map.cells_mut().copy_from_slice(map);
    world
}

/// Makes something wrong in a few cases: what every call refuses.
fn spoil(random: &mut Random, world: &mut World, run: &mut Run) {
    match random.below(100) {
        0..4 => spoil_call(random, world, run),
        4..8 => spoil_disk(random, world),
        8..12 => {
            let name = match random.chance(40) {
                true => &mut run.wanted.book,
                false => &mut run.wanted.log,
            };
            let at = random.below(11);
            name[at] = match random.chance(50) {
                true => random.one_of(&[0x3F, 0x1F, 0x7F, 0xBF, 0, 0xFF]),
                false => random.byte(),
            };
            if at == 0 && random.chance(50) {
                name[0] = random.one_of(&[0x20, 0xA0]);
            }
        }
        _ => {}
    }
}

/// Makes a length, the session or the time wrong.
fn spoil_call(random: &mut Random, world: &mut World, run: &mut Run) {
    let lengths = &mut run.lengths;
    let bad_digits = [0x0A, 0xA0, 0x9A, 0xFF, 0x6B];
    match random.below(8) {
        0 => lengths.image = random.one_of(&[0, 1, lengths.image - 1, lengths.image + 1]),
        1 => lengths.map = random.one_of(&[0, 1, lengths.map - 1, lengths.map + 1]),
        2..=4 => lengths.buffer = random.one_of(&[0, 1, 64, 127, 129]),
        5 => world.session.user = random.from_to(16, 255) as u8,
        6 => world.session.place = random.one_of(&[65, 66, 256, 65_535]),
        _ if random.chance(50) => world.time.hour = random.one_of(&bad_digits),
        _ => world.time.minute = random.one_of(&bad_digits),
    }
}

/// Makes the directory or the map wrong, in most cases.
fn spoil_disk(random: &mut Random, world: &mut World) {
    match random.chance(50) {
        true => {
            let place = World::entry_place(random.below(64)) + random.below(32);
            world.image.cells_mut()[place] = match random.chance(50) {
                true => random.one_of(&[0, 1, 16, 32, 33, 64, 243, 255]),
                false => random.byte(),
            };
        }
        false => {
            let block = random.below(BLOCKS);
            world.map.cells_mut()[block] = match random.chance(50) {
                true => random.one_of(&[0, 1, 2, 3, 15, 16, 1_039, 1_040]),
                false => random.number() as u16,
            };
        }
    }
}
