//! Chooses what happens next, steered so that every cause of the table comes
//! up and most calls still have something to work on.

use crate::disks::{dates_row, label_row, nearly, plain_name, some_disk, some_rc, Cast, Name, Row};
use crate::faults::{is_bad_bcd, DIGITS_OF_DATES, DIGITS_OF_LABEL};
use crate::laws::count;
use crate::random::Random;
use crate::sequence::{Ask, Step, Time};
use crate::world::{asks, World, DATES, EMPTY, FCBS, LABEL, MOST_OVER};
use reference::{Session, FCB_BYTES, LISTED};

/// An FCB's bytes.
type Fcb = [u8; FCB_BYTES];

/// The FCB that takes noise, so that the others stay useful.
const NOISY: usize = FCBS - 1;

/// Bytes at the borders of what is allowed somewhere.
const BORDERS: [u8; 28] = [
    0, 1, 2, 15, 16, 0x1F, 0x20, 0x21, 0x3E, 0x3F, 0x40, 62, 63, 64, 0x7E, 0x7F, 128, 129, 0x9F,
    0xA0, 0xBF, 0xE4, 0xE5, 0xE6, 242, 243, 254, 255,
];

/// What can be chosen.
#[derive(Clone, Copy)]
enum Choice {
    ByName,
    ByFcb,
    WriteRun,
    ReadRun,
    SearchRun,
    StampRun,
    ProtectedRun,
    WithoutFcb,
    CopyFcb,
    DamagedImage,
    DamagedDates,
    DamagedMap,
    WrongLength,
    OddSession,
    WrongSession,
    WrongDrive,
    WrongTime,
    Unlisted,
    Noise,
}

/// How likely each choice is. Some make several calls.
const CHOICES: [(usize, Choice); 19] = [
    (300, Choice::ByName),
    (330, Choice::ByFcb),
    (22, Choice::WriteRun),
    (12, Choice::ReadRun),
    (18, Choice::SearchRun),
    (128, Choice::StampRun),
    (52, Choice::ProtectedRun),
    (90, Choice::WithoutFcb),
    (25, Choice::CopyFcb),
    (22, Choice::DamagedImage),
    (56, Choice::DamagedDates),
    (22, Choice::DamagedMap),
    (12, Choice::WrongLength),
    (16, Choice::OddSession),
    (8, Choice::WrongSession),
    (8, Choice::WrongDrive),
    (8, Choice::WrongTime),
    (6, Choice::Unlisted),
    (14, Choice::Noise),
];

/// Chooses the steps of one sequence.
pub struct Chooser {
    random: Random,
    cast: Cast,
}

impl Chooser {
    /// A chooser for a seed, and the steps that give its world a disk, FCBs
    /// and a session.
    pub fn new(seed: u64) -> (Self, Vec<Step>) {
        let mut random = Random::new(!seed);
        let cast = Cast::new(&mut random);
        let mut steps = some_disk(&mut random, &cast);
        for which in 0..FCBS as u8 {
            let mut bytes = [0; FCB_BYTES];
            bytes[1..12].copy_from_slice(&random.one_of(&cast.names));
            steps.push(Step::Fcb { which, bytes });
        }
        steps.push(Step::Session(Session {
            user: cast.users[0],
            pattern: random.bytes(),
            lifted: random.one_of(&[0, 1, 1, 1, 2, 255]),
            ..Session::default()
        }));
        (Self { random, cast }, steps)
    }

    /// What happens next: some preparation and at least one call.
    pub fn next(&mut self, world: &World) -> Vec<Step> {
        // Calls between a damage and its repair can leave a wrong map.
        if !world.is_sound() && self.random.chance(70) {
            return vec![Step::Call(Ask::new(13, 0, NOISY))];
        }
        let mut steps = self.chosen(world);
        if self.random.chance(40) {
            steps.insert(0, self.time());
        }
        if let Some(step) = self.protection(world) {
            steps.insert(0, step);
        }
        // Between any two calls too, a search's among them.
        if self.random.chance(4) {
            let at = self.random.below(steps.len());
            let lifts = self.random.chance(50);
            steps.insert(at, if lifts { Step::Lift } else { Step::Protect });
        }
        steps
    }

    /// What becomes of the write protection before the next calls: it is set
    /// now and then, and lifted soon, so that most calls meet it lifted.
    fn protection(&mut self, world: &World) -> Option<Step> {
        let odd = Step::Session(Session {
            lifted: self.random.from_to(2, 255) as u8,
            ..world.session
        });
        match (world.is_protected(), self.random.below(100)) {
            (true, 0..24) => Some(Step::Lift),
            (true, 24..36) | (false, 0..2) => Some(odd),
            (false, 2..6) => Some(Step::Protect),
            (false, 6..8) => Some(Step::Lift),
            _ => None,
        }
    }

    fn chosen(&mut self, world: &World) -> Vec<Step> {
        match self.random.weighted(&CHOICES) {
            Choice::ByName => self.by_name(world),
            Choice::ByFcb => self.by_fcb(world),
            Choice::WriteRun => self.write_run(world),
            Choice::ReadRun => self.read_run(world),
            Choice::SearchRun => self.search_run(world),
            Choice::StampRun => self.stamp_run(world),
            Choice::ProtectedRun => self.protected_run(world),
            Choice::WithoutFcb => self.without_fcb(),
            Choice::CopyFcb => self.copy_fcb(world),
            Choice::DamagedImage => self.damaged_image(world),
            Choice::DamagedDates => self.damaged_dates(world),
            Choice::DamagedMap => self.damaged_map(world),
            Choice::WrongLength => self.wrong_length(),
            Choice::OddSession => self.odd_session(world),
            Choice::WrongSession => self.wrong_session(world),
            Choice::WrongDrive => self.wrong_drive(world),
            Choice::WrongTime => self.wrong_time(world),
            Choice::Unlisted => self.unlisted(),
            Choice::Noise => self.noise(world),
        }
    }

    // -- Small choices ------------------------------------------------------

    fn border(&mut self) -> u8 {
        match self.random.chance(30) {
            true => self.random.byte(),
            false => self.random.one_of(&BORDERS),
        }
    }

    fn which(&mut self) -> usize {
        self.random.below(NOISY)
    }

    fn listed(&mut self) -> u8 {
        self.random.one_of(LISTED)
    }

    /// An argument, looked at by call 32 only.
    fn argument(&mut self) -> u8 {
        match self.random.below(10) {
            0..=3 => 255,
            4..=7 => self.random.one_of(&self.cast.users),
            8 => self.random.below(16) as u8,
            _ => self.random.one_of(&[16, 17, 100, 254]),
        }
    }

    /// A used entry, of the session's user if there is one.
    fn entry(&mut self, world: &World) -> Option<usize> {
        let used: Vec<usize> = world.used().collect();
        let own = |&entry: &usize| world.entry(entry)[0] == world.session.user;
        let owned: Vec<usize> = used.iter().copied().filter(own).collect();
        // The last extent is where files end, and seldom met by chance.
        let last = |&entry: &usize| world.entry(entry)[12..15] == [31, world.entry(entry)[13], 63];
        let at_end: Vec<usize> = owned.iter().copied().filter(last).collect();
        if !at_end.is_empty() && self.random.chance(20) {
            return Some(self.random.one_of(&at_end));
        }
        match (owned.is_empty(), used.is_empty()) {
            (false, _) if self.random.chance(95) => Some(self.random.one_of(&owned)),
            (_, false) => Some(self.random.one_of(&used)),
            _ => None,
        }
    }

    /// A name: of an entry, of the cast, or another.
    fn name(&mut self, world: &World) -> Name {
        let mut name = match (self.random.below(10), self.entry(world)) {
            (0..=5, Some(entry)) => name_of(world, entry),
            (0..=7, _) => self.random.one_of(&self.cast.names),
            (8, _) => {
                let near = self.random.one_of(&self.cast.names);
                nearly(&mut self.random, near)
            }
            _ => plain_name(&mut self.random),
        };
        self.add_attributes(&mut name);
        name
    }

    /// High bits, which are no part of a name.
    fn add_attributes(&mut self, name: &mut [u8]) {
        if self.random.chance(25) {
            for byte in name {
                *byte ^= u8::from(self.random.chance(20)) << 7;
            }
        }
    }

    /// Breaks the name rule, or makes a pattern of a name.
    fn break_name(&mut self, name: &mut [u8]) {
        let at = self.random.below(11);
        match self.random.below(4) {
            0 => name[0] = self.random.one_of(&[0x20, 0xA0]),
            1 => name[at] = self.random.one_of(&[0x3F, 0xBF]),
            2 => name[at] = self.random.one_of(&[0x1F, 0x7F, 0xFF, 0x9F, 0x00, 0x80]),
            _ => name[at] = self.border(),
        }
    }

    /// Puts 3FH into some places or all.
    fn add_3fh(&mut self, name: &mut [u8], places: usize) {
        for byte in name {
            if self.random.chance(places) {
                *byte = self.random.one_of(&[0x3F, 0x3F, 0xBF]);
            }
        }
    }

    fn buffer(&mut self) -> Step {
        Step::Buffer {
            bytes: match self.random.chance(70) {
                true => [self.random.byte(); 128],
                false => self.random.bytes(),
            },
        }
    }

    /// Another time from now on.
    fn time(&mut self) -> Step {
        Step::Time(self.cast.time(&mut self.random))
    }

    /// Sets FCB `which`, and asks for a call with it.
    fn ask_with(&mut self, number: u8, which: usize, bytes: Fcb) -> Vec<Step> {
        let argument = self.random.byte();
        let ask = Ask::new(number, argument, which);
        let which = which as u8;
        vec![Step::Fcb { which, bytes }, Step::Call(ask)]
    }

    // -- Calls by name ------------------------------------------------------

    fn by_name(&mut self, world: &World) -> Vec<Step> {
        let number =
            self.random
                .weighted(&[(30, 15), (20, 17), (14, 19), (22, 22), (16, 23), (14, 35)]);
        let which = self.which();
        let mut fcb = self.named(world, number);
        if self.random.chance(6) {
            self.break_name(&mut fcb[1..12]);
        }
        if self.random.chance(4) {
            fcb[12] = self.random.one_of(&[32, 33, 62, 63, 64, 127, 0xBF, 255]);
        }
        let mut steps = self.ask_with(number, which, fcb);
        // What was opened or made is used in most cases.
        if matches!(number, 15 | 22) && self.random.chance(40) {
            steps.extend([self.buffer(), self.buffer_call(which)]);
        }
        steps
    }

    /// A sequential call with FCB `which`.
    fn buffer_call(&mut self, which: usize) -> Step {
        Step::Call(Ask::new(self.random.one_of(&[20, 21, 21]), 0, which))
    }

    /// An FCB for a call by name.
    fn named(&mut self, world: &World, number: u8) -> Fcb {
        let mut fcb: Fcb = match self.random.chance(30) {
            true => self.random.bytes(),
            false => [0; FCB_BYTES],
        };
        fcb[0] = self.random.below(2) as u8;
        let name = self.name(world);
        fcb[1..12].copy_from_slice(&name);
        fcb[12] = self.byte_12(world, &name, number);
        fcb[32] = 0;
        match number {
            17 => {
                let places = self.random.one_of(&[0, 10, 40, 100]);
                self.add_3fh(&mut fcb[1..12], places);
            }
            // Deletes by pattern empty the disk, so there are few of them.
            19 => {
                let places = self.random.one_of(&[0, 0, 0, 0, 0, 0, 10, 30, 100]);
                self.add_3fh(&mut fcb[1..12], places);
            }
            23 => {
                let new = self.new_name(world, name);
                fcb[17..28].copy_from_slice(&new);
            }
            _ => {}
        }
        fcb
    }

    /// Byte 12 for a call by name: an extent the name has if there is one.
    fn byte_12(&mut self, world: &World, name: &Name, number: u8) -> u8 {
        let has: Vec<u8> = extents_of(world, name)
            .iter()
            .filter(|(extent, _)| *extent < 32)
            .map(|(extent, _)| *extent as u8)
            .collect();
        match self.random.below(20) {
            0..=9 if !has.is_empty() && number != 22 => self.random.one_of(&has),
            0..=3 if !has.is_empty() => self.random.one_of(&has),
            10..=14 if number == 17 => 0x3F,
            15 => self.random.below(32) as u8,
            16 => self.random.below(4) as u8,
            17 => 31,
            _ => 0,
        }
    }

    /// The new name of a rename.
    fn new_name(&mut self, world: &World, old: Name) -> Name {
        let mut new = match self.random.below(10) {
            0..=5 => plain_name(&mut self.random),
            6 => old,
            7 => nearly(&mut self.random, old.map(|byte| byte & 0x7F)),
            _ => self.name(world),
        };
        self.add_attributes(&mut new);
        if self.random.chance(8) {
            self.break_name(&mut new);
        }
        new
    }

    // -- Calls by a current FCB ---------------------------------------------

    fn by_fcb(&mut self, world: &World) -> Vec<Step> {
        let number =
            self.random
                .weighted(&[(22, 16), (24, 20), (30, 21), (24, 33), (36, 34), (6, 36)]);
        let which = self.which();
        let mut fcb = self.some_fcb(world, which);
        self.set_cr(&mut fcb);
        if matches!(number, 20 | 21) && self.random.chance(25) {
            fcb = self.fcb_at_end(world).unwrap_or(fcb);
        }
        if matches!(number, 33 | 34) || self.random.chance(10) {
            let record = self.random_record(world, &fcb, number);
            fcb[33..].copy_from_slice(&record.to_le_bytes()[..3]);
        }
        if self.random.chance(8) {
            self.tamper(&mut fcb);
        }
        let mut steps = self.ask_with(number, which, fcb);
        if matches!(number, 21 | 34) {
            steps.insert(0, self.buffer());
        }
        // What was written is closed, copied or deleted in some cases.
        if matches!(number, 21 | 34) && self.random.chance(30) {
            let then = self.random.one_of(&[16, 16, 20, 19, 35, 36]);
            steps.push(Step::Call(Ask::new(then, 0, which)));
        }
        steps
    }

    /// Changes an FCB so that it is no longer current in most cases.
    fn tamper(&mut self, fcb: &mut Fcb) {
        match self.random.below(8) {
            // The same extent number by an ex out of range.
            0 if fcb[14] > 0 => (fcb[12], fcb[14]) = (fcb[12] | 32, fcb[14] - 1),
            1 => fcb[self.random.from_to(16, 31)] = self.border(),
            2 => {
                let (one, other) = (self.random.from_to(16, 31), self.random.from_to(16, 31));
                fcb.swap(one, other);
            }
            _ => {
                let places = [1, 5, 9, 11, 12, 14, 15, 15, 16, 31, 32, 32];
                fcb[self.random.one_of(&places)] = self.border();
            }
        }
    }

    /// The FCB as it is, or one made from an entry.
    fn some_fcb(&mut self, world: &World, which: usize) -> Fcb {
        match self.entry(world) {
            Some(entry) if self.random.chance(55) => self.fcb_of(world, entry),
            _ => world.fcb(which),
        }
    }

    /// An FCB that is current for an entry, or all but.
    fn fcb_of(&mut self, world: &World, entry: usize) -> Fcb {
        let row = world.entry(entry);
        let mut fcb = [0; FCB_BYTES];
        fcb[0] = self.random.below(2) as u8;
        fcb[1..32].copy_from_slice(&row[1..]);
        self.add_attributes(&mut fcb[1..12]);
        if self.random.chance(25) {
            fcb[15] = some_rc(&mut self.random);
        }
        // A larger count than the entry's, which a close writes down.
        if row[15] < 128 && self.random.chance(15) {
            fcb[15] = self.random.from_to(129, 255) as u8;
        }
        // Blocks pending for the entry, as the FCB that took them has them.
        if self.random.chance(50) {
            for (block, &note) in world.map.cells().iter().enumerate() {
                let slot = usize::from(note).wrapping_sub(16 + 16 * entry);
                if slot < 16 && row[16 + slot] == 0 && self.random.chance(70) {
                    fcb[16 + slot] = block as u8;
                }
            }
        }
        fcb
    }

    /// An FCB at the end of an extent whose next extent has an entry.
    fn fcb_at_end(&mut self, world: &World) -> Option<Fcb> {
        let entry = self.entry(world)?;
        let has = extents_of(world, &name_of(world, entry));
        let has_next =
            |&&(extent, _): &&(u16, usize)| has.iter().any(|&(other, _)| other == extent + 1);
        let before_next: Vec<usize> = has.iter().filter(has_next).map(|&(_, e)| e).collect();
        if before_next.is_empty() {
            return None;
        }
        let entry = self.random.one_of(&before_next);
        let mut fcb = self.fcb_of(world, entry);
        fcb[32] = 128;
        Some(fcb)
    }

    fn set_cr(&mut self, fcb: &mut Fcb) {
        fcb[32] = match self.random.below(20) {
            0..=5 => fcb[32],
            6..=9 => 128,
            10 => 127,
            11 => count(fcb[15]).wrapping_sub(1),
            12 => count(fcb[15]),
            13 => 0,
            14 => self.random.one_of(&[7, 8, 63, 64, 120]),
            _ => self.random.from_to(0, 128) as u8,
        };
    }

    /// A record that is there, or in an extent the name has, or in another, or
    /// past the end.
    fn random_record(&mut self, world: &World, fcb: &Fcb, number: u8) -> u32 {
        let name: Name = std::array::from_fn(|i| fcb[1 + i]);
        let has = extents_of(world, &name);
        let present = 32 * u32::from(fcb[14] % 64) + u32::from(fcb[12] % 32);
        if number == 33 && !has.is_empty() && self.random.chance(60) {
            let (extent, entry) = self.random.one_of(&has);
            return 128 * u32::from(extent) + self.record_there(world, entry);
        }
        let extent = match self.random.below(20) {
            0..=7 if !has.is_empty() => u32::from(self.random.one_of(&has).0),
            0..=10 => present,
            11..=14 => present + self.random.from_to(1, 3) as u32,
            15 => present.saturating_sub(1),
            16 => self.random.one_of(&[0, 31, 32, 63, 2_046, 2_047]),
            17 => 2_048 + self.random.one_of(&[0, 1, 100, 0x1_F000]),
            _ => self.random.below(2_048) as u32,
        };
        let record = match self.random.below(4) {
            0 => self.random.one_of(&[0, 1, 7, 8, 127]),
            1 => self.random.below(16) as u32,
            _ => self.random.below(128) as u32,
        };
        128 * extent + record
    }

    /// A record of an entry that it counts and that has a block, if there is
    /// one.
    fn record_there(&mut self, world: &World, entry: usize) -> u32 {
        let row = world.entry(entry);
        let is_there = |&record: &u8| row[16 + usize::from(record / 8)] != 0;
        let there: Vec<u8> = (0..count(row[15])).filter(is_there).collect();
        match there.is_empty() {
            true => 0,
            false => self.random.one_of(&there).into(),
        }
    }

    /// Many sequential writes, over the end of an extent in some cases, and
    /// their close.
    fn write_run(&mut self, world: &World) -> Vec<Step> {
        let which = self.which();
        let mut steps = self.run_start(world, which);
        for _ in 0..self.random.from_to(2, 12) {
            steps.push(self.buffer());
            steps.push(Step::Call(Ask::new(21, 0, which)));
        }
        if self.random.chance(60) {
            steps.push(Step::Call(Ask::new(16, 0, which)));
        }
        steps
    }

    /// Many sequential reads.
    fn read_run(&mut self, world: &World) -> Vec<Step> {
        let which = self.which();
        let mut steps = self.run_start(world, which);
        for _ in 0..self.random.from_to(2, 10) {
            steps.push(Step::Call(Ask::new(20, 0, which)));
        }
        steps
    }

    fn run_start(&mut self, world: &World, which: usize) -> Vec<Step> {
        let mut bytes = match self.entry(world) {
            Some(entry) if self.random.chance(85) => self.fcb_of(world, entry),
            _ => world.fcb(which),
        };
        bytes[32] = match self.random.below(3) {
            0 => self.random.from_to(119, 128) as u8,
            1 => self.random.one_of(&[0, 5, 14, 60]),
            _ => self.random.from_to(0, 128) as u8,
        };
        let which = which as u8;
        vec![Step::Fcb { which, bytes }]
    }

    /// Calls that stamp, one after the other, where the disk has date entries
    /// or a label.
    fn stamp_run(&mut self, world: &World) -> Vec<Step> {
        if !world.is_dated() && world.of_kind(LABEL).next().is_none() {
            return self.by_fcb(world);
        }
        match self.random.chance(50) {
            true => self.make_run(world),
            false => self.move_run(world),
        }
    }

    /// A file is made, written, closed and opened, or only some of that.
    fn make_run(&mut self, world: &World) -> Vec<Step> {
        let which = self.which();
        let mut fcb = [0; FCB_BYTES];
        fcb[1..12].copy_from_slice(&match self.random.chance(50) {
            true => plain_name(&mut self.random),
            false => self.name(world),
        });
        let mut steps = self.ask_with(22, which, fcb);
        for (number, chance) in [(21, 60), (16, 80), (16, 30), (15, 65), (19, 40)] {
            if self.random.chance(30) {
                steps.push(self.time());
            }
            if self.random.chance(chance) {
                steps.push(Step::Call(Ask::new(number, 0, which)));
            }
        }
        steps
    }

    /// The last record of an extent is written or read, and then one of the
    /// next: a move, that makes an entry in some cases.
    fn move_run(&mut self, world: &World) -> Vec<Step> {
        let which = self.which();
        // An entry that a write of its last record changes, if one is met.
        let mut met: Vec<usize> = (0..4).filter_map(|_| self.entry(world)).collect();
        let stays = |&entry: &usize| {
            let row = world.entry(entry);
            let read_only = row[9] >= 0x80;
            read_only || (count(row[15]) == 128 && row[31] != 0)
        };
        met.sort_by_key(stays);
        let Some(&entry) = met.first() else {
            return self.make_run(world);
        };
        let mut bytes = self.fcb_of(world, entry);
        bytes[32] = 127;
        let mut steps = vec![Step::Fcb {
            which: which as u8,
            bytes,
        }];
        let first = self.random.one_of(&[21, 21, 21, 20]);
        steps.push(Step::Call(Ask::new(first, 0, which)));
        steps.push(self.time());
        let number = self.random.one_of(&[21, 21, 21, 20]);
        steps.push(Step::Call(Ask::new(number, 0, which)));
        if self.random.chance(40) {
            steps.push(Step::Call(Ask::new(16, 0, which)));
        }
        // Room for the next entry that a move makes.
        if self.random.chance(25) {
            steps.push(Step::Call(Ask::new(19, 0, which)));
        }
        steps
    }

    /// The last record of an extent is written in most cases, and read on from
    /// there once the protection is set: by a move, to an extent that is there
    /// in most cases.
    fn protected_run(&mut self, world: &World) -> Vec<Step> {
        let which = self.which();
        let Some(mut bytes) = self.fcb_at_end(world) else {
            return self.some_protected_calls(world);
        };
        let writes = self.random.chance(70);
        bytes[32] = if writes { 127 } else { 128 };
        let stays = writes && self.random.chance(40);
        let record = match stays {
            // The one that is written, which can be read without a move.
            true => 128 * (32 * u32::from(bytes[14]) + u32::from(bytes[12])) + 127,
            false => self.random_record(world, &bytes, 33),
        };
        bytes[33..].copy_from_slice(&record.to_le_bytes()[..3]);
        let fcb = Step::Fcb {
            which: which as u8,
            bytes,
        };
        let call = |number: u8| Step::Call(Ask::new(number, 0, which));
        let mut steps = vec![Step::Lift, fcb, self.buffer()];
        if writes {
            steps.push(call(21));
        }
        steps.push(Step::Protect);
        if stays && self.random.chance(50) {
            steps.extend([call(33), call(20)]);
        }
        for _ in 0..self.random.from_to(1, 3) {
            steps.push(call(self.random.one_of(&[20, 20, 33, 33, 36, 16])));
        }
        if self.random.chance(60) {
            steps.push(call(self.random.one_of(&[13, 15, 15, 15, 98])));
        }
        if self.random.chance(80) {
            steps.push(Step::Lift);
            steps.push(call(self.random.one_of(&[16, 20, 33])));
        }
        steps
    }

    /// Any calls by name or by FCB, protected.
    fn some_protected_calls(&mut self, world: &World) -> Vec<Step> {
        let mut steps = vec![Step::Protect];
        steps.extend(match self.random.chance(50) {
            true => self.by_name(world),
            false => self.by_fcb(world),
        });
        steps.push(Step::Lift);
        steps
    }

    /// An FCB is copied over another. Whatever happens to the one, the other
    /// will not know.
    fn copy_fcb(&mut self, world: &World) -> Vec<Step> {
        let (from, to) = (self.which(), self.which());
        let mut steps = vec![Step::Fcb {
            which: to as u8,
            bytes: world.fcb(from),
        }];
        let numbers: [u8; 6] = [21, 16, 20, 98, 21, 16];
        for _ in 0..self.random.from_to(1, 3) {
            let number = self.random.one_of(&numbers);
            let which = self.random.one_of(&[from, to]);
            steps.push(Step::Call(Ask::new(number, 0, which)));
        }
        steps
    }

    // -- Calls without an FCB, and searches ---------------------------------

    fn without_fcb(&mut self) -> Vec<Step> {
        let number = self
            .random
            .weighted(&[(10, 13), (30, 18), (24, 32), (20, 46), (12, 98)]);
        let argument = self.argument();
        let which = self.random.below(FCBS);
        vec![Step::Call(Ask::new(number, argument, which))]
    }

    fn search_run(&mut self, world: &World) -> Vec<Step> {
        let which = self.which();
        let mut fcb = self.named(world, 17);
        if self.random.chance(60) {
            fcb[1..12].fill(0x3F);
            fcb[12] = 0x3F;
        }
        let mut steps = self.ask_with(17, which, fcb);
        let own = |&entry: &usize| world.entry(entry)[0] == world.session.user;
        let most = match self.random.chance(30) {
            // To the end, and once past it.
            true => world.used().filter(own).count() + 1,
            false => 6,
        };
        for _ in 0..most {
            // Refusals in between leave the search on.
            if self.random.chance(4) {
                steps.push(Step::Call(Ask::new(200, 0, which)));
            }
            steps.push(Step::Call(Ask::new(18, 0, NOISY)));
        }
        steps
    }

    /// A session nobody would have from calls, but a legal one.
    fn odd_session(&mut self, world: &World) -> Vec<Step> {
        let mut pattern = [0; 12];
        pattern[..11].copy_from_slice(&self.name(world));
        pattern[11] = self.random.one_of(&[0, 1, 31, 32, 0x3F, 0x3F, 0xBF, 255]);
        let places = self.random.one_of(&[0, 30, 100]);
        self.add_3fh(&mut pattern[..11], places);
        if self.random.chance(20) {
            let at = self.random.below(12);
            pattern[at] = self.border();
        }
        let session = Session {
            user: match self.random.chance(80) {
                true => world.session.user,
                false => self.random.one_of(&self.cast.users),
            },
            pattern,
            place: self.random.from_to(0, 64) as u16,
            on: self.random.one_of(&[0, 1, 1, 2, 128, 255]),
            lifted: world.session.lifted,
        };
        let number = match self.random.chance(70) {
            true => 18,
            false => self.listed(),
        };
        let ask = Ask::new(number, self.argument(), self.which());
        vec![Step::Session(session), Step::Call(ask)]
    }

    // -- What is refused early ----------------------------------------------

    /// Any calls, some of which are refused before the disk is looked at.
    fn some_calls(&mut self, world: &World) -> Vec<Step> {
        let mut steps = Vec::new();
        for _ in 0..self.random.from_to(1, 3) {
            steps.extend(match self.random.below(20) {
                0 => self.unlisted(),
                1 => self.wrong_length(),
                2 => self.wrong_session(world),
                3 => self.wrong_drive(world),
                4 => self.wrong_time(world),
                5..=6 => self.noise(world),
                _ => {
                    let ask = Ask::new(self.listed(), self.argument(), self.which());
                    vec![Step::Call(ask)]
                }
            });
        }
        steps
    }

    /// Damages one byte of a used entry for sure, makes calls, and repairs it.
    fn damaged_image(&mut self, world: &World) -> Vec<Step> {
        let used: Vec<usize> = world.used().collect();
        if used.is_empty() {
            return self.noise(world);
        }
        let entry = self.random.one_of(&used);
        let bytes = self.damage(world, entry, &used);
        let change = |row: &dyn Fn(usize) -> u8| -> Vec<Step> {
            let place = |at: usize| (World::entry_place(entry) + at) as u32;
            let step = |&(at, _): &(usize, u8)| Step::Byte {
                place: place(at),
                byte: row(at),
            };
            bytes.iter().map(step).collect()
        };
        let damaged = |at: usize| bytes.iter().find(|(i, _)| *i == at).map_or(0, |(_, b)| *b);
        let mut steps = change(&damaged);
        steps.extend(self.some_calls(world));
        steps.extend(change(&|at| world.entry(entry)[at]));
        steps
    }

    /// Bytes of an entry, and values that make the image not consistent.
    fn damage(&mut self, world: &World, entry: usize, used: &[usize]) -> Vec<(usize, u8)> {
        let at = self.random.from_to(1, 11);
        let high = u8::from(self.random.chance(30)) << 7;
        let slot = self.random.from_to(16, 31);
        match self.random.below(12) {
            0 => vec![(
                0,
                self.random
                    .one_of(&[16, 17, 0x1F, 0x22, 127, 0xE4, 0xE6, 255]),
            )],
            1 => vec![(1, 0x20 | high)],
            2 => vec![(at, self.random.one_of(&[0x1F, 0, 0x0D]) | high)],
            3 => vec![(at, 0x7F | high)],
            4 => vec![(at, 0x3F | high)],
            5 => vec![(12, self.random.one_of(&[32, 33, 64, 255]))],
            6 => vec![(14, self.random.one_of(&[64, 65, 128, 255]))],
            7 => vec![(slot, self.random.one_of(&[243, 244, 255]))],
            8 => self.block_again(world, entry, &[entry], slot),
            9 => self.block_again(world, entry, used, slot),
            10 => {
                // All that tells another entry apart.
                let other = self.random.one_of(used);
                if other == entry {
                    return vec![(slot, 1)];
                }
                let row = world.entry(other);
                let bytes = (0..13).chain([14]);
                bytes
                    .map(|at| match at {
                        1..=11 => (at, row[at] ^ u8::from(self.random.chance(20)) << 7),
                        _ => (at, row[at]),
                    })
                    .collect()
            }
            _ => vec![(slot, 1)],
        }
    }

    /// A block some entry lists, put into a slot that is not that one.
    fn block_again(
        &mut self,
        world: &World,
        entry: usize,
        others: &[usize],
        slot: usize,
    ) -> Vec<(usize, u8)> {
        let listings = others
            .iter()
            .flat_map(|&other| (16..32).map(move |at| (other, at)));
        let blocks: Vec<u8> = listings
            .filter(|&from| from != (entry, slot))
            .map(|(other, at)| world.entry(other)[at])
            .filter(|&block| block != 0)
            .collect();
        match blocks.is_empty() {
            true => vec![(slot, 1)],
            false => vec![(slot, self.random.one_of(&blocks))],
        }
    }

    /// Makes labels or date entries wrong for sure, makes calls, and puts them
    /// right.
    fn damaged_dates(&mut self, world: &World) -> Vec<Step> {
        let rows = self.wrong_rows(world);
        let change = |row: &dyn Fn(usize, usize) -> u8| -> Vec<Step> {
            let mut steps = Vec::new();
            for (i, (entry, _)) in rows.iter().enumerate() {
                let place = World::entry_place(*entry) as u32;
                let bytes = (0..32).filter(|&at| rows[i].1[at] != world.entry(*entry)[at]);
                steps.extend(bytes.map(|at| Step::Byte {
                    place: place + at as u32,
                    byte: row(i, at),
                }));
            }
            steps
        };
        let mut steps = change(&|i, at| rows[i].1[at]);
        steps.extend(self.some_calls(world));
        steps.extend(change(&|i, at| world.entry(rows[i].0)[at]));
        steps
    }

    /// Entries, and rows for them that make the image not consistent.
    fn wrong_rows(&mut self, world: &World) -> Vec<(usize, Row)> {
        match self.random.below(16) {
            0 | 1 => self.dates_missing(world),
            2 | 3 => {
                // Any that is not the fourth of its record.
                let entry = self.random.below(48) * 4 / 3;
                vec![(entry, dates_row(&mut self.random, &self.cast))]
            }
            4 | 5 => {
                let labels: Vec<usize> = world.of_kind(LABEL).collect();
                let many = 2 - labels.len().min(1);
                let places = self.some_places(world, many);
                let asked = self.random.one_of(&[0, asks::UPDATE, asks::CREATE]);
                let row = label_row(&mut self.random, &self.cast, asked);
                places.into_iter().map(|entry| (entry, row)).collect()
            }
            6 => self.changed_label(world, &|row, _| row[12] |= asks::CREATE | asks::ACCESS),
            7..=9 => self.changed_label(world, &|row, random| {
                let at = random.one_of(&DIGITS_OF_LABEL);
                row[at] = bad_bcd(random, row[at]);
            }),
            _ => self.bad_dates(world),
        }
    }

    /// A fourth entry that is no date entry beside others that are.
    fn dates_missing(&mut self, world: &World) -> Vec<(usize, Row)> {
        let one = 4 * self.random.below(16) + 3;
        if !world.is_dated() {
            // One alone, or all but one.
            let alone = self.random.chance(50);
            let places = (3..64).step_by(4).filter(|&entry| (entry == one) == alone);
            let row = dates_row(&mut self.random, &self.cast);
            return places.map(|entry| (entry, row)).collect();
        }
        let mut row = dates_row(&mut self.random, &self.cast);
        match self.random.below(3) {
            0 => row[0] = EMPTY,
            1 if world.of_kind(LABEL).next().is_none() => {
                row = label_row(&mut self.random, &self.cast, 0);
            }
            _ => {
                row = [0; 32];
                row[0] = world.session.user;
                row[1..12].copy_from_slice(&plain_name(&mut self.random));
                row[14] = 63;
            }
        }
        vec![(one, row)]
    }

    /// Different entries that are neither labels nor date entries.
    fn some_places(&mut self, world: &World, many: usize) -> Vec<usize> {
        let aside = |entry: &usize| [LABEL, DATES].contains(&world.entry(*entry)[0]);
        let mut places: Vec<usize> = (0..64).filter(|entry| !aside(entry)).collect();
        self.random.shuffle(&mut places);
        places.truncate(many);
        places
    }

    /// The label, or a new one where there is none, changed.
    fn changed_label(
        &mut self,
        world: &World,
        change: &dyn Fn(&mut Row, &mut Random),
    ) -> Vec<(usize, Row)> {
        let label = world.of_kind(LABEL).next();
        let (entry, mut row) = match label {
            Some(entry) => (entry, row_of(world, entry)),
            None => {
                let entry = self.some_places(world, 1)[0];
                (entry, label_row(&mut self.random, &self.cast, 0))
            }
        };
        change(&mut row, &mut self.random);
        vec![(entry, row)]
    }

    /// Bad BCD in a date entry; on an undated disk all date entries come with
    /// it.
    fn bad_dates(&mut self, world: &World) -> Vec<(usize, Row)> {
        let beside = self.entry_with_dates(world);
        let mut rows: Vec<(usize, Row)> = match world.is_dated() {
            true => vec![(beside | 3, row_of(world, beside | 3))],
            false => (3..64)
                .step_by(4)
                .map(|entry| (entry, dates_row(&mut self.random, &self.cast)))
                .collect(),
        };
        // Four of the bytes that have to be in BCD are the entry's.
        let at = DIGITS_OF_DATES[4 * (beside % 4) + self.random.below(4)];
        for (_, row) in rows.iter_mut().filter(|(entry, _)| *entry == beside | 3) {
            row[at] = bad_bcd(&mut self.random, row[at]);
        }
        rows
    }

    /// An entry that a date entry stands for or would: a file's, or an empty
    /// one, of three empty ones in many cases.
    fn entry_with_dates(&mut self, world: &World) -> usize {
        let is_empty = |entry: usize| world.entry(entry)[0] == EMPTY;
        let (used, of_three) = (self.random.chance(50), self.random.chance(50));
        let fits = |&entry: &usize| match (used, of_three) {
            (true, _) => world.is_used(entry),
            (false, true) => (entry / 4 * 4..entry | 3).all(is_empty),
            (false, false) => is_empty(entry),
        };
        let all: Vec<usize> = (0..64).filter(|entry| entry % 4 != 3).collect();
        let fitting: Vec<usize> = all.iter().copied().filter(fits).collect();
        match fitting.is_empty() {
            true => self.random.one_of(&all),
            false => self.random.one_of(&fitting),
        }
    }

    /// Makes a note wrong for sure, makes calls, and puts it right. A log-in
    /// among the calls puts it right itself.
    fn damaged_map(&mut self, world: &World) -> Vec<Step> {
        let (block, wrong) = self.wrong_note(world);
        let step = |note: u16| Step::Note {
            block: block as u8,
            note,
        };
        let mut steps = vec![step(wrong as u16)];
        steps.extend(self.some_calls(world));
        steps.push(step(world.map.cells()[block]));
        steps
    }

    /// A block, and a note that it can't have.
    fn wrong_note(&mut self, world: &World) -> (usize, usize) {
        let map = world.map.cells();
        let listed = |note: u16| (2..243).filter(move |&block| map[block] == note);
        let not_used: Vec<usize> = (0..64).filter(|&entry| !world.is_used(entry)).collect();
        let any = self.random.from_to(2, 242);
        let some = |random: &mut Random, blocks: Vec<usize>| match blocks.is_empty() {
            true => (any, 3),
            false => (random.one_of(&blocks), 0),
        };
        match self.random.below(8) {
            0 => (self.random.below(2), self.random.one_of(&[0, 2, 16, 3])),
            1 => (any, 1),
            2 => some(&mut self.random, listed(2).collect()),
            3 => match some(&mut self.random, listed(2).collect()) {
                (block, 0) => (block, 16 + 16 * self.random.below(64)),
                odd => odd,
            },
            4 => match some(&mut self.random, listed(0).collect()) {
                (block, 0) => (block, 2),
                odd => odd,
            },
            5 => (any, self.random.from_to(3, 15)),
            7 if !not_used.is_empty() => {
                let entry = self.random.one_of(&not_used);
                (any, 16 + 16 * entry + self.random.below(16))
            }
            _ => (any, self.random.one_of(&[1_040, 1_041, 2_000, 65_535])),
        }
    }

    /// One of the four lengths is wrong, for one call.
    fn wrong_length(&mut self) -> Vec<Step> {
        let mut ask = Ask::new(self.listed(), self.argument(), self.which());
        if self.random.chance(5) {
            ask.number = self.random.byte();
        }
        let lengths = &mut ask.lengths;
        let length = match self.random.below(4) {
            0 => &mut lengths.image,
            1 => &mut lengths.map,
            2 => &mut lengths.fcb,
            _ => &mut lengths.buffer,
        };
        *length = match self.random.below(6) {
            0 | 1 => *length - 1,
            2 => *length + 1,
            3 => 0,
            4 => self.random.below(*length),
            _ => *length + self.random.from_to(1, MOST_OVER),
        };
        vec![Step::Call(ask)]
    }

    /// A session out of range, for one call.
    fn wrong_session(&mut self, world: &World) -> Vec<Step> {
        let mut session = world.session;
        session.on = self.random.one_of(&[0, 1, 255]);
        match self.random.below(5) {
            0 | 1 => session.user = self.random.one_of(&[16, 17, 0xE5, 255]),
            2 | 3 => session.place = self.random.one_of(&[65, 66, 256, 320, 65_535]),
            _ => (session.user, session.place) = (16, 65),
        }
        let ask = Ask::new(self.listed(), self.argument(), self.which());
        let mut steps = vec![Step::Session(session), Step::Call(ask)];
        // The protection of any session can be lifted and set.
        match self.random.below(3) {
            0 => steps.insert(1, Step::Lift),
            1 => steps.insert(1, Step::Protect),
            _ => {}
        }
        steps.push(Step::Session(world.session));
        steps
    }

    /// An FCB with byte 0 over 1, for one call.
    fn wrong_drive(&mut self, world: &World) -> Vec<Step> {
        let which = self.which();
        let mut fcb = world.fcb(which);
        fcb[0] = self.random.one_of(&[2, 3, 16, 0x3F, 0xE5, 255]);
        let number = self.listed();
        let mut steps = self.ask_with(number, which, fcb);
        if let Some(Step::Call(ask)) = steps.last_mut() {
            ask.argument = self.argument();
        }
        fcb[0] = self.random.below(2) as u8;
        let which = which as u8;
        steps.push(Step::Fcb { which, bytes: fcb });
        steps
    }

    /// Bad BCD in the time, for one call.
    fn wrong_time(&mut self, world: &World) -> Vec<Step> {
        let Time { day, hour, minute } = world.time;
        let (hour, minute) = match self.random.below(5) {
            0 | 1 => (bad_bcd(&mut self.random, hour), minute),
            2 | 3 => (hour, bad_bcd(&mut self.random, minute)),
            _ => (0xFF, 0xFF),
        };
        let number = match self.random.chance(95) {
            true => self.listed(),
            false => self.random.byte(),
        };
        let ask = Ask::new(number, self.argument(), self.which());
        vec![
            Step::Time(Time { day, hour, minute }),
            Step::Call(ask),
            Step::Time(world.time),
        ]
    }

    fn unlisted(&mut self) -> Vec<Step> {
        let number = loop {
            let number = match self.random.chance(50) {
                true => self.random.byte(),
                false => self
                    .listed()
                    .wrapping_add(self.random.one_of(&[1, 255, 128])),
            };
            if !LISTED.contains(&number) {
                break number;
            }
        };
        vec![Step::Call(Ask::new(number, self.argument(), self.which()))]
    }

    /// Bytes at the borders everywhere, or nearly.
    fn noise(&mut self, world: &World) -> Vec<Step> {
        let mut fcb: Fcb = std::array::from_fn(|_| self.border());
        fcb[0] = self.random.one_of(&[0, 1, 1, 2]);
        if self.random.chance(50) {
            let name = self.name(world);
            fcb[1..12].copy_from_slice(&name);
        }
        if self.random.chance(50) {
            fcb[12] %= 34;
            fcb[14] %= 66;
            fcb[32] %= 130;
        }
        let number = self.listed();
        let mut steps = self.ask_with(number, NOISY, fcb);
        if let Some(Step::Call(ask)) = steps.last_mut() {
            ask.argument = self.border();
        }
        steps
    }
}

/// A byte that is not BCD: one digit over 9 in most cases.
fn bad_bcd(random: &mut Random, was: u8) -> u8 {
    let digit = random.from_to(10, 15) as u8;
    let bad = match random.below(3) {
        0 => was & 0xF0 | digit,
        1 => was & 0x0F | digit << 4,
        _ => random.one_of(&[0x0A, 0xA0, 0x9A, 0xA9, 0xFF]),
    };
    debug_assert!(is_bad_bcd(bad));
    bad
}

/// The bytes of an entry.
fn row_of(world: &World, entry: usize) -> Row {
    std::array::from_fn(|i| world.entry(entry)[i])
}

/// The seven-bit name of an entry.
fn name_of(world: &World, entry: usize) -> Name {
    std::array::from_fn(|i| world.entry(entry)[1 + i] & 0x7F)
}

/// The extents a name of the session's user has, and their entries.
fn extents_of(world: &World, name: &Name) -> Vec<(u16, usize)> {
    let wanted = name.map(|byte| byte & 0x7F);
    world
        .used()
        .filter(|&entry| world.entry(entry)[0] == world.session.user)
        .filter(|&entry| name_of(world, entry) == wanted)
        .map(|entry| {
            let row = world.entry(entry);
            (32 * u16::from(row[14]) + u16::from(row[12]), entry)
        })
        .collect()
}
