//! Counts what came up in runs of pickers, and tells whether it is enough.

use super::laws::{bytes_at, entries_of, extent_of, log_record, records_of, size_of};
use super::Run;
use crate::world::{asks, World, EMPTY};
use reference::{Pick, Picked};
use std::collections::BTreeMap;
use std::fmt;

/// How often each thing has to come up in a test.
pub mod enough {
    /// Every answer.
    pub const ANSWER: usize = 300;
    /// Every refusal without a name of its own, by A, H and whether the word was
    /// handed out.
    pub const OTHER: usize = 60;
    /// Every event.
    pub const EVENT: usize = 40;
}

/// The refusals without a name of their own, and whether a word is handed out.
const OTHERS: [(u8, u8, bool); 4] = [
    (255, 1, false),
    (255, 4, false),
    (255, 9, false),
    (255, 9, true),
];

/// Writes the events down as an enum with what each is.
macro_rules! events {
    ($($(#[$doc:meta])* $event:ident: $is:expr;)*) => {
        /// What runs did that not every one of them does.
        #[derive(Clone, Copy, Debug, PartialEq, Eq)]
        pub enum Event {
            $($(#[$doc])* $event,)*
        }

        impl Event {
            /// Every event; `event as usize` is its place here.
            pub const ALL: &'static [Event] = &[$(Event::$event),*];

            /// Whether it came up in a run.
            fn is_in(self, ran: &Ran) -> bool {
                let is: fn(&Ran) -> bool = match self {
                    $(Event::$event => $is,)*
                };
                is(ran)
            }
        }
    };
}

/// A run, and what was before and after it.
struct Ran<'a> {
    before: &'a World,
    after: &'a World,
    run: &'a Run,
    pick: Pick,
    /// The log's size, where it is there.
    size: Option<u32>,
    /// The numbers of the log's records that have the day, in the order of the
    /// entries.
    hits: Vec<u32>,
}

impl Ran<'_> {
    fn was(&self, pick: Pick) -> bool {
        self.pick == pick
    }

    fn logged(&self) -> bool {
        self.was(Pick::Logged)
    }

    fn entries(&self, world: &World) -> usize {
        entries_of(world, &self.run.wanted.log).len()
    }

    fn made_entry(&self) -> bool {
        self.entries(self.after) > self.entries(self.before)
    }

    fn took_block(&self) -> bool {
        self.before.map != self.after.map
    }

    fn no_entry_left(&self) -> bool {
        self.before.of_kind(EMPTY).next().is_none()
    }

    fn no_block_left(&self) -> bool {
        !self.before.map.cells().contains(&0)
    }

    fn is_read_only(&self, entry: Option<usize>) -> bool {
        entry.is_some_and(|entry| self.before.entry(entry)[9] & 0x80 != 0)
    }

    fn first(&self) -> Option<usize> {
        extent_of(self.before, &self.run.wanted.log, 0)
    }

    /// The entry that the new record is to go to.
    fn target(&self) -> Option<usize> {
        extent_of(self.before, &self.run.wanted.log, self.size? / 128)
    }

    /// Whether a dated disk's label asks for a stamp.
    fn stamps(&self, asked: u8) -> bool {
        self.before.is_dated() && self.before.asks(asked)
    }

    fn has_pending(&self) -> bool {
        self.before.map.cells().iter().any(|&note| note > 2)
    }

    fn has_pending_of_the_log(&self) -> bool {
        let entries = entries_of(self.before, &self.run.wanted.log);
        let pending = self.before.map.cells().iter().filter(|&&note| note >= 16);
        pending
            .map(|&note| usize::from(note - 16) / 16)
            .any(|entry| entries.contains(&entry))
    }

    /// Records below the size that are not there.
    fn has_holes(&self) -> bool {
        let there = records_of(self.before, &self.run.wanted.log).len();
        self.size.is_some_and(|size| (there as u32) < size)
    }

    /// Whether records below the new one came to be there with it.
    fn brought_others(&self) -> bool {
        let log = &self.run.wanted.log;
        let [before, after] = [self.before, self.after].map(|world| records_of(world, log).len());
        after > before + 1
    }

    /// Whether more records than the new one have the day afterwards.
    fn tells_the_day_twice(&self) -> bool {
        hits(self.after, self.run).len() > 1
    }
}

/// The numbers of the log's records that have the day.
fn hits(world: &World, run: &Run) -> Vec<u32> {
    let day = log_record(run);
    let records = records_of(world, &run.wanted.log).into_iter();
    let hits = records.filter(|&(_, place)| bytes_at(world, place)[..9] == day[..9]);
    hits.map(|(number, _)| number).collect()
}

events! {
    /// A log was made.
    LogMade: |ran| ran.logged() && ran.size.is_none();
    /// A log without records got its first.
    FirstRecord: |ran| ran.logged() && ran.size == Some(0);
    /// A new extent was made for the record.
    ExtentMade: |ran| ran.logged() && ran.size.is_some() && ran.made_entry();
    /// An extent that is not the first was written to.
    LaterExtent: |ran| ran.logged() && ran.size.is_some_and(|size| size > 128) && !ran.made_entry();
    /// A block was taken for an entry that was there.
    BlockTaken: |ran| ran.logged() && !ran.made_entry() && ran.took_block();
    /// The record's block was listed already.
    BlockThere: |ran| ran.logged() && !ran.took_block();
    /// The last record that a log has room for.
    LastRoom: |ran| ran.logged() && ran.size == Some(1_023);
    /// The first size that is too large.
    JustFull: |ran| ran.was(Pick::LogFull) && ran.size == Some(1_024);
    /// A log that has more.
    OverFull: |ran| ran.was(Pick::LogFull) && ran.size > Some(1_024);
    /// A log with holes was written to.
    LoggedWithHoles: |ran| ran.logged() && ran.has_holes();
    /// Lower records of the new one's block came to be there.
    BroughtOthers: |ran| ran.logged() && ran.brought_others();
    /// Among them was one that tells the day, from before the block was the log's.
    BroughtTheDay: |ran| ran.logged() && ran.tells_the_day_twice();
    /// The day was in the last record alone.
    HitInTheLast: |ran| ran.was(Pick::Again) && ran.hits.iter().all(|&hit| Some(hit + 1) == ran.size);
    /// The day was in record 0.
    HitInTheFirst: |ran| ran.was(Pick::Again) && ran.hits.contains(&0);
    /// The day was behind a hole.
    HitWithHoles: |ran| ran.was(Pick::Again) && ran.has_holes();
    /// The day was past record 1,024 alone.
    HitPast1024: |ran| ran.was(Pick::Again) && ran.hits.iter().all(|&hit| hit >= 1_024);
    /// The day was in a full log.
    HitInAFullLog: |ran| ran.was(Pick::Again) && ran.size >= Some(1_024);
    /// The day was in a log that is read-only.
    HitInReadOnly: |ran| ran.was(Pick::Again) && ran.is_read_only(ran.first());
    /// The first extent alone is read-only.
    ReadOnlyFirst: |ran| {
        ran.was(Pick::LogReadOnly) && ran.is_read_only(ran.first()) && ran.first() != ran.target()
            && !ran.is_read_only(ran.target())
    };
    /// The extent to be written to alone is read-only.
    ReadOnlyTarget: |ran| ran.was(Pick::LogReadOnly) && !ran.is_read_only(ran.first());
    /// Another extent is read-only, which hinders nobody.
    ReadOnlyElsewhere: |ran| {
        let entries = entries_of(ran.before, &ran.run.wanted.log);
        ran.logged() && entries.into_iter().any(|entry| ran.is_read_only(Some(entry)))
    };
    /// No entry for a log that is missing.
    NoEntryForALog: |ran| ran.was(Pick::DirectoryFull) && ran.size.is_none();
    /// No entry for an extent.
    NoEntryForAnExtent: |ran| ran.was(Pick::DirectoryFull) && ran.size.is_some();
    /// No block for a log that is missing.
    NoBlockForALog: |ran| ran.was(Pick::DiskFull) && ran.size.is_none();
    /// No block for a record.
    NoBlockForARecord: |ran| ran.was(Pick::DiskFull) && ran.size.is_some();
    /// Both are full, and the log is missing.
    BothFullForALog: |ran| ran.was(Pick::DiskFull) && ran.no_entry_left() && ran.size.is_none();
    /// Both are full, and an extent is to be made.
    BothFullForAnExtent: |ran| ran.was(Pick::DirectoryFull) && ran.no_block_left();
    /// The day was logged on a disk that is full, in a block that was listed.
    LoggedOnAFullDisk: |ran| ran.logged() && ran.no_block_left();
    /// The day was logged in a directory that is full.
    LoggedInAFullDirectory: |ran| ran.logged() && ran.no_entry_left();
    /// The session was protected.
    LoggedProtected: |ran| ran.logged() && ran.before.session.lifted == 0;
    /// It was lifted by another byte than 1.
    LoggedByAnotherByte: |ran| ran.logged() && ran.before.session.lifted > 1;
    /// A search was ended.
    SearchEnded: |ran| ran.before.session.on != 0 && ran.after.session.on == 0;
    /// A search was left on.
    SearchLeft: |ran| ran.before.session.on != 0 && ran.after.session.on != 0;
    /// Blocks were pending, and stayed so.
    LoggedWithPending: |ran| ran.logged() && ran.has_pending();
    /// A block was pending for the log itself, and stayed so.
    LoggedWithItsOwnPending: |ran| ran.logged() && ran.has_pending_of_the_log();
    /// A new log was stamped.
    Created: |ran| ran.logged() && ran.size.is_none() && ran.stamps(asks::CREATE);
    /// A new log on a dated disk was not.
    NotCreated: |ran| {
        ran.logged() && ran.size.is_none() && ran.before.is_dated() && !ran.before.asks(asks::CREATE)
    };
    /// The log's entry was stamped.
    Updated: |ran| ran.logged() && ran.stamps(asks::UPDATE);
    /// The log's entry on a dated disk was not.
    NotUpdated: |ran| ran.logged() && ran.before.is_dated() && !ran.before.asks(asks::UPDATE);
    /// Book and log were stamped, and nothing else changed.
    Accessed: |ran| {
        ran.was(Pick::Again) && ran.stamps(asks::ACCESS) && ran.before.image != ran.after.image
    };
    /// Nothing was stamped, since the session was protected.
    NotAccessed: |ran| ran.was(Pick::Again) && ran.stamps(asks::ACCESS) && ran.before.is_protected();
    /// Book and log differ in attributes alone.
    OneFileByHighBits: |ran| ran.was(Pick::OneFile) && ran.run.wanted.book != ran.run.wanted.log;
    /// The last day of a year.
    Day365: |ran| ran.logged() && ran.run.wanted.day == 365;
    /// The first day that is none.
    Day366: |ran| ran.was(Pick::DayOver) && ran.run.wanted.day == 366;
    /// A word of an extent of the book that is not the first.
    WordOfALaterExtent: |ran| ran.logged() && ran.run.wanted.day >= 128;
    /// A book without its first extent, which has others.
    BookWithoutFirst: |ran| {
        ran.was(Pick::NoBook) && !entries_of(ran.before, &ran.run.wanted.book).is_empty()
    };
    /// A wrong length of the word, after the book was opened.
    WordLength: |ran| {
        ran.was(Pick::Other { a: 255, h: 4 }) && ran.before.session != ran.after.session
    };
}

/// What came up so far.
#[derive(Clone, Debug)]
pub struct Counts {
    /// Runs.
    pub runs: usize,
    /// Runs by the answer's number.
    answers: [usize; 12],
    others: BTreeMap<(u8, u8, bool), usize>,
    events: Vec<usize>,
}

impl Default for Counts {
    fn default() -> Self {
        Self {
            runs: 0,
            answers: [0; 12],
            others: BTreeMap::new(),
            events: vec![0; Event::ALL.len()],
        }
    }
}

impl Counts {
    /// Takes in a run.
    pub fn add(&mut self, before: &World, after: &World, run: &Run, picked: Picked) {
        self.runs += 1;
        self.answers[usize::from(picked.pick.number())] += 1;
        if let Pick::Other { a, h } = picked.pick {
            *self.others.entry((a, h, picked.given)).or_default() += 1;
        }
        let ran = Ran {
            before,
            after,
            run,
            pick: picked.pick,
            size: size_of(before, &run.wanted.log),
            hits: hits(before, run),
        };
        for &event in Event::ALL {
            self.events[event as usize] += usize::from(event.is_in(&ran));
        }
    }

    /// What came up too seldom, with how often.
    pub fn too_few(&self) -> Vec<String> {
        let answers = self.answers.iter().enumerate();
        let answers = answers.map(|(number, &n)| (format!("answer {number}"), n, enough::ANSWER));
        let others = OTHERS.iter().map(|&(a, h, given)| {
            let n = self.others.get(&(a, h, given)).copied().unwrap_or(0);
            let word = if given { "with" } else { "without" };
            (format!("{a}, {h} {word} a word"), n, enough::OTHER)
        });
        let events = Event::ALL.iter().map(|&event| {
            (
                format!("{event:?}"),
                self.events[event as usize],
                enough::EVENT,
            )
        });
        let all = answers.chain(others).chain(events);
        all.filter(|(_, n, enough)| n < enough)
            .map(|(what, n, enough)| format!("{what}: {n} of {enough}"))
            .collect()
    }
}

impl fmt::Display for Counts {
    fn fmt(&self, f: &mut fmt::Formatter) -> fmt::Result {
        writeln!(f, "{} runs of the picker", self.runs)?;
        for (number, n) in self.answers.iter().enumerate() {
            writeln!(f, "  answer {number:<2} {n:>25}")?;
        }
        for ((a, h, given), n) in &self.others {
            let word = if *given { "with" } else { "without" };
            writeln!(f, "  {a}, {h} {word:<7} a word {n:>14}")?;
        }
        for &event in Event::ALL {
            let name = format!("{event:?}");
            writeln!(f, "  {name:<24} {:>9}", self.events[event as usize])?;
        }
        Ok(())
    }
}
