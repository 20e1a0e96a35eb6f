//! Counts what came up in a run, and tells whether it is enough.

use crate::faults::{self, BadBcd, Fault};
use crate::laws::{close_changes, read_moves};
use crate::sequence::{Ask, Step};
use crate::world::{asks, World};
use reference::{Answer, Cause, LISTED};
use std::fmt;

/// How often each thing has to come up in a run of 300,000 calls.
pub mod enough {
    /// Every cause of the table.
    pub const CAUSE: usize = 100;
    /// Every call, accepted where the protection is lifted.
    pub const ACCEPTED: usize = 1_000;
    /// Moves by each call, entries made by a move, deletes that free pending
    /// blocks, and each call that reads a count with one over 128.
    pub const EVENT: usize = 300;
    /// Every kind of stamp.
    pub const STAMP: usize = 1_000;
    /// Every fault of a disk, and bad BCD in every place of it.
    pub const FAULT: usize = 100;
    /// Every call, refused for bad BCD in the time.
    pub const BAD_TIME: usize = 50;
    /// Every call that a protected session takes, accepted on one.
    pub const PROTECTED: usize = 300;
    /// Every call that it refuses, accepted where the protection is lifted by
    /// another byte than 1; and refused by it before a row of its own.
    pub const LIFTED: usize = 100;
}

/// Writes the events down as an enum with a list of all.
macro_rules! events {
    ($($(#[$doc:meta])* $event:ident;)*) => {
        /// What calls did that not every one of them does.
        #[derive(Clone, Copy, Debug, PartialEq, Eq)]
        pub enum Event {
            $($(#[$doc])* $event,)*
        }

        impl Event {
            /// Every event; `event as usize` is its place here.
            pub const ALL: &'static [Event] = &[$(Event::$event),*];

            /// How often it has to come up in a run of 300,000 calls.
            pub fn enough(self) -> usize {
                match STAMPS.contains(&self) {
                    true => enough::STAMP,
                    false => enough::EVENT,
                }
            }
        }
    };
}

events! {
    /// A move by 20.
    MoveBy20;
    /// A move by 21.
    MoveBy21;
    /// A move by 33.
    MoveBy33;
    /// A move by 34.
    MoveBy34;
    /// An entry made by a move by 21.
    EntryMadeBy21;
    /// An entry made by a move by 34.
    EntryMadeBy34;
    /// A move that recorded pending blocks at the close.
    MoveThatRecords;
    /// A close that recorded pending blocks.
    CloseThatRecords;
    /// A write that took a block.
    WriteThatTakes;
    /// A delete that freed pending blocks.
    DeleteThatFreesPending;
    /// A delete of several entries.
    DeleteOfSeveral;
    /// A rename of several entries.
    RenameOfSeveral;
    /// A 98 that freed blocks.
    FreeBlocksThatFrees;
    /// A 13 that changed the map.
    LogInThatChanges;
    /// A call other than 17 and 18 that ended a search.
    EndOfSearch;
    /// A 15 that copied an rc over 128.
    Over128By15;
    /// A 35 whose size an entry with rc over 128 decides.
    Over128By35;
    /// A 16 of an entry with rc over 128.
    EntryOver128By16;
    /// A 20 of an entry with rc over 128.
    EntryOver128By20;
    /// A 21 to an entry with rc over 128.
    EntryOver128By21;
    /// A 33 of an entry with rc over 128.
    EntryOver128By33;
    /// A 34 to an entry with rc over 128.
    EntryOver128By34;
    /// A 16 with rc over 128 in the FCB.
    FcbOver128By16;
    /// A 20 with rc over 128 in the FCB.
    FcbOver128By20;
    /// A 21 with rc over 128 in the FCB.
    FcbOver128By21;
    /// A 33 with rc over 128 in the FCB.
    FcbOver128By33;
    /// A 34 with rc over 128 in the FCB.
    FcbOver128By34;
    /// A close of an FCB with rc over 128 that wrote 128 into the entry.
    CloseThatWrites128;
    /// A move that did the same.
    MoveThatWrites128;
    /// A move away from an entry with rc over 128.
    MoveFromOver128;
    /// A move to an entry with rc over 128.
    MoveToOver128;
    /// A 22 that stamped create.
    CreateBy22;
    /// A 15 that stamped access.
    AccessBy15;
    /// A 16 that stamped update.
    UpdateBy16;
    /// A move that stamped update.
    UpdateByMove;
    /// A 22 beside whose entry a stamp became zero.
    ZerosBy22;
    /// A move that made an entry, beside which a stamp became zero.
    ZerosByMove;
    /// A 22 on a dated disk where nothing asks for create.
    NotAskedBy22;
    /// A 15 on a dated disk where nothing asks for access.
    NotAskedBy15;
    /// A 16 that changed its entry on a dated disk where nothing asks for
    /// update.
    NotAskedBy16;
    /// A move that did the same.
    NotAskedByMove;
    /// A 22 on an undated disk whose label asks for create.
    UndatedBy22;
    /// A 15 on an undated disk whose label asks for access.
    UndatedBy15;
    /// A 16 that changed its entry on an undated disk whose label asks for
    /// update.
    UndatedBy16;
    /// A move that did the same.
    UndatedByMove;
    /// A 16 that did not change its entry, where update is asked for.
    UnchangedBy16;
    /// A move that did not change the entry that it left, where update is asked
    /// for.
    UnchangedByMove;
    /// A 22 that was refused on a dated disk whose label asks for create.
    RefusedBy22;
    /// A 15 that was refused on a dated disk whose label asks for access.
    RefusedBy15;
    /// A 16 that was refused on a dated disk whose label asks for update.
    RefusedBy16;
    /// A 20, 21, 33 or 34 of a current FCB that was refused there, where a
    /// close would have changed the entry.
    RefusedByMove;
    /// A 15 on a protected session and a dated disk whose label asks for
    /// access.
    ProtectedAccess;
    /// A 13 on a protected session that changed the map.
    ProtectedLogIn;
    /// A 98 on a protected session that freed blocks.
    ProtectedFreeBlocks;
    /// A 20 on a protected session that moved, and changed no entry so.
    ProtectedMoveBy20;
    /// A 33 on a protected session that moved, and changed no entry so.
    ProtectedMoveBy33;
    /// A 20 on a protected session that stayed, where a close would change the
    /// entry.
    ProtectedStayBy20;
    /// A 33 that did the same.
    ProtectedStayBy33;
    /// A 20 on a protected session whose move would change the entry, refused
    /// for the record that is not there.
    ProtectedNotThereBy20;
    /// A 33 that was refused the same way.
    ProtectedNotThereBy33;
    /// A lift while a search was on.
    LiftInSearch;
    /// The protection set while a search was on.
    ProtectInSearch;
    /// A lift where another byte than 0 and 1 stood.
    LiftOfOddByte;
    /// The protection set where such a byte stood.
    ProtectOfOddByte;
    /// A lift of a session whose user or search place is out of range.
    LiftOfWrongSession;
    /// The protection set in such a session.
    ProtectOfWrongSession;
    /// A refusal where another byte than 0 and 1 stood.
    RefusedWithOddByte;
    /// A stamp that replaced a later one.
    StampGoesBack;
    /// A stamp that replaced an equal one.
    StampRepeats;
    /// A stamp of an hour over 23H or a minute over 59H.
    StampOfOddTime;
}

/// The kinds of stamps.
const STAMPS: [Event; 6] = [
    Event::CreateBy22,
    Event::AccessBy15,
    Event::UpdateBy16,
    Event::UpdateByMove,
    Event::ZerosBy22,
    Event::ZerosByMove,
];

/// A way to a stamp, and what is counted of it.
struct Way {
    /// The label's bit that asks for the stamp.
    bit: u8,
    /// Create or access (0), or update (1).
    which: usize,
    stamped: Event,
    not_asked: Event,
    undated: Event,
    refused: Event,
    /// Of an update: nothing was changed.
    unchanged: Option<Event>,
}

const MAKE: Way = Way {
    bit: asks::CREATE,
    which: 0,
    stamped: Event::CreateBy22,
    not_asked: Event::NotAskedBy22,
    undated: Event::UndatedBy22,
    refused: Event::RefusedBy22,
    unchanged: None,
};

const OPEN: Way = Way {
    bit: asks::ACCESS,
    which: 0,
    stamped: Event::AccessBy15,
    not_asked: Event::NotAskedBy15,
    undated: Event::UndatedBy15,
    refused: Event::RefusedBy15,
    unchanged: None,
};

const CLOSE: Way = Way {
    bit: asks::UPDATE,
    which: 1,
    stamped: Event::UpdateBy16,
    not_asked: Event::NotAskedBy16,
    undated: Event::UndatedBy16,
    refused: Event::RefusedBy16,
    unchanged: Some(Event::UnchangedBy16),
};

const MOVE: Way = Way {
    bit: asks::UPDATE,
    which: 1,
    stamped: Event::UpdateByMove,
    not_asked: Event::NotAskedByMove,
    undated: Event::UndatedByMove,
    refused: Event::RefusedByMove,
    unchanged: Some(Event::UnchangedByMove),
};

impl Way {
    /// The way of a call, where it stamps or would once it is accepted and, of
    /// a record call, moves.
    fn of(number: u8) -> Option<Way> {
        match number {
            22 => Some(MAKE),
            15 => Some(OPEN),
            16 => Some(CLOSE),
            20 | 21 | 33 | 34 => Some(MOVE),
            _ => None,
        }
    }
}

/// The calls that go by the counts of an FCB and an entry, each with its events
/// for an rc over 128 in the entry and in the FCB.
const READ_A_COUNT: [(u8, Event, Event); 5] = [
    (16, Event::EntryOver128By16, Event::FcbOver128By16),
    (20, Event::EntryOver128By20, Event::FcbOver128By20),
    (21, Event::EntryOver128By21, Event::FcbOver128By21),
    (33, Event::EntryOver128By33, Event::FcbOver128By33),
    (34, Event::EntryOver128By34, Event::FcbOver128By34),
];

/// The calls that a protected session refuses, each with its cause. The reads
/// are refused in some cases only.
const PROTECTED: [(u8, Cause); 8] = [
    (16, Cause::Protected16),
    (19, Cause::Protected19),
    (20, Cause::Protected20),
    (21, Cause::Protected21),
    (22, Cause::Protected22),
    (23, Cause::Protected23),
    (33, Cause::Protected33),
    (34, Cause::Protected34),
];

/// The calls that it refuses whatever they are lent.
fn refused_protected() -> impl Iterator<Item = u8> {
    let calls = PROTECTED.iter().map(|&(number, _)| number);
    calls.filter(|number| !matches!(number, 20 | 33))
}

/// Whether it may accept a call: all the others, and the reads.
fn is_accepted_protected(call: u8) -> bool {
    refused_protected().all(|number| number != call)
}

/// Whether the protection is lifted by another byte than 1.
fn is_odd(world: &World) -> bool {
    world.session.lifted > 1
}

/// What came up so far.
#[derive(Clone, Debug)]
pub struct Counts {
    /// All calls.
    pub calls: usize,
    causes: Vec<usize>,
    accepted: [usize; 256],
    bad_times: [usize; 256],
    /// Accepted on a protected session.
    protected: [usize; 256],
    /// Accepted where the protection is lifted by another byte than 1.
    odd: [usize; 256],
    /// Refused by the protection where another row holds too.
    protected_first: [usize; 256],
    events: Vec<usize>,
    faults: Vec<usize>,
    bad_bcd: [usize; BadBcd::ALL.len()],
}

impl Default for Counts {
    fn default() -> Self {
        Self {
            calls: 0,
            causes: vec![0; Cause::ALL.len()],
            accepted: [0; 256],
            bad_times: [0; 256],
            protected: [0; 256],
            odd: [0; 256],
            protected_first: [0; 256],
            events: vec![0; Event::ALL.len()],
            faults: vec![0; Fault::ALL.len()],
            bad_bcd: [0; BadBcd::ALL.len()],
        }
    }
}

fn pending(world: &World) -> usize {
    world.map.cells().iter().filter(|&&note| note >= 16).count()
}

/// The entry at whose end, 128 records on, the size in an FCB is.
fn last_of(world: &World, fcb: &[u8]) -> Option<usize> {
    let size = u32::from_le_bytes([fcb[33], fcb[34], fcb[35], 0]);
    let extent = (size / 128)
        .checked_sub(1)
        .filter(|_| size.is_multiple_of(128))?;
    let mut at = [0; 36];
    at.copy_from_slice(fcb);
    (at[12], at[14]) = ((extent % 32) as u8, (extent / 32) as u8);
    world.entry_of(&at)
}

fn recorded(world: &World) -> usize {
    world.map.cells().iter().filter(|&&note| note == 2).count()
}

/// Whether a call left its FCB in another extent.
fn moved(before: &World, after: &World, ask: &Ask) -> bool {
    let extent = |world: &World| {
        let fcb = world.fcb(ask.fcb);
        (fcb[12], fcb[14])
    };
    extent(before) != extent(after)
}

impl Counts {
    /// Takes a call in.
    pub fn add(
        &mut self,
        before: &World,
        after: &World,
        ask: &Ask,
        answer: Answer,
        cause: Option<Cause>,
    ) {
        self.calls += 1;
        match cause {
            Some(cause) => {
                let bad_time = matches!(cause, Cause::TimeHour | Cause::TimeMinute);
                self.causes[cause as usize] += 1;
                self.bad_times[usize::from(ask.number)] += usize::from(bad_time);
                self.add_faults(before, cause);
                self.add_refused(before, ask, cause);
                self.add_refused_protected(before, ask, cause);
            }
            None => {
                self.accepted[usize::from(ask.number)] += 1;
                self.add_protected(before, after, ask);
                self.add_events(before, after, ask, answer);
                self.add_transfers(before, after, ask);
                self.add_counts(before, after, ask);
                self.add_stamps(before, after, ask);
                self.add_zeros(before, after, ask);
            }
        }
    }

    fn tally(&mut self, event: Event, is: bool) {
        self.events[event as usize] += usize::from(is);
    }

    /// Takes a step in that is no call, before it is done.
    pub fn add_step(&mut self, before: &World, step: &Step) {
        let searching = before.session.on != 0;
        let wrong = before.session.user > 15 || before.session.place > 64;
        let (in_search, of_odd_byte, of_wrong_session) = match step {
            Step::Lift => (
                Event::LiftInSearch,
                Event::LiftOfOddByte,
                Event::LiftOfWrongSession,
            ),
            Step::Protect => (
                Event::ProtectInSearch,
                Event::ProtectOfOddByte,
                Event::ProtectOfWrongSession,
            ),
            _ => return,
        };
        self.tally(in_search, searching);
        self.tally(of_odd_byte, is_odd(before));
        self.tally(of_wrong_session, wrong);
    }

    /// An accepted call, by the write protection that it met.
    fn add_protected(&mut self, before: &World, after: &World, ask: &Ask) {
        let number = usize::from(ask.number);
        self.odd[number] += usize::from(is_odd(before));
        if !before.is_protected() {
            return;
        }
        self.protected[number] += 1;
        let new_map = before.map != after.map;
        let moved = moved(before, after, ask);
        let stays = !moved && close_changes(before, &before.fcb(ask.fcb));
        let asked = before.is_dated() && before.asks(asks::ACCESS);
        match ask.number {
            13 => self.tally(Event::ProtectedLogIn, new_map),
            15 => self.tally(Event::ProtectedAccess, asked),
            20 => {
                self.tally(Event::ProtectedMoveBy20, moved);
                self.tally(Event::ProtectedStayBy20, stays);
            }
            33 => {
                self.tally(Event::ProtectedMoveBy33, moved);
                self.tally(Event::ProtectedStayBy33, stays);
            }
            98 => self.tally(Event::ProtectedFreeBlocks, new_map),
            _ => {}
        }
    }

    /// A refused call, by the write protection that it met.
    fn add_refused_protected(&mut self, before: &World, ask: &Ask, cause: Cause) {
        self.tally(Event::RefusedWithOddByte, is_odd(before));
        if !before.is_protected() {
            return;
        }
        let by_protection = PROTECTED.contains(&(ask.number, cause));
        let first = by_protection && before.refusal_if_lifted(ask).is_some();
        self.protected_first[usize::from(ask.number)] += usize::from(first);
        let fcb = before.fcb(ask.fcb);
        let changes = read_moves(ask.number, &fcb) && close_changes(before, &fcb);
        match cause {
            Cause::NoExtent20 | Cause::LastExtent20 | Cause::PastCount20 | Cause::NoBlock20 => {
                self.tally(Event::ProtectedNotThereBy20, changes);
            }
            Cause::NoExtent33 | Cause::PastCount33 | Cause::NoBlock33 => {
                self.tally(Event::ProtectedNotThereBy33, changes);
            }
            _ => {}
        }
    }

    /// What is wrong with a disk that was refused.
    fn add_faults(&mut self, before: &World, cause: Cause) {
        let fault = match cause {
            Cause::Inconsistent => faults::in_image(before),
            Cause::MapWrong => faults::in_map(before),
            _ => None,
        };
        if let Some(fault) = fault {
            self.faults[fault as usize] += 1;
        }
        if matches!(fault, Some(Fault::BadDates | Fault::BadLabel)) {
            for (times, place) in self.bad_bcd.iter_mut().zip(BadBcd::ALL) {
                *times += usize::from(place.is_in(before));
            }
        }
    }

    /// A call that would have stamped and was refused, by a row of its own.
    fn add_refused(&mut self, before: &World, ask: &Ask, cause: Cause) {
        let Some(way) = Way::of(ask.number) else {
            return;
        };
        let own_row = cause as usize > Cause::Protected34 as usize;
        if !own_row || before.is_protected() || !before.is_dated() || !before.asks(way.bit) {
            return;
        }
        // The rows before it are tested first, whatever the FCB.
        let is_current = cause as usize > Cause::NotCurrent34 as usize;
        let due = match way.refused {
            Event::RefusedByMove => is_current && close_changes(before, &before.fcb(ask.fcb)),
            _ => true,
        };
        self.tally(way.refused, due);
    }

    fn add_events(&mut self, before: &World, after: &World, ask: &Ask, answer: Answer) {
        let changed = || (0..64).filter(|&entry| before.entry(entry) != after.entry(entry));
        let new_map = before.map != after.map;
        match ask.number {
            13 => self.tally(Event::LogInThatChanges, new_map),
            16 => self.tally(Event::CloseThatRecords, recorded(after) > recorded(before)),
            19 => {
                let freed = pending(after) < pending(before);
                self.tally(Event::DeleteThatFreesPending, freed);
                self.tally(Event::DeleteOfSeveral, changed().count() > 1);
            }
            23 => self.tally(Event::RenameOfSeveral, changed().count() > 1),
            98 => self.tally(Event::FreeBlocksThatFrees, new_map),
            _ => {}
        }
        let ended = before.session.on != 0 && answer.session.on == 0;
        self.tally(Event::EndOfSearch, ended);
    }

    /// The same for reads and writes.
    fn add_transfers(&mut self, before: &World, after: &World, ask: &Ask) {
        let moved = moved(before, after, ask);
        let made = moved && after.used().count() > before.used().count();
        match ask.number {
            20 => self.tally(Event::MoveBy20, moved),
            21 => {
                self.tally(Event::MoveBy21, moved);
                self.tally(Event::EntryMadeBy21, made);
            }
            33 => self.tally(Event::MoveBy33, moved),
            34 => {
                self.tally(Event::MoveBy34, moved);
                self.tally(Event::EntryMadeBy34, made);
            }
            _ => return,
        }
        let records = recorded(after) > recorded(before);
        self.tally(Event::MoveThatRecords, moved && records);
        let free = |world: &World| world.map.cells().iter().filter(|&&n| n == 0).count();
        let takes = matches!(ask.number, 21 | 34) && free(after) < free(before);
        self.tally(Event::WriteThatTakes, takes);
    }

    /// The same for stamps, made or not.
    fn add_stamps(&mut self, before: &World, after: &World, ask: &Ask) {
        let Some(way) = Way::of(ask.number) else {
            return;
        };
        let is_update = way.bit == asks::UPDATE;
        let stays = matches!(ask.number, 20 | 21 | 33 | 34) && !moved(before, after, ask);
        // An update is beside the entry that is closed, which a move leaves.
        let entry = match is_update {
            true => before.entry_of(&before.fcb(ask.fcb)),
            false => after.entry_of(&after.fcb(ask.fcb)),
        };
        let Some(entry) = entry.filter(|_| !stays && !before.is_protected()) else {
            return;
        };
        let due = !is_update || before.entry(entry) != after.entry(entry);
        match (before.is_dated(), before.asks(way.bit), due) {
            (true, true, true) => {
                self.tally(way.stamped, true);
                let stamp = |world: &World| world.stamps(entry)[way.which];
                self.add_stamp(stamp(before), stamp(after));
            }
            (true, true, false) => {
                if let Some(unchanged) = way.unchanged {
                    self.tally(unchanged, true);
                }
            }
            (true, false, true) => self.tally(way.not_asked, true),
            (false, true, true) => self.tally(way.undated, true),
            _ => {}
        }
    }

    /// A stamp as it was and as it is.
    fn add_stamp(&mut self, was: [u8; 4], is: [u8; 4]) {
        let order = |stamp: [u8; 4]| [stamp[1], stamp[0], stamp[2], stamp[3]];
        self.tally(Event::StampGoesBack, order(is) < order(was));
        self.tally(Event::StampRepeats, is == was);
        self.tally(Event::StampOfOddTime, is[2] > 0x23 || is[3] > 0x59);
    }

    /// Stamps beside a new entry that become zero.
    fn add_zeros(&mut self, before: &World, after: &World, ask: &Ask) {
        let event = match ask.number {
            22 => Event::ZerosBy22,
            21 | 34 => Event::ZerosByMove,
            _ => return,
        };
        if !before.is_dated() {
            return;
        }
        let mut made = after.used().filter(|&entry| !before.is_used(entry));
        let zeros = made.any(|entry| {
            let mut pairs = before.stamps(entry).into_iter().zip(after.stamps(entry));
            pairs.any(|(was, is)| was != [0; 4] && is == [0; 4])
        });
        self.tally(event, zeros);
    }

    /// The same for counts over 128, in an entry or in the FCB.
    fn add_counts(&mut self, before: &World, after: &World, ask: &Ask) {
        let (was, is) = (before.fcb(ask.fcb), after.fcb(ask.fcb));
        let number = ask.number;
        let over = |entry: Option<usize>| entry.is_some_and(|e| before.entry(e)[15] > 128);
        let present = before.entry_of(&was);
        // The entry that the FCB has come to: of a close, its own.
        let over_there = over(before.entry_of(&is));
        let over_in_fcb = was[15] > 128;
        let wrote = |entry: usize| before.entry(entry)[15] < 128 && after.entry(entry)[15] == 128;
        let wrote = over_in_fcb && present.is_some_and(wrote);
        for &(call, in_entry, in_fcb) in &READ_A_COUNT {
            self.tally(in_entry, call == number && over_there);
            self.tally(in_fcb, call == number && over_in_fcb);
        }
        match number {
            15 => self.tally(Event::Over128By15, is[15] > 128),
            16 => self.tally(Event::CloseThatWrites128, wrote),
            35 => self.tally(Event::Over128By35, over(last_of(before, &is))),
            _ => {}
        }
        if matches!(number, 20 | 21 | 33 | 34) && moved(before, after, ask) {
            self.tally(Event::MoveThatWrites128, wrote);
            self.tally(Event::MoveFromOver128, over(present));
            self.tally(Event::MoveToOver128, over_there);
        }
    }

    /// Every line of the table: what, how often, how often at least.
    fn lines(&self) -> Vec<(String, usize, usize)> {
        let cause = |&cause: &Cause| {
            let (a, h) = cause.code();
            let times = self.causes[cause as usize];
            (format!("{a:3},{h:3}  {cause:?}"), times, enough::CAUSE)
        };
        let bad_time = |&number: &u8| {
            let times = self.bad_times[usize::from(number)];
            (format!("255,  4  time, {number}"), times, enough::BAD_TIME)
        };
        let event = |&event: &Event| {
            let times = self.events[event as usize];
            (format!("{event:?}"), times, event.enough())
        };
        let fault = |&fault: &Fault| {
            let times = self.faults[fault as usize];
            (format!("255,  1  of them {fault:?}"), times, enough::FAULT)
        };
        let bad_bcd = |(place, &times): (BadBcd, &usize)| {
            (format!("255,  1  of them {place}"), times, enough::FAULT)
        };
        let mut lines: Vec<_> = Cause::ALL.iter().map(cause).collect();
        lines.extend(LISTED.iter().map(bad_time));
        lines.extend(Fault::ALL.iter().map(fault));
        lines.extend(BadBcd::ALL.into_iter().zip(&self.bad_bcd).map(bad_bcd));
        lines.extend(self.lines_of_accepted());
        lines.extend(self.lines_of_protection());
        lines.extend(Event::ALL.iter().map(event));
        lines
    }

    /// Those of accepted calls, lifted and protected apart: what came up on the
    /// one kind of session is not enough for the other.
    fn lines_of_accepted(&self) -> Vec<(String, usize, usize)> {
        let mut lines = Vec::new();
        for &number in LISTED {
            let protected = self.protected[usize::from(number)];
            let lifted = self.accepted[usize::from(number)] - protected;
            let what = |session: &str| format!("accepted {number}, {session}");
            lines.push((what("lifted"), lifted, enough::ACCEPTED));
            if is_accepted_protected(number) {
                lines.push((what("protected"), protected, enough::PROTECTED));
            }
        }
        lines
    }

    /// Those of the write protection.
    fn lines_of_protection(&self) -> Vec<(String, usize, usize)> {
        let odd = |&(number, _): &(u8, Cause)| {
            let times = self.odd[usize::from(number)];
            let what = format!("accepted {number}, lifted by 2 to 255");
            (what, times, enough::LIFTED)
        };
        let first = |number: u8| {
            let times = self.protected_first[usize::from(number)];
            let what = format!("255,  2  before another row, {number}");
            (what, times, enough::LIFTED)
        };
        let mut lines: Vec<_> = refused_protected().map(first).collect();
        lines.extend(PROTECTED.iter().map(odd));
        lines
    }

    /// What did not come up often enough.
    pub fn too_few(&self) -> Vec<String> {
        let lines = self.lines().into_iter();
        lines
            .filter(|(_, times, enough)| times < enough)
            .map(|(what, times, enough)| format!("{what}: {times} of {enough}"))
            .collect()
    }
}

impl fmt::Display for Counts {
    fn fmt(&self, f: &mut fmt::Formatter) -> fmt::Result {
        writeln!(f, "{:<40} {:>8} {:>8}", "what", "times", "at least")?;
        for (what, times, enough) in self.lines() {
            let mark = if times < enough { "  TOO FEW" } else { "" };
            writeln!(f, "{what:<40} {times:>8} {enough:>8}{mark}")?;
        }
        let accepted: usize = self.accepted.iter().sum();
        writeln!(f, "{:<40} {:>8}", "accepted in all", accepted)?;
        writeln!(f, "{:<40} {:>8}", "calls in all", self.calls)
    }
}

#[cfg(test)]
mod tests {
    use super::*;

    /// Calls on the one kind of session do not stand for those on the other.
    #[test]
    fn lifted_and_protected_calls_are_counted_apart() {
        let mut counts = Counts::default();
        counts.accepted[13] = 2 * enough::ACCEPTED;
        let few = |counts: &Counts| -> Vec<String> {
            let lines = counts.too_few().into_iter();
            lines
                .filter(|line| line.starts_with("accepted 13, "))
                .collect()
        };
        assert_eq!(few(&counts), ["accepted 13, protected: 0 of 300"]);
        counts.protected[13] = enough::ACCEPTED + 1;
        assert_eq!(few(&counts), ["accepted 13, lifted: 999 of 1000"]);
        counts.accepted[13] += 1;
        assert!(few(&counts).is_empty());
    }
}
