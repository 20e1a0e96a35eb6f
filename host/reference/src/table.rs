//! The table of codes: which call is refused, and why.
//!
//! Everything is decided here, on the state as it came in, before anything is
//! changed. A call that is not refused leaves as a [`Plan`] that
//! [`carry_out`](crate::calls::carry_out) can't fail to follow.

use crate::calls::{close_changes, Call, Going, Plan, Transfer};
use crate::current::{current, numbers_in_range};
use crate::dates::is_bcd;
use crate::directory::{
    at as entry_at, count, is_read_only, name_is_plain, pattern_is_plain, row, Directory, Entries,
    Name, Wanted, ANY, EXTENT_RECORDS, LAST_EX, LAST_USER,
};
use crate::fcb;
use crate::lent::Lent;
use crate::map;
use crate::{Asked, Session};

/// Writes the rows of the table down as an enum with its codes.
macro_rules! causes {
    ($($(#[$doc:meta])* $cause:ident => $a:literal, $h:literal;)*) => {
        /// Why a call is refused: every row of the table, by its causes, in
        /// the table's order. The number in a name is the call's.
        #[derive(Clone, Copy, Debug, PartialEq, Eq, Hash)]
        pub enum Cause {
            $($(#[$doc])* $cause,)*
        }

        impl Cause {
            /// Every cause, in the table's order; `cause as usize` is its
            /// place here.
            pub const ALL: &'static [Cause] = &[$(Cause::$cause),*];

            /// A and H.
            pub const fn code(self) -> (u8, u8) {
                match self {
                    $(Cause::$cause => ($a, $h),)*
                }
            }
        }
    };
}

causes! {
    /// The call number is not listed.
    Unlisted => 255, 255;

    /// The image has the wrong length.
    ImageLength => 255, 4;
    /// The map has the wrong length.
    MapLength => 255, 4;
    /// The FCB has the wrong length.
    FcbLength => 255, 4;
    /// The transfer buffer has the wrong length.
    BufferLength => 255, 4;
    /// The session's user is over 15.
    SessionUser => 255, 4;
    /// The search place is over 64.
    SessionPlace => 255, 4;
    /// Byte 0 of an FCB that is used is over 1.
    FcbDrive => 255, 4;
    /// The hour handed in is not in BCD.
    TimeHour => 255, 4;
    /// The minute handed in is not in BCD.
    TimeMinute => 255, 4;

    /// The image is not consistent.
    Inconsistent => 255, 1;
    /// The map is not right.
    MapWrong => 255, 1;

    /// The session is protected.
    Protected16 => 255, 2;
    /// The session is protected.
    Protected19 => 255, 2;
    /// The session is protected, and the move of a read that nothing else
    /// refuses would change an entry.
    Protected20 => 255, 2;
    /// The session is protected.
    Protected21 => 255, 2;
    /// The session is protected.
    Protected22 => 255, 2;
    /// The session is protected.
    Protected23 => 255, 2;
    /// The session is protected, and the move of a read that nothing else
    /// refuses would change an entry.
    Protected33 => 255, 2;
    /// The session is protected.
    Protected34 => 255, 2;

    /// The random record is over 262,143.
    TooFar33 => 6, 0;
    /// The random record is over 262,143.
    TooFar34 => 6, 0;

    /// The FCB is not current.
    NotCurrent20 => 9, 0;
    /// The FCB is not current.
    NotCurrent21 => 9, 0;
    /// The FCB is not current.
    NotCurrent33 => 9, 0;
    /// The FCB is not current.
    NotCurrent34 => 9, 0;

    /// The FCB to be closed is not current.
    NotCurrent16 => 255, 0;
    /// ex, s2 or cr is out of range.
    BadNumbers36 => 255, 0;
    /// The argument is neither 255 nor 0 to 15.
    BadUser32 => 255, 0;

    /// A name byte breaks the name rule.
    BadName15 => 255, 9;
    /// Byte 12 is over 31.
    BadExtent15 => 255, 9;
    /// A name byte breaks the name rule, 3FH allowed.
    BadName17 => 255, 9;
    /// Byte 12 is over 31 and not 3FH.
    BadExtent17 => 255, 9;
    /// A name byte breaks the name rule, 3FH allowed.
    BadName19 => 255, 9;
    /// A name byte breaks the name rule.
    BadName22 => 255, 9;
    /// Byte 12 is over 31.
    BadExtent22 => 255, 9;
    /// A byte of the old name breaks the name rule.
    BadOldName23 => 255, 9;
    /// A byte of the new name breaks the name rule.
    BadNewName23 => 255, 9;
    /// A name byte breaks the name rule.
    BadName35 => 255, 9;

    /// Nothing matches.
    NothingMatches15 => 255, 0;
    /// Nothing matches; this ends the search.
    NothingMatches17 => 255, 0;
    /// No search is on.
    NoSearch18 => 255, 0;
    /// Nothing more matches; this ends the search.
    NoMore18 => 255, 0;
    /// Nothing matches.
    NothingMatches19 => 255, 0;
    /// No extent of the old name is there.
    NothingMatches23 => 255, 0;
    /// Nothing matches.
    NothingMatches35 => 255, 0;

    /// t1' is set in a matched entry.
    ReadOnly19 => 255, 3;
    /// t1' is set in the FCB's entry.
    ReadOnly21 => 255, 3;
    /// t1' is set in the entry of the next extent.
    ReadOnlyTarget21 => 255, 3;
    /// t1' is set in an entry of the old name.
    ReadOnly23 => 255, 3;
    /// t1' is set in the FCB's entry.
    ReadOnly34 => 255, 3;
    /// t1' is set in the entry of the wanted extent.
    ReadOnlyTarget34 => 255, 3;

    /// An entry of that name and extent exists.
    Exists22 => 255, 8;
    /// An extent of the new name exists.
    Exists23 => 255, 8;

    /// No entry is empty.
    NoEmptyEntry22 => 255, 0;

    /// There is no entry for the wanted extent.
    NoExtent33 => 4, 0;

    /// The next extent has no entry.
    NoExtent20 => 1, 0;
    /// There is no extent after 2,047.
    LastExtent20 => 1, 0;
    /// The record is not below the count.
    PastCount20 => 1, 0;
    /// The record's slot is 0.
    NoBlock20 => 1, 0;
    /// The record is not below the count.
    PastCount33 => 1, 0;
    /// The record's slot is 0.
    NoBlock33 => 1, 0;

    /// The next extent has no entry and none is empty.
    NoEmptyEntry21 => 1, 0;
    /// Extent 2,047 is full.
    LastExtent21 => 1, 0;
    /// The wanted extent has no entry and none is empty.
    NoEmptyEntry34 => 5, 0;

    /// A block is wanted and no note is 0.
    NoFreeBlock21 => 2, 0;
    /// A block is wanted and no note is 0.
    NoFreeBlock34 => 2, 0;
}

impl Cause {
    /// "Only a 17 that finds nothing, or an 18 with a search on that finds no
    /// more, ends the search." Every other refusal leaves the session as it is.
    pub const fn ends_search(self) -> bool {
        matches!(self, Cause::NothingMatches17 | Cause::NoMore18)
    }
}

/// The highest search place.
const LAST_PLACE: u16 = 64;

/// The highest FCB byte 0.
const LAST_DRIVE: u8 = 1;

/// The highest random record.
const LAST_RANDOM_RECORD: u32 = 262_143;

/// The highest extent number.
const LAST_EXTENT: u16 = 2_047;

/// Refuses, or says what to do. Rows 1 and 2 up to the lengths are behind us:
/// the call is listed and the buffers have their lengths. `directory` comes
/// unread and goes back gathered.
pub fn decide(
    call: Call,
    asked: Asked,
    lent: Lent,
    session: &Session,
    directory: &mut Directory,
) -> Result<Plan, Cause> {
    check_session_and_drive(call, lent, session)?;
    check_time(asked)?;
    check_disk(call, lent, directory)?;
    check_protection(call, session)?;
    let state = State {
        lent,
        session,
        directory,
    };
    match call {
        Call::LogIn => Ok(Plan::LogIn),
        Call::Open => state.open(),
        Call::Close => state.close(),
        Call::SearchFirst => state.search_first(),
        Call::SearchNext => state.search_next(),
        Call::Delete => state.delete(),
        Call::ReadNext => state.read_next(),
        Call::WriteNext => state.write_next(),
        Call::Make => state.make(),
        Call::Rename => state.rename(),
        Call::User => user(asked.argument),
        Call::ReadRandom => state.read_random(),
        Call::WriteRandom => state.write_random(),
        Call::Size => state.size(),
        Call::RandomRecord => state.position(),
        Call::Space => Ok(Plan::Space),
        Call::FreeBlocks => Ok(Plan::FreeBlocks),
    }
}

/// Row 255, 4, after the lengths.
fn check_session_and_drive(call: Call, lent: Lent, session: &Session) -> Result<(), Cause> {
    if session.user > LAST_USER {
        Err(Cause::SessionUser)
    } else if session.place > LAST_PLACE {
        Err(Cause::SessionPlace)
    } else if call.uses_fcb() && lent.fcb[fcb::at::DRIVE] > LAST_DRIVE {
        Err(Cause::FcbDrive)
    } else {
        Ok(())
    }
}

/// The rest of row 255, 4: "bad BCD in the time handed in", whether the call
/// stamps anything or not.
fn check_time(asked: Asked) -> Result<(), Cause> {
    if !is_bcd(asked.hour) {
        Err(Cause::TimeHour)
    } else if !is_bcd(asked.minute) {
        Err(Cause::TimeMinute)
    } else {
        Ok(())
    }
}

/// Row 255, 1. Call 13 makes the map, so it takes any.
fn check_disk(call: Call, lent: Lent, directory: &mut Directory) -> Result<(), Cause> {
    if !directory.gather(lent.image) {
        Err(Cause::Inconsistent)
    } else if call != Call::LogIn && !map::is_right(lent.map, directory) {
        Err(Cause::MapWrong)
    } else {
        Ok(())
    }
}

/// Row 255, 2, "tested right after 255, 1", but for what reads ask: theirs is
/// the row of a call "that would else succeed", so it is told once all the
/// others have passed.
fn check_protection(call: Call, session: &Session) -> Result<(), Cause> {
    let cause = match call {
        Call::Close => Cause::Protected16,
        Call::Delete => Cause::Protected19,
        Call::WriteNext => Cause::Protected21,
        Call::Make => Cause::Protected22,
        Call::Rename => Cause::Protected23,
        Call::WriteRandom => Cause::Protected34,
        _ => return Ok(()),
    };
    match session.is_protected() {
        true => Err(cause),
        false => Ok(()),
    }
}

/// Call 32 looks at its argument only.
fn user(argument: u8) -> Result<Plan, Cause> {
    match argument {
        255 => Ok(Plan::TellUser),
        0..=LAST_USER => Ok(Plan::SetUser { user: argument }),
        _ => Err(Cause::BadUser32),
    }
}

/// A sound state, and the rows from code 6 on, each call's own in the table's
/// order.
#[derive(Clone, Copy)]
struct State<'a> {
    lent: Lent<'a>,
    session: &'a Session,
    directory: &'a Directory,
}

/// The record a transfer is for.
#[derive(Clone, Copy)]
struct Target {
    extent: u16,
    record: u8,
}

/// "Name byte breaks the name rule" gives `cause`.
fn plain(name: &Name, cause: Cause) -> Result<(), Cause> {
    name_is_plain(name).then_some(()).ok_or(cause)
}

/// The same with "3FH allowed".
fn plain_pattern(name: &Name, cause: Cause) -> Result<(), Cause> {
    pattern_is_plain(name).then_some(()).ok_or(cause)
}

impl State<'_> {
    // -- Calls by name ------------------------------------------------------

    fn open(self) -> Result<Plan, Cause> {
        let name = fcb::name(self.lent.fcb);
        plain(&name, Cause::BadName15)?;
        let ex = self.byte_12(Cause::BadExtent15)?;
        let entry = self.extent_of(&name, u16::from(ex));
        let entry = entry.ok_or(Cause::NothingMatches15)?;
        Ok(Plan::Open { entry })
    }

    fn search_first(self) -> Result<Plan, Cause> {
        plain_pattern(&fcb::name(self.lent.fcb), Cause::BadName17)?;
        // Byte 12 is compared as it is: BFH is just over 31.
        if self.lent.fcb[entry_at::EX] != ANY {
            self.byte_12(Cause::BadExtent17)?;
        }
        let pattern = fcb::pattern(self.lent.fcb);
        let entry = self.search(&pattern, 0).ok_or(Cause::NothingMatches17)?;
        Ok(Plan::Hit { entry, pattern })
    }

    fn search_next(self) -> Result<Plan, Cause> {
        if self.session.on == 0 {
            return Err(Cause::NoSearch18);
        }
        // "Call 18 uses the session's pattern, whatever it holds."
        let pattern = self.session.pattern;
        let entry = self.search(&pattern, self.session.place);
        let entry = entry.ok_or(Cause::NoMore18)?;
        Ok(Plan::Hit { entry, pattern })
    }

    fn delete(self) -> Result<Plan, Cause> {
        let pattern = fcb::name(self.lent.fcb);
        plain_pattern(&pattern, Cause::BadName19)?;
        let wanted = Wanted::files(self.session.user, &pattern);
        let entries = self.some(wanted, Cause::NothingMatches19)?;
        self.all_writable(entries, Cause::ReadOnly19)?;
        Ok(Plan::Delete { entries })
    }

    fn make(self) -> Result<Plan, Cause> {
        let name = fcb::name(self.lent.fcb);
        plain(&name, Cause::BadName22)?;
        let ex = self.byte_12(Cause::BadExtent22)?;
        if self.extent_of(&name, u16::from(ex)).is_some() {
            return Err(Cause::Exists22);
        }
        let entry = self.directory.first_empty();
        let entry = entry.ok_or(Cause::NoEmptyEntry22)?;
        Ok(Plan::Make { entry })
    }

    fn rename(self) -> Result<Plan, Cause> {
        let (old, new) = (fcb::name(self.lent.fcb), fcb::new_name(self.lent.fcb));
        plain(&old, Cause::BadOldName23)?;
        plain(&new, Cause::BadNewName23)?;
        let user = self.session.user;
        let entries = self.some(Wanted::file(user, &old), Cause::NothingMatches23)?;
        self.all_writable(entries, Cause::ReadOnly23)?;
        if !self.directory.find(Wanted::file(user, &new)).is_empty() {
            return Err(Cause::Exists23);
        }
        Ok(Plan::Rename { entries })
    }

    fn size(self) -> Result<Plan, Cause> {
        let name = fcb::name(self.lent.fcb);
        plain(&name, Cause::BadName35)?;
        let wanted = Wanted::file(self.session.user, &name);
        let entries = self.some(wanted, Cause::NothingMatches35)?;
        Ok(Plan::Size { entries })
    }

    // -- Calls by a current FCB ---------------------------------------------

    fn close(self) -> Result<Plan, Cause> {
        let entry = self.current(Cause::NotCurrent16)?;
        Ok(Plan::Close { entry })
    }

    fn read_next(self) -> Result<Plan, Cause> {
        let present = self.current(Cause::NotCurrent20)?;
        let target = self.next_target().ok_or(Cause::LastExtent20)?;
        let going = self.go(target).ok_or(Cause::NoExtent20)?;
        let causes = (Cause::PastCount20, Cause::NoBlock20);
        self.check_there(present, going, target, causes)?;
        self.check_move(present, going, Cause::Protected20)?;
        Ok(Plan::Read(Transfer {
            present,
            going,
            record: target.record,
            cr: target.record + 1,
        }))
    }

    fn write_next(self) -> Result<Plan, Cause> {
        let present = self.current(Cause::NotCurrent21)?;
        let target = self.next_target();
        let found = target.and_then(|target| self.go(target));
        let causes = (Cause::ReadOnly21, Cause::ReadOnlyTarget21);
        self.check_writable(present, found, causes)?;
        let target = target.ok_or(Cause::LastExtent21)?;
        let going = self.go_or_make(found, target, Cause::NoEmptyEntry21)?;
        let block = self.block_wanted(going, target, Cause::NoFreeBlock21)?;
        let transfer = Transfer {
            present,
            going,
            record: target.record,
            cr: target.record + 1,
        };
        Ok(Plan::Write { transfer, block })
    }

    fn read_random(self) -> Result<Plan, Cause> {
        let target = self.random_target(Cause::TooFar33)?;
        let present = self.current(Cause::NotCurrent33)?;
        let going = self.go(target).ok_or(Cause::NoExtent33)?;
        let causes = (Cause::PastCount33, Cause::NoBlock33);
        self.check_there(present, going, target, causes)?;
        self.check_move(present, going, Cause::Protected33)?;
        Ok(Plan::Read(Transfer {
            present,
            going,
            record: target.record,
            cr: target.record,
        }))
    }

    fn write_random(self) -> Result<Plan, Cause> {
        let target = self.random_target(Cause::TooFar34)?;
        let present = self.current(Cause::NotCurrent34)?;
        let found = self.go(target);
        let causes = (Cause::ReadOnly34, Cause::ReadOnlyTarget34);
        self.check_writable(present, found, causes)?;
        let going = self.go_or_make(found, target, Cause::NoEmptyEntry34)?;
        let block = self.block_wanted(going, target, Cause::NoFreeBlock34)?;
        let transfer = Transfer {
            present,
            going,
            record: target.record,
            cr: target.record,
        };
        Ok(Plan::Write { transfer, block })
    }

    /// Call 36 asks for numbers in range and no more.
    fn position(self) -> Result<Plan, Cause> {
        numbers_in_range(self.lent.fcb)
            .then_some(Plan::Position)
            .ok_or(Cause::BadNumbers36)
    }

    // -- What the rows ask --------------------------------------------------

    /// Byte 12 where it is an extent 0 to 31.
    fn byte_12(self, cause: Cause) -> Result<u8, Cause> {
        let ex = self.lent.fcb[entry_at::EX];
        (ex <= LAST_EX).then_some(ex).ok_or(cause)
    }

    /// The user's entry for an extent of a name.
    fn extent_of(self, name: &Name, extent: u16) -> Option<usize> {
        self.directory.extent(self.session.user, name, extent)
    }

    /// "First match from entry 0, or for 18 from the search place, among the
    /// user's entries."
    fn search(self, pattern: &[u8; 12], place: u16) -> Option<usize> {
        let wanted = Wanted::search(self.session.user, pattern);
        self.directory.find_from(place, wanted)
    }

    /// All entries asked for, of which there must be one.
    fn some(self, wanted: Wanted, cause: Cause) -> Result<Entries, Cause> {
        let entries = self.directory.find(wanted);
        (!entries.is_empty()).then_some(entries).ok_or(cause)
    }

    /// "t1' set in a matched entry" gives `cause`.
    fn all_writable(self, entries: Entries, cause: Cause) -> Result<(), Cause> {
        let refuses = entries
            .each()
            .any(|entry| is_read_only(self.lent.image, entry));
        (!refuses).then_some(()).ok_or(cause)
    }

    /// The entry the FCB is current for.
    fn current(self, cause: Cause) -> Result<usize, Cause> {
        let Lent {
            image, map, fcb, ..
        } = self.lent;
        current(fcb, self.session.user, image, map, self.directory).ok_or(cause)
    }

    /// "The target is record cr of this extent, or, where cr is 128, record 0
    /// of the next." After extent 2,047 there is none.
    fn next_target(self) -> Option<Target> {
        let extent = fcb::extent(self.lent.fcb);
        let cr = self.lent.fcb[fcb::at::CR];
        if cr < EXTENT_RECORDS {
            return Some(Target { extent, record: cr });
        }
        (extent < LAST_EXTENT).then_some(Target {
            extent: extent + 1,
            record: 0,
        })
    }

    /// "The target is record R mod 128 of extent R/128."
    fn random_target(self, cause: Cause) -> Result<Target, Cause> {
        let record = fcb::random_record(self.lent.fcb);
        if record > LAST_RANDOM_RECORD {
            return Err(cause);
        }
        Ok(Target {
            extent: (record / u32::from(EXTENT_RECORDS)) as u16,
            record: (record % u32::from(EXTENT_RECORDS)) as u8,
        })
    }

    /// How to get to the target where its extent has an entry: no move at all,
    /// or a move to that entry.
    fn go(self, target: Target) -> Option<Going> {
        if target.extent == fcb::extent(self.lent.fcb) {
            return Some(Going::Stay);
        }
        let entry = self.extent_of(&fcb::name(self.lent.fcb), target.extent)?;
        Some(Going::Move { entry })
    }

    /// "A write with no such entry makes one in the first empty place."
    fn go_or_make(
        self,
        found: Option<Going>,
        target: Target,
        cause: Cause,
    ) -> Result<Going, Cause> {
        if let Some(going) = found {
            return Ok(going);
        }
        let entry = self.directory.first_empty().ok_or(cause)?;
        Ok(Going::Make {
            entry,
            extent: target.extent,
        })
    }

    /// "t1' set in the FCB's entry or in the target entry". The FCB's own t1'
    /// is not asked.
    fn check_writable(
        self,
        present: usize,
        found: Option<Going>,
        (here, there): (Cause, Cause),
    ) -> Result<(), Cause> {
        if is_read_only(self.lent.image, present) {
            return Err(here);
        }
        match found {
            Some(Going::Move { entry }) if is_read_only(self.lent.image, entry) => Err(there),
            _ => Ok(()),
        }
    }

    /// The slot of the target's record, as it will stand in the FCB once it
    /// is there.
    fn slot(self, going: Going, target: Target) -> u8 {
        let at = entry_at::SLOTS + usize::from(target.record / 8);
        match going {
            Going::Stay => self.lent.fcb[at],
            Going::Move { entry } => row(self.lent.image, entry)[at],
            Going::Make { .. } => 0,
        }
    }

    /// "There exactly when the target is below the larger of the FCB's and
    /// entry's rc and its FCB slot (target/8) isn't 0", each rc as a count.
    /// After a move the FCB is the entry's copy.
    fn check_there(
        self,
        present: usize,
        going: Going,
        target: Target,
        (past_count, no_block): (Cause, Cause),
    ) -> Result<(), Cause> {
        let counted = |entry| count(row(self.lent.image, entry)[entry_at::RC]);
        let records = match going {
            Going::Stay => counted(present).max(count(self.lent.fcb[entry_at::RC])),
            Going::Move { entry } | Going::Make { entry, .. } => counted(entry),
        };
        if target.record >= records {
            Err(past_count)
        } else if self.slot(going, target) == 0 {
            Err(no_block)
        } else {
            Ok(())
        }
    }

    /// "A read that would else succeed by a move that changes an entry" is
    /// refused on a protected session.
    fn check_move(self, present: usize, going: Going, cause: Cause) -> Result<(), Cause> {
        let stays = matches!(going, Going::Stay);
        let changes = || close_changes(self.lent.fcb, row(self.lent.image, present));
        match self.session.is_protected() && !stays && changes() {
            true => Err(cause),
            false => Ok(()),
        }
    }

    /// "A slot of 0 takes the first free block": that block where one is
    /// wanted, and nothing where the slot has its block.
    fn block_wanted(self, going: Going, target: Target, cause: Cause) -> Result<Option<u8>, Cause> {
        if self.slot(going, target) != 0 {
            return Ok(None);
        }
        map::first_free(self.lent.map).map(Some).ok_or(cause)
    }
}

#[cfg(test)]
mod tests {
    use super::*;

    #[test]
    fn causes_are_numbered_in_order() {
        for (i, &cause) in Cause::ALL.iter().enumerate() {
            assert_eq!(cause as usize, i);
        }
    }

    #[test]
    fn codes_are_those_of_the_table() {
        let codes: std::collections::BTreeSet<_> = Cause::ALL.iter().map(|c| c.code()).collect();
        let expected = [
            (1, 0),
            (2, 0),
            (4, 0),
            (5, 0),
            (6, 0),
            (9, 0),
            (255, 0),
            (255, 1),
            (255, 2),
            (255, 3),
            (255, 4),
            (255, 8),
            (255, 9),
            (255, 255),
        ];
        assert!(codes.into_iter().eq(expected));
    }
}
