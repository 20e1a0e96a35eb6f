//! What holds for every call of a right implementation, whatever it does
//! otherwise. Two implementations that agree could still both be wrong; these
//! laws are asked of one alone.

use crate::faults::{self, is_bad_bcd};
use crate::sequence::{Ask, Step};
use crate::world::{asks, Implementation, World, DATES, FCBS, LABEL, RIGHT_LENGTHS};
use reference::diskette::{self, DIRECTORY_PLACES, RECORD_BYTES};
use reference::{Answer, Asked, Cause, Session, LISTED};

/// The records that an rc counts: "the smaller of rc and 128".
pub fn count(rc: u8) -> u8 {
    rc.min(128)
}

/// Whether a close would change the entry of an FCB: "a block recorded, or a
/// larger count".
pub fn close_changes(world: &World, fcb: &[u8]) -> bool {
    world.entry_of(fcb).is_some_and(|entry| {
        let row = world.entry(entry);
        let mut slots = row[16..].iter().zip(&fcb[16..32]);
        count(fcb[15]) > count(row[15]) || slots.any(|(&slot, &block)| slot == 0 && block != 0)
    })
}

/// Whether a 20 or 33 with an FCB goes to another extent than the FCB's.
pub fn read_moves(number: u8, fcb: &[u8]) -> bool {
    let record = u32::from_le_bytes([fcb[33], fcb[34], fcb[35], 0]);
    match number {
        20 => fcb[32] == 128,
        _ => record / 128 != 32 * u32::from(fcb[14]) + u32::from(fcb[12]),
    }
}

/// Calls that don't use the FCB.
const WITHOUT_FCB: [u8; 5] = [13, 18, 32, 46, 98];

/// The world as it was before a call, kept up to date from call to call.
pub struct Laws {
    before: World,
    in_blocks: Vec<bool>,
}

impl Laws {
    /// For a world as it is.
    pub fn new(world: &World) -> Self {
        Self {
            before: world.clone(),
            in_blocks: World::sectors_in_blocks(),
        }
    }

    /// The world as it was before the call.
    pub fn before(&self) -> &World {
        &self.before
    }

    /// Follows a step that is not a call, and tells whether it broke a law:
    /// lifting and setting the write protection changes one field of the
    /// session, and nothing else.
    pub fn follow(&mut self, after: &World, step: &Step) -> Result<(), &'static str> {
        self.before.prepare(step);
        match after.session == self.before.session {
            true => Ok(()),
            false => Err("lifting or protecting left the wrong session"),
        }
    }

    /// Tells which law a call broke, if it broke one. `cause` is why it was
    /// refused, according to the reference.
    pub fn check(
        &mut self,
        after: &World,
        ask: &Ask,
        answer: Answer,
        cause: Option<Cause>,
    ) -> Result<(), &'static str> {
        self.check_verdict(ask, cause)?;
        self.check_protected_verdict(ask, cause)?;
        self.check_protection(after, ask, answer)?;
        match cause {
            Some(cause) => self.check_refused(after, answer, cause)?,
            None => self.check_accepted(after, ask, answer)?,
        }
        self.catch_up(after, ask);
        Ok(())
    }

    /// "Image not consistent" and "map not right" are told plainly too.
    fn check_verdict(&self, ask: &Ask, cause: Option<Cause>) -> Result<(), &'static str> {
        let early = cause.is_some_and(|cause| (cause as usize) < Cause::Inconsistent as usize);
        if early {
            return Ok(());
        }
        let inconsistent = faults::in_image(&self.before).is_some();
        if inconsistent != (cause == Some(Cause::Inconsistent)) {
            return Err("an image was misjudged");
        }
        let asks_map = ask.number != 13 && !inconsistent;
        let wrong = asks_map && faults::in_map(&self.before).is_some();
        if wrong != (cause == Some(Cause::MapWrong)) {
            return Err("a map was misjudged");
        }
        Ok(())
    }

    /// "Until the caller lifts it" six calls are refused wherever the disk is
    /// right, and a read that would else succeed is exactly where its move
    /// changes an entry.
    fn check_protected_verdict(&self, ask: &Ask, cause: Option<Cause>) -> Result<(), &'static str> {
        let early = cause.is_some_and(|cause| (cause as usize) < Cause::Protected16 as usize);
        let refused = cause.is_some_and(|cause| cause.code() == (255, 2));
        let due = match ask.number {
            _ if early || !self.before.is_protected() => false,
            16 | 19 | 21 | 22 | 23 | 34 => true,
            20 | 33 => self.move_would_change(ask),
            _ => false,
        };
        match refused == due {
            true => Ok(()),
            false => Err("a protected session was misjudged"),
        }
    }

    /// Whether a read would be accepted on a lifted session, by a move whose
    /// close changes the entry that the FCB is current for.
    fn move_would_change(&self, ask: &Ask) -> bool {
        let (before, fcb) = (&self.before, self.before.fcb(ask.fcb));
        let changes = read_moves(ask.number, &fcb) && close_changes(before, &fcb);
        changes && before.refusal_if_lifted(ask).is_none()
    }

    /// No call changes the protection, and on a protected session none changes
    /// a byte of the image, or of the map but by 13 and 98.
    fn check_protection(
        &self,
        after: &World,
        ask: &Ask,
        answer: Answer,
    ) -> Result<(), &'static str> {
        if answer.session.lifted != self.before.session.lifted {
            return Err("a call lifted or set the write protection");
        }
        let map_may = matches!(ask.number, 13 | 98) || after.map == self.before.map;
        let kept = after.image == self.before.image && map_may;
        match kept || !self.before.is_protected() {
            true => Ok(()),
            false => Err("a call changed a protected disk"),
        }
    }

    /// "Every one of these changes nothing", but for a search that ends.
    fn check_refused(
        &self,
        after: &World,
        answer: Answer,
        cause: Cause,
    ) -> Result<(), &'static str> {
        if (answer.a, answer.h) != cause.code() {
            return Err("a refusal has the wrong code");
        }
        let kept = self.before.session;
        let ended = Session {
            place: 0,
            on: 0,
            ..kept
        };
        let ends = matches!(cause, Cause::NothingMatches17 | Cause::NoMore18);
        let expected = if ends { ended } else { kept };
        if answer.session != expected {
            return Err("a refusal left the wrong session");
        }
        let same = after.image == self.before.image
            && after.map == self.before.map
            && after.buffer == self.before.buffer
            && after.fcbs == self.before.fcbs;
        same.then_some(()).ok_or("a refusal changed something")
    }

    /// What every accepted call keeps to.
    fn check_accepted(&self, after: &World, ask: &Ask, answer: Answer) -> Result<(), &'static str> {
        let number = ask.number;
        if !LISTED.contains(&number) || ask.lengths != RIGHT_LENGTHS {
            return Err("what can't be accepted was");
        }
        if answer.h != 0 || (number != 32 && answer.a > 3) {
            return Err("an accepted call has a code");
        }
        if !after.is_sound() {
            return Err("an accepted call left an unsound disk");
        }
        self.check_session(number, answer)?;
        self.check_fcbs(after, ask)?;
        self.check_image(after, ask)?;
        self.check_counts(after, ask)?;
        self.check_aside(after)?;
        self.check_stamps(after, ask)?;
        let takes_buffer = matches!(number, 17 | 18 | 20 | 33 | 46);
        if !takes_buffer && after.buffer != self.before.buffer {
            return Err("a call changed the buffer");
        }
        let takes_map = matches!(number, 13 | 16 | 19 | 20 | 21 | 33 | 34 | 98);
        if !takes_map && after.map != self.before.map {
            return Err("a call changed the map");
        }
        Ok(())
    }

    fn check_session(&self, number: u8, answer: Answer) -> Result<(), &'static str> {
        let (before, session) = (self.before.session, answer.session);
        let search = matches!(number, 17 | 18);
        let expected_on = u8::from(search);
        let place_is_fine = match search {
            true => (1..=64).contains(&session.place),
            false => session.place == 0,
        };
        let pattern_is_fine = number == 17 || session.pattern == before.pattern;
        let user_is_fine = number == 32 || session.user == before.user;
        let fine = session.on == expected_on && place_is_fine && pattern_is_fine && user_is_fine;
        fine.then_some(())
            .ok_or("an accepted call left the wrong session")
    }

    /// Only the lent FCB changes, and of it not byte 0; random records only by
    /// 35 and 36.
    fn check_fcbs(&self, after: &World, ask: &Ask) -> Result<(), &'static str> {
        let number = ask.number;
        for which in 0..FCBS {
            let (was, is) = (self.before.fcb(which), after.fcb(which));
            let lent = which == ask.fcb % FCBS && !WITHOUT_FCB.contains(&number);
            if !lent && was != is {
                return Err("an FCB changed that was not lent");
            }
            if was[0] != is[0] {
                return Err("byte 0 of an FCB changed");
            }
            if !matches!(number, 35 | 36) && was[33..] != is[33..] {
                return Err("a random record changed");
            }
            if !matches!(number, 20 | 21 | 33 | 34) && was[32] != is[32] {
                return Err("cr changed");
            }
        }
        Ok(())
    }

    /// Sectors of no block are never touched, the directory by some calls
    /// only, and of the rest just the record written.
    fn check_image(&self, after: &World, ask: &Ask) -> Result<(), &'static str> {
        let number = ask.number;
        let written = matches!(number, 21 | 34).then(|| {
            let fcb = after.fcb(ask.fcb);
            // Afterwards cr is one past the record, or for 34 the record.
            let record = fcb[32].saturating_sub(u8::from(number == 21));
            let block = fcb[16 + usize::from(record / 8) % 16];
            diskette::place(block.min(242), record) / RECORD_BYTES
        });
        let stamps = self.before.is_dated() && !self.before.is_protected();
        let opens = number == 15 && stamps && self.before.asks(asks::ACCESS);
        let takes_directory = opens || matches!(number, 16 | 19..=23 | 33 | 34);
        for (sector, _) in differing(&self.before, after) {
            if !self.in_blocks[sector] {
                return Err("a sector of no block changed");
            }
            let in_directory = DIRECTORY_PLACES.contains(&(sector * RECORD_BYTES));
            let fine = match in_directory {
                true => takes_directory,
                false => written == Some(sector),
            };
            if !fine {
                return Err("a record changed that was not written");
            }
        }
        Ok(())
    }

    /// rc over 128 is read as 128 and left as it is: a write leaves a count in
    /// the FCB, and only a close or a move writes one into an entry, where it
    /// is larger than the one that stood there.
    fn check_counts(&self, after: &World, ask: &Ask) -> Result<(), &'static str> {
        let number = ask.number;
        let rc = after.fcb(ask.fcb)[15];
        if matches!(number, 21 | 34) && !(1..=128).contains(&rc) {
            return Err("a write left no count");
        }
        let closes = matches!(number, 16 | 20 | 21 | 33 | 34);
        for entry in self.before.used() {
            let (was, is) = (self.before.entry(entry)[15], after.entry(entry)[15]);
            let fine = was == is || (closes && is > count(was) && is == count(is));
            if !fine {
                return Err("an entry's rc is neither as it was nor a larger count");
            }
        }
        Ok(())
    }

    /// Labels stay as they are, and of date entries all that is no stamp:
    /// mode and reserved bytes, and byte 0.
    fn check_aside(&self, after: &World) -> Result<(), &'static str> {
        for kind in [LABEL, DATES] {
            if !self.before.of_kind(kind).eq(after.of_kind(kind)) {
                return Err("a label or a date entry came or went");
            }
        }
        let same = |entry: usize| self.before.entry(entry) == after.entry(entry);
        if !self.before.of_kind(LABEL).all(same) {
            return Err("a label changed");
        }
        let is_no_stamp = |at: &usize| !(1..30).contains(at) || (at - 1) % 10 > 7;
        let rest = |world: &World, entry: usize| -> Vec<u8> {
            let row = world.entry(entry);
            (0..32).filter(is_no_stamp).map(|at| row[at]).collect()
        };
        let kept = |entry: usize| rest(&self.before, entry) == rest(after, entry);
        match self.before.of_kind(DATES).all(kept) {
            true => Ok(()),
            false => Err("a date entry changed beside its stamps"),
        }
    }

    /// Each stamp is what is due, beside every entry.
    fn check_stamps(&self, after: &World, ask: &Ask) -> Result<(), &'static str> {
        if !self.before.is_dated() {
            return Ok(());
        }
        let is_due = |entry: usize| after.stamps(entry) == self.stamps_due(after, ask, entry);
        match (0..64).filter(|entry| entry % 4 != 3).all(is_due) {
            true => Ok(()),
            false => Err("a stamp is not what is due"),
        }
    }

    /// The stamps that are due beside an entry of a disk with date entries.
    /// Beside a new entry: zeros, but create is the time after a 22 where the
    /// label asks. Beside any other: access after a 15 on a lifted session,
    /// update after a close or move that changes the entry are the time where
    /// the label asks. In every other case they are as they were.
    fn stamps_due(&self, after: &World, ask: &Ask, entry: usize) -> [[u8; 4]; 2] {
        let before = &self.before;
        let (now, zero) = (before.time.stamp(), [0; 4]);
        let [first, update] = before.stamps(entry);
        if !before.is_used(entry) && after.is_used(entry) {
            let created = ask.number == 22 && before.asks(asks::CREATE);
            return [if created { now } else { zero }, zero];
        }
        let opened = ask.number == 15 && after.entry_of(&after.fcb(ask.fcb)) == Some(entry);
        let changed = matches!(ask.number, 16 | 20 | 21 | 33 | 34)
            && before.entry(entry) != after.entry(entry);
        let accessed = opened && before.asks(asks::ACCESS) && !before.is_protected();
        let updated = changed && before.asks(asks::UPDATE);
        [
            if accessed { now } else { first },
            if updated { now } else { update },
        ]
    }

    /// Makes the kept world the present one.
    fn catch_up(&mut self, after: &World, ask: &Ask) {
        let sectors: Vec<_> = differing(&self.before, after)
            .map(|(sector, bytes)| (sector, *bytes))
            .collect();
        for (sector, bytes) in sectors {
            let place = sector * RECORD_BYTES;
            self.before.image.cells_mut()[place..][..RECORD_BYTES].copy_from_slice(&bytes);
        }
        self.before.map.clone_from(&after.map);
        let which = ask.fcb % FCBS;
        self.before.fcbs[which].clone_from(&after.fcbs[which]);
        self.before.buffer.clone_from(&after.buffer);
        self.before.session = after.session;
    }
}

/// An implementation that is handed another time where the time must not matter:
/// on disks without date entries. Beside itself it has to do the same.
pub fn at_another_time(implementation: &mut dyn Implementation) -> impl Implementation + '_ {
    AtAnotherTime(implementation)
}

struct AtAnotherTime<'a>(&'a mut dyn Implementation);

impl Implementation for AtAnotherTime<'_> {
    fn call(
        &mut self,
        asked: Asked,
        image: &mut [u8],
        map: &mut [u16],
        fcb: &mut [u8],
        buffer: &mut [u8],
        session: Session,
    ) -> Answer {
        let asked = match is_undated(image) {
            true => another_time(asked),
            false => asked,
        };
        self.0.call(asked, image, map, fcb, buffer, session)
    }

    fn lift(&mut self, session: Session) -> Session {
        self.0.lift(session)
    }

    fn protect(&mut self, session: Session) -> Session {
        self.0.protect(session)
    }
}

/// Whether entry 3 is no date entry: a consistent image then has none.
fn is_undated(image: &[u8]) -> bool {
    image.get(World::entry_place(3)) != Some(&DATES)
}

/// The same at another time in BCD; what is not in BCD stays.
fn another_time(asked: Asked) -> Asked {
    // Nine less every digit is a digit.
    let other = |byte: u8| match is_bad_bcd(byte) {
        true => byte,
        false => 0x99 - byte,
    };
    Asked {
        day: !asked.day,
        hour: other(asked.hour),
        minute: other(asked.minute),
        ..asked
    }
}

/// The sectors of two images that differ, with the bytes of the second.
fn differing<'a>(
    one: &'a World,
    other: &'a World,
) -> impl Iterator<Item = (usize, &'a [u8; RECORD_BYTES])> {
    let (ones, _) = one.image.cells().as_chunks::<RECORD_BYTES>();
    let (others, _) = other.image.cells().as_chunks::<RECORD_BYTES>();
    let pairs = ones.iter().zip(others).enumerate();
    pairs
        .filter(|(_, (one, other))| one != other)
        .map(|(sector, (_, other))| (sector, other))
}
