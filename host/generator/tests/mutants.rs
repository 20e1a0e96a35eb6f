//! Implementations that are wrong in one small way. Each of them has to be
//! found out, and its failing call has to fail again when replayed from text.

use generator::{asks, replay, run, Counts, Implementation, Sequence};
use reference::diskette::{DIRECTORY_PLACES, IMAGE_BYTES};
use reference::{call, lift, protect, refusal, Answer, Asked, Cause, Session};

/// Calls in which a wrong implementation has to be found out.
const CALLS: usize = 60_000;

/// What a call is lent, for short.
struct Lent<'a> {
    asked: Asked,
    image: &'a mut [u8],
    map: &'a mut [u16],
    fcb: &'a mut [u8],
    buffer: &'a mut [u8],
    session: Session,
}

impl Lent<'_> {
    fn call(&mut self) -> Answer {
        call(
            self.asked,
            self.image,
            self.map,
            self.fcb,
            self.buffer,
            self.session,
        )
    }

    fn refusal(&self) -> Option<Cause> {
        refusal(
            self.asked,
            self.image,
            self.map,
            self.fcb,
            self.buffer,
            self.session,
        )
    }

    /// Answers with a code and the session as it came.
    fn refuse(&self, a: u8, h: u8) -> Answer {
        Answer {
            a,
            h,
            session: self.session,
        }
    }

    fn number(&self) -> u8 {
        self.asked.number
    }
}

/// The entries of an image, in the order of their sectors.
fn rows(image: &mut [u8]) -> impl Iterator<Item = &mut [u8]> {
    let mut places = DIRECTORY_PLACES.to_vec();
    places.sort_unstable();
    let sectors = image.chunks_mut(128).enumerate();
    let directory = sectors.filter(move |(i, _)| places.binary_search(&(128 * i)).is_ok());
    directory.flat_map(|(_, sector)| sector.chunks_mut(32))
}

/// Whether an entry is of a user and of an FCB's name.
fn is_named(row: &[u8], user: u8, fcb: &[u8]) -> bool {
    row[0] == user && (1..12).all(|i| (row[i] ^ fcb[i]) & 0x7F == 0)
}

/// ex and s2 of an entry or an FCB, if it is long enough.
fn extent(bytes: &[u8]) -> Option<(u8, u8)> {
    Some((*bytes.get(12)?, *bytes.get(14)?))
}

/// A stamp: day, hour and minute.
type Stamp = [u8; 4];

/// The 64 entries of an image of the right length.
#[derive(Clone)]
struct Rows([[u8; 32]; 64]);

impl Rows {
    fn of(image: &[u8]) -> Option<Rows> {
        let row = |entry: usize| std::array::from_fn(|i| image[Self::place(entry) + i]);
        (image.len() == IMAGE_BYTES).then(|| Rows(std::array::from_fn(row)))
    }

    fn place(entry: usize) -> usize {
        DIRECTORY_PLACES[entry / 4] + 32 * (entry % 4)
    }

    fn put(&self, image: &mut [u8]) {
        for (entry, row) in self.0.iter().enumerate() {
            image[Self::place(entry)..][..32].copy_from_slice(row);
        }
    }

    /// Takes back what is still as it was shown.
    fn take_back(&mut self, shown: &Rows, before: &Rows) {
        let [shown, before] = [shown, before].map(|rows| rows.0.as_flattened().iter());
        for ((byte, shown), before) in self.0.as_flattened_mut().iter_mut().zip(shown).zip(before) {
            if byte == shown {
                *byte = *before;
            }
        }
    }

    fn is_used(&self, entry: usize) -> bool {
        self.0[entry][0] < 16
    }

    fn is_dated(&self) -> bool {
        self.0[3][0] == 0x21
    }

    fn asks(&self, bit: u8) -> bool {
        let mut labels = self.0.iter().filter(|row| row[0] == 0x20);
        labels.any(|row| row[12] & bit != 0)
    }

    /// The entries that are used now and were not before.
    fn made_since(&self, before: &Rows) -> Vec<usize> {
        let made = |&entry: &usize| self.is_used(entry) && !before.is_used(entry);
        (0..64).filter(made).collect()
    }

    /// The entry of a user that an FCB speaks of.
    fn entry_of(&self, user: u8, fcb: &[u8]) -> Option<usize> {
        self.0
            .iter()
            .position(|row| is_named(row, user, fcb) && extent(row) == extent(fcb))
    }

    /// Where a stamp stands: create or access (0), or update (1).
    fn stamp_mut(&mut self, entry: usize, which: usize) -> &mut [u8] {
        let at = 1 + 10 * (entry % 4) + 4 * which;
        &mut self.0[entry | 3][at..at + 4]
    }

    fn stamp(&self, entry: usize, which: usize) -> Stamp {
        let at = 1 + 10 * (entry % 4) + 4 * which;
        std::array::from_fn(|i| self.0[entry | 3][at + i])
    }
}

/// Entries that are not the fourth of a record.
fn before_dates() -> impl Iterator<Item = usize> {
    (0..64).filter(|entry| entry % 4 != 3)
}

/// What an accepted call was given and left.
struct Done {
    number: u8,
    user: u8,
    now: Stamp,
    before: Rows,
    /// The FCB as it was, and as it is.
    was: Vec<u8>,
    is: Vec<u8>,
}

impl Done {
    fn moved(&self) -> bool {
        matches!(self.number, 20 | 21 | 33 | 34) && extent(&self.was) != extent(&self.is)
    }

    /// The entry that the FCB was current for.
    fn present(&self) -> Option<usize> {
        self.before.entry_of(self.user, &self.was)
    }

    /// The entry that was closed, by a 16 or a move.
    fn closed(&self) -> Option<usize> {
        self.present().filter(|_| self.number == 16 || self.moved())
    }

    /// Makes a stamp the time of the call.
    fn stamp(&self, rows: &mut Rows, entry: usize, which: usize) {
        rows.stamp_mut(entry, which).copy_from_slice(&self.now);
    }

    /// Makes a stamp what it was before the call.
    fn unstamp(&self, rows: &mut Rows, entry: usize, which: usize) {
        let was = self.before.stamp(entry, which);
        rows.stamp_mut(entry, which).copy_from_slice(&was);
    }
}

impl Lent<'_> {
    fn now(&self) -> Stamp {
        let [low, high] = self.asked.day.to_le_bytes();
        [low, high, self.asked.hour, self.asked.minute]
    }

    /// Makes the call and, where it is accepted, spoils the entries that it
    /// leaves.
    fn call_and_spoil(&mut self, spoil: fn(&Done, &mut Rows)) -> Answer {
        let accepted = self.refusal().is_none();
        let (Some(before), true) = (Rows::of(self.image), accepted) else {
            return self.call();
        };
        let was = self.fcb.to_vec();
        let answer = self.call();
        let done = Done {
            number: self.number(),
            user: self.session.user,
            now: self.now(),
            before,
            was,
            is: self.fcb.to_vec(),
        };
        if let Some(mut rows) = Rows::of(self.image) {
            spoil(&done, &mut rows);
            rows.put(self.image);
        }
        answer
    }

    /// The same on dated disks alone.
    fn call_and_spoil_dates(&mut self, spoil: fn(&Done, &mut Rows)) -> Answer {
        match Rows::of(self.image) {
            Some(rows) if rows.is_dated() => self.call_and_spoil(spoil),
            _ => self.call(),
        }
    }

    /// Makes the call on other entries, and takes back what it has not changed.
    fn call_disguised(&mut self, disguise: impl Fn(&mut Rows)) -> Answer {
        let Some(before) = Rows::of(self.image) else {
            return self.call();
        };
        let mut shown = before.clone();
        disguise(&mut shown);
        shown.put(self.image);
        let answer = self.call();
        if let Some(mut after) = Rows::of(self.image) {
            after.take_back(&shown, &before);
            after.put(self.image);
        }
        let found = usize::from(answer.session.place).checked_sub(1);
        // What a search shows is what stands there.
        if let (17 | 18, Some(entry), 0..4) = (self.number(), found, answer.a) {
            let record = Rows::place(entry / 4 * 4);
            self.buffer.copy_from_slice(&self.image[record..][..128]);
        }
        answer
    }

    /// Makes the call as if labels, or date entries, were files of the user's.
    fn call_with_files(&mut self, kind: u8) -> Answer {
        let user = self.session.user;
        self.call_disguised(|rows| {
            let entries = rows.0.iter_mut().enumerate();
            for (entry, row) in entries.filter(|(_, row)| row[0] == kind) {
                // A name that no other file has.
                *row = [0; 32];
                (row[0], row[12]) = (user, entry as u8 / 4);
                row[1..12].fill(b'$');
            }
        })
    }

    /// The same where the image is not consistent as it is.
    fn call_disguised_if_bad(&mut self, disguise: fn(&mut Rows)) -> Answer {
        match self.refusal() {
            Some(Cause::Inconsistent) => self.call_disguised(disguise),
            _ => self.call(),
        }
    }

    /// Makes the call at another time.
    fn call_at(&mut self, hour: u8, minute: u8) -> Answer {
        (self.asked.hour, self.asked.minute) = (hour, minute);
        self.call()
    }
}

fn is_bad(byte: u8) -> bool {
    byte / 16 > 9 || byte % 16 > 9
}

/// A wrong implementation: of the calls, or of what lifts or sets the write
/// protection.
#[derive(Clone, Copy)]
struct Mutant {
    call: fn(&mut Lent) -> Answer,
    lift: fn(Session) -> Session,
    protect: fn(Session) -> Session,
}

impl Mutant {
    /// One that is right.
    const NONE: Mutant = Mutant {
        call: |lent| lent.call(),
        lift,
        protect,
    };

    const fn of_calls(call: fn(&mut Lent) -> Answer) -> Mutant {
        Mutant {
            call,
            ..Mutant::NONE
        }
    }

    const fn of_lift(lift: fn(Session) -> Session) -> Mutant {
        Mutant {
            lift,
            ..Mutant::NONE
        }
    }

    const fn of_protect(protect: fn(Session) -> Session) -> Mutant {
        Mutant {
            protect,
            ..Mutant::NONE
        }
    }
}

impl Implementation for Mutant {
    fn call(
        &mut self,
        asked: Asked,
        image: &mut [u8],
        map: &mut [u16],
        fcb: &mut [u8],
        buffer: &mut [u8],
        session: Session,
    ) -> Answer {
        (self.call)(&mut Lent {
            asked,
            image,
            map,
            fcb,
            buffer,
            session,
        })
    }

    fn lift(&mut self, session: Session) -> Session {
        (self.lift)(session)
    }

    fn protect(&mut self, session: Session) -> Session {
        (self.protect)(session)
    }
}

/// Runs a wrong implementation until it is found out.
fn found_out(name: &str, mut mutant: Mutant) {
    let mut counts = Counts::default();
    let done = run(11, CALLS, &mut call, &mut mutant, &mut counts);
    let failure = done.expect_err(&format!("{name} was not found out"));
    println!("{name}: call {}", counts.calls);
    for sequence in [failure.sequence, failure.last_call] {
        let again: Sequence = sequence.to_string().parse().expect("a sequence");
        assert_eq!(again, sequence);
        let replayed = replay(&again, &mut call, &mut mutant);
        assert_eq!(replayed, Err(failure.difference.clone()), "{name}");
    }
}

/// Runs a wrong implementation beside itself: the laws have to find it out.
fn breaks_laws(name: &str, mutant: Mutant) {
    let mut counts = Counts::default();
    let (mut left, mut right) = (mutant, mutant);
    let done = run(11, CALLS, &mut left, &mut right, &mut counts);
    let failure = done.expect_err(&format!("{name} breaks no law"));
    println!(
        "{name}, alone: call {}: {}",
        counts.calls, failure.difference
    );
}

/// Finds a wrong implementation out beside the reference, and by the laws.
fn found_out_both_ways(name: &str, mutant: Mutant) {
    found_out(name, mutant);
    breaks_laws(name, mutant);
}

/// Writes tests that each find one mutant out, in one way: of the calls, or of
/// what lifts or sets the write protection.
macro_rules! mutants {
    ($found_out:ident, $of:ident; $($(#[$doc:meta])* $name:ident: $mutant:expr;)*) => {
        $(
            $(#[$doc])*
            #[test]
            fn $name() {
                $found_out(stringify!($name), Mutant::$of($mutant));
            }
        )*
    };
}

mutants! {
    found_out, of_calls;

    /// "Freeing only recorded blocks at a delete."
    delete_keeps_pending_blocks: |lent| {
        let before = lent.map.to_vec();
        let answer = lent.call();
        if lent.number() == 19 {
            for (note, before) in lent.map.iter_mut().zip(before) {
                if before >= 16 {
                    *note = before;
                }
            }
        }
        answer
    };

    /// "Closing the old extent, then refusing the write for want of a block."
    closes_before_it_refuses: |lent| {
        let cause = lent.refusal();
        let far = match lent.number() {
            21 => lent.fcb.get(32) == Some(&128),
            34 => cause == Some(Cause::NoFreeBlock34) && {
                let extent = 32 * u32::from(lent.fcb[14]) + u32::from(lent.fcb[12]);
                let fcb = &lent.fcb;
                u32::from_le_bytes([fcb[33], fcb[34], fcb[35], 0]) / 128 != extent
            },
            _ => false,
        };
        let answer = lent.call();
        if far && answer.a == 2 && answer.h == 0 {
            lent.asked.number = 16;
            lent.call();
        }
        answer
    };

    /// "Comparing names with attribute bits in."
    opens_by_eight_bits: |lent| {
        let high = lent.fcb.iter().skip(1).take(11).any(|byte| byte & 0x80 != 0);
        if lent.number() == 15 && high && lent.refusal().is_none() {
            return lent.refuse(255, 0);
        }
        lent.call()
    };

    /// "Taking blocks from the FCB on trust."
    closes_on_trust: |lent| {
        if lent.number() == 16 && lent.refusal() == Some(Cause::NotCurrent16) {
            let kept = lent.fcb.to_vec();
            lent.asked.number = 15;
            let found = lent.refusal().is_none();
            lent.asked.number = 16;
            if found && kept[14] == 0 {
                return lent.refuse(0, 0);
            }
        }
        lent.call()
    };

    place_cut_to_a_byte: |lent| {
        let session = lent.session;
        lent.session.place &= 0xFF;
        let mut answer = lent.call();
        if (answer.a, answer.h) == (255, 4) {
            answer.session = session;
        }
        answer
    };

    on_made_1_in_refusals: |lent| {
        let mut answer = lent.call();
        answer.session.on = u8::from(answer.session.on != 0);
        answer
    };

    next_without_search_clears_the_place: |lent| {
        let cause = lent.refusal();
        let mut answer = lent.call();
        if cause == Some(Cause::NoSearch18) {
            answer.session.place = 0;
        }
        answer
    };

    pattern_stored_in_seven_bits: |lent| {
        let mut answer = lent.call();
        if lent.number() == 17 && answer.h == 0 && answer.a < 4 {
            answer.session.pattern = answer.session.pattern.map(|byte| byte & 0x7F);
        }
        answer
    };

    bf_in_byte_12_is_any_extent: |lent| {
        let kept = lent.fcb.to_vec();
        if lent.number() == 17 && kept.get(12) == Some(&0xBF) {
            lent.fcb[12] = 0x3F;
        }
        let answer = lent.call();
        lent.fcb.iter_mut().zip(kept).skip(12).take(1).for_each(|(b, k)| *b = k);
        answer
    };

    bf_in_the_pattern_is_any_extent: |lent| {
        let kept = lent.session.pattern;
        if lent.number() == 18 && kept[11] == 0xBF {
            lent.session.pattern[11] = 0x3F;
        }
        let mut answer = lent.call();
        if lent.number() == 18 {
            answer.session.pattern = kept;
        }
        answer
    };

    close_forgets_f6: |lent| {
        let before = lent.fcb.get(6).copied().unwrap_or(0);
        let answer = lent.call();
        if lent.number() == 16 && answer.h == 0 && answer.a < 4 {
            lent.fcb[6] = before;
        }
        answer
    };

    open_clears_f4: |lent| {
        let answer = lent.call();
        if lent.number() == 15 && answer.h == 0 && answer.a < 4 {
            lent.fcb[4] &= 0x7F;
        }
        answer
    };

    a_move_by_20_leaves_cr_0: |lent| {
        let cr = lent.fcb.get(32).copied();
        let answer = lent.call();
        if lent.number() == 20 && (answer.a, answer.h) == (0, 0) && cr == Some(128) {
            lent.fcb[32] = 0;
        }
        answer
    };

    a_random_write_counts_up: |lent| {
        let answer = lent.call();
        if lent.number() == 34 && (answer.a, answer.h) == (0, 0) {
            lent.fcb[33] = lent.fcb[33].wrapping_add(1);
        }
        answer
    };

    make_keeps_attributes_in_the_fcb: |lent| {
        let before = lent.fcb.to_vec();
        let answer = lent.call();
        if lent.number() == 22 && answer.h == 0 && answer.a < 4 {
            lent.fcb[1..12].copy_from_slice(&before[1..12]);
        }
        answer
    };

    space_counts_pending_blocks_as_free: |lent| {
        if lent.number() == 46 && lent.refusal().is_none() {
            let answer = lent.call();
            let free = lent.map.iter().filter(|&&note| note == 0 || note >= 16).count();
            lent.buffer[..2].copy_from_slice(&(8 * free as u16).to_le_bytes());
            return answer;
        }
        lent.call()
    };

    size_in_eighteen_bits: |lent| {
        let answer = lent.call();
        if lent.number() == 35 && (answer.a, answer.h) == (0, 0) {
            lent.fcb[35] &= 3;
        }
        answer
    };

    writes_behind_the_fcb: |lent| {
        if lent.fcb.len() > 36 {
            lent.fcb[36] = 0;
        }
        lent.call()
    };

    reads_t1_in_the_fcb: |lent| {
        let t1 = lent.fcb.get(9).is_some_and(|byte| byte & 0x80 != 0);
        if lent.number() == 21 && t1 && lent.refusal().is_none() {
            return lent.refuse(255, 3);
        }
        lent.call()
    };

    log_in_wants_a_right_map: |lent| {
        if lent.number() == 13 && lent.refusal().is_none() {
            lent.asked.number = 46;
            let wrong = lent.refusal().is_some();
            lent.asked.number = 13;
            if wrong {
                return lent.refuse(255, 1);
            }
        }
        lent.call()
    };

    space_looks_at_byte_0: |lent| {
        let over = lent.fcb.first().is_some_and(|&byte| byte > 1);
        if lent.number() == 46 && over && lent.refusal().is_none() {
            return lent.refuse(255, 4);
        }
        lent.call()
    };

    rename_to_itself_is_fine: |lent| {
        if lent.refusal() == Some(Cause::Exists23) {
            let same = (0..11).all(|i| (lent.fcb[1 + i] ^ lent.fcb[17 + i]) & 0x7F == 0);
            if same {
                return lent.refuse(0, 0);
            }
        }
        lent.call()
    };

    an_extent_by_an_ex_over_31: |lent| {
        if lent.refusal() == Some(Cause::NotCurrent16) && (32..64).contains(&lent.fcb[12]) {
            let kept = lent.fcb.to_vec();
            lent.fcb[12] -= 32;
            lent.fcb[14] = lent.fcb[14].wrapping_add(1);
            let fine = lent.refusal().is_none();
            lent.fcb.copy_from_slice(&kept);
            if fine {
                return lent.refuse(0, 0);
            }
        }
        lent.call()
    };

    position_wants_a_current_fcb: |lent| {
        if lent.number() == 36 && lent.refusal().is_none() {
            lent.asked.number = 16;
            let current = lent.refusal().is_none();
            lent.asked.number = 36;
            if !current {
                return lent.refuse(255, 0);
            }
        }
        lent.call()
    };

    telling_the_user_keeps_the_search: |lent| {
        let session = lent.session;
        let mut answer = lent.call();
        if lent.number() == 32 && lent.asked.argument == 255 && answer.h == 0 {
            answer.session = session;
        }
        answer
    };

    reads_by_the_fcbs_count_only: |lent| {
        let (rc, cr) = match lent.fcb.get(..36) {
            Some(fcb) => (fcb[15], fcb[32]),
            None => (0, 0),
        };
        let here = lent.number() == 20 && cr < 128;
        if here && cr >= rc && lent.refusal().is_none() {
            return lent.refuse(1, 0);
        }
        lent.call()
    };

    /// rc over 128 counts as it is.
    sizes_by_rc_as_it_is: |lent| {
        let answer = lent.call();
        if lent.number() == 35 && (answer.a, answer.h) == (0, 0) {
            let size = u32::from_le_bytes([lent.fcb[33], lent.fcb[34], lent.fcb[35], 0]);
            let (user, fcb) = (lent.session.user, lent.fcb.to_vec());
            let ends = |row: &mut [u8]| {
                let extent = 32 * u32::from(row[14]) + u32::from(row[12]);
                let over = is_named(row, user, &fcb) && row[15] > 128;
                (over && 128 * extent + 128 == size).then(|| 128 * extent + u32::from(row[15]))
            };
            if let Some(size) = rows(lent.image).find_map(ends) {
                lent.fcb[33..].copy_from_slice(&size.to_le_bytes()[..3]);
            }
        }
        answer
    };

    /// Open stores the count in place of the byte.
    opens_with_the_count: |lent| {
        let answer = lent.call();
        if lent.number() == 15 && answer.h == 0 && answer.a < 4 {
            lent.fcb[15] = lent.fcb[15].min(128);
        }
        answer
    };

    /// "Else leaves rc": an entry's rc over 128 is not written as its count.
    closes_tidy_up_rc: |lent| {
        let answer = lent.call();
        if lent.number() == 16 && answer.h == 0 && answer.a < 4 && lent.fcb[15] >= 128 {
            for row in rows(lent.image) {
                let named = is_named(row, lent.session.user, lent.fcb);
                if named && extent(row) == extent(lent.fcb) {
                    row[15] = row[15].min(128);
                }
            }
        }
        answer
    };

    /// "The FCB's count so read", not its byte.
    closes_write_the_byte: |lent| {
        let before: Vec<u8> = rows(lent.image).map(|row| row[15]).collect();
        let answer = lent.call();
        if lent.number() == 16 && answer.h == 0 && answer.a < 4 && lent.fcb[15] > 128 {
            for (row, was) in rows(lent.image).zip(before) {
                if row[15] != was {
                    row[15] = lent.fcb[15];
                }
            }
        }
        answer
    };

    /// A move copies rc as it is.
    moves_take_the_count: |lent| {
        let was = extent(lent.fcb);
        let answer = lent.call();
        let read = matches!(lent.number(), 20 | 33) && (answer.a, answer.h) == (0, 0);
        if read && extent(lent.fcb) != was {
            lent.fcb[15] = lent.fcb[15].min(128);
        }
        answer
    };

    /// A write leaves 128 at most.
    writes_keep_the_byte: |lent| {
        let rc = lent.fcb.get(15).copied();
        let was = extent(lent.fcb);
        let answer = lent.call();
        let wrote = matches!(lent.number(), 21 | 34) && (answer.a, answer.h) == (0, 0);
        if wrote && extent(lent.fcb) == was {
            lent.fcb[15] = lent.fcb[15].max(rc.unwrap_or(0));
        }
        answer
    };

    new_name_before_read_only: |lent| {
        if lent.refusal() == Some(Cause::ReadOnly23) {
            let kept = lent.fcb.to_vec();
            lent.fcb[1..12].copy_from_slice(&kept[17..28]);
            lent.asked.number = 35;
            let exists = lent.refusal().is_none();
            lent.asked.number = 23;
            lent.fcb.copy_from_slice(&kept);
            if exists {
                return lent.refuse(255, 8);
            }
        }
        lent.call()
    };

    no_block_before_no_entry: |lent| {
        if lent.refusal() == Some(Cause::NoEmptyEntry34) && !lent.map.contains(&0) {
            return lent.refuse(2, 0);
        }
        lent.call()
    };

    last_extent_before_read_only: |lent| {
        if lent.refusal() == Some(Cause::ReadOnly21) {
            let fcb = &lent.fcb;
            if (fcb[12], fcb[14], fcb[32]) == (31, 63, 128) {
                return lent.refuse(1, 0);
            }
        }
        lent.call()
    };

    not_current_before_too_far: |lent| {
        if lent.refusal() == Some(Cause::TooFar33) {
            lent.asked.number = 16;
            let current = lent.refusal().is_none();
            lent.asked.number = 33;
            if !current {
                return lent.refuse(9, 0);
            }
        }
        lent.call()
    };

    lengths_after_the_number: |lent| {
        if lent.refusal() == Some(Cause::Unlisted) && lent.fcb.len() != 36 {
            return lent.refuse(255, 4);
        }
        lent.call()
    };

    refusals_end_searches: |lent| {
        let mut answer = lent.call();
        if (answer.a, answer.h) == (255, 9) {
            (answer.session.on, answer.session.place) = (0, 0);
        }
        answer
    };

    panics_on_full_disks: |lent| {
        assert!(lent.refusal() != Some(Cause::NoFreeBlock34), "no block");
        lent.call()
    };
}

// Labels, date entries and stamps.
mutants! {
    found_out_both_ways, of_calls;

    /// Create or access comes first, update second.
    stamps_the_other_way_round: |lent| lent.call_and_spoil_dates(|done, rows| {
        for entry in before_dates() {
            let [was, is] = [&done.before, &*rows].map(|r| [r.stamp(entry, 0), r.stamp(entry, 1)]);
            for which in [0, 1] {
                if was[which] != is[which] && was[1 - which] == is[1 - which] {
                    rows.stamp_mut(entry, which).copy_from_slice(&was[which]);
                    rows.stamp_mut(entry, 1 - which).copy_from_slice(&is[which]);
                }
            }
        }
    });

    update_by_a_close_that_changes_nothing: |lent| lent.call_and_spoil_dates(|done, rows| {
        if let (16, Some(entry), true) = (done.number, done.closed(), rows.asks(asks::UPDATE)) {
            done.stamp(rows, entry, 1);
        }
    });

    update_by_a_move_that_changes_nothing: |lent| lent.call_and_spoil_dates(|done, rows| {
        if let (true, Some(entry), true) = (done.moved(), done.closed(), rows.asks(asks::UPDATE)) {
            done.stamp(rows, entry, 1);
        }
    });

    update_for_blocks_alone: |lent| lent.call_and_spoil_dates(|done, rows| {
        if let Some(entry) = done.closed() {
            if done.before.0[entry][16..] == rows.0[entry][16..] {
                done.unstamp(rows, entry, 1);
            }
        }
    });

    update_for_a_larger_count_alone: |lent| lent.call_and_spoil_dates(|done, rows| {
        if let Some(entry) = done.closed() {
            if done.before.0[entry][15] == rows.0[entry][15] {
                done.unstamp(rows, entry, 1);
            }
        }
    });

    a_move_stamps_no_update: |lent| lent.call_and_spoil_dates(|done, rows| {
        if let (true, Some(entry)) = (done.moved(), done.closed()) {
            done.unstamp(rows, entry, 1);
        }
    });

    an_entry_made_by_a_move_keeps_its_stamps: |lent| lent.call_and_spoil_dates(|done, rows| {
        if done.moved() {
            for entry in rows.made_since(&done.before) {
                for which in [0, 1] {
                    done.unstamp(rows, entry, which);
                }
            }
        }
    });

    an_entry_made_by_a_move_is_created: |lent| lent.call_and_spoil_dates(|done, rows| {
        if done.moved() && rows.asks(asks::CREATE) {
            for entry in rows.made_since(&done.before) {
                done.stamp(rows, entry, 0);
            }
        }
    });

    make_keeps_the_update_stamp: |lent| lent.call_and_spoil_dates(|done, rows| {
        if done.number == 22 {
            for entry in rows.made_since(&done.before) {
                done.unstamp(rows, entry, 1);
            }
        }
    });

    make_stamps_update_too: |lent| lent.call_and_spoil_dates(|done, rows| {
        if done.number == 22 && rows.asks(asks::UPDATE) {
            for entry in rows.made_since(&done.before) {
                done.stamp(rows, entry, 1);
            }
        }
    });

    zeros_only_where_create_is_asked_for: |lent| lent.call_and_spoil_dates(|done, rows| {
        if done.number == 22 && !rows.asks(asks::CREATE) {
            for entry in rows.made_since(&done.before) {
                done.unstamp(rows, entry, 0);
            }
        }
    });

    mode_and_reserved_bytes_start_at_zero: |lent| lent.call_and_spoil_dates(|done, rows| {
        if done.number == 22 {
            for entry in rows.made_since(&done.before) {
                let at = 9 + 10 * (entry % 4);
                rows.0[entry | 3][at..at + 2].fill(0);
            }
        }
    });

    access_by_a_move: |lent| lent.call_and_spoil_dates(|done, rows| {
        let target = rows.entry_of(done.user, &done.is);
        if let (true, Some(entry), true) = (done.moved(), target, rows.asks(asks::ACCESS)) {
            done.stamp(rows, entry, 0);
        }
    });

    access_by_a_search: |lent| lent.call_and_spoil_dates(|done, rows| {
        let found = rows.entry_of(done.user, &done.is);
        if let (17, Some(entry), true) = (done.number, found, rows.asks(asks::ACCESS)) {
            done.stamp(rows, entry, 0);
        }
    });

    access_whatever_the_label_asks: |lent| lent.call_and_spoil_dates(|done, rows| {
        if let (15, Some(entry)) = (done.number, rows.entry_of(done.user, &done.is)) {
            done.stamp(rows, entry, 0);
        }
    });

    update_whatever_the_label_asks: |lent| lent.call_and_spoil_dates(|done, rows| {
        if let Some(entry) = done.closed() {
            if done.before.0[entry] != rows.0[entry] {
                done.stamp(rows, entry, 1);
            }
        }
    });

    create_whatever_the_label_asks: |lent| lent.call_and_spoil_dates(|done, rows| {
        if done.number == 22 {
            for entry in rows.made_since(&done.before) {
                done.stamp(rows, entry, 0);
            }
        }
    });

    /// "A refusal stamps nothing."
    access_by_a_refused_open: |lent| {
        let refused = lent.refusal() == Some(Cause::NothingMatches15);
        let now = lent.now();
        let answer = lent.call();
        let rows = Rows::of(lent.image).filter(|rows| refused && rows.is_dated());
        if let Some(mut rows) = rows.filter(|rows| rows.asks(asks::ACCESS)) {
            let named = |row: &[u8; 32]| is_named(row, lent.session.user, lent.fcb);
            if let Some(entry) = rows.0.iter().position(named) {
                rows.stamp_mut(entry, 0).copy_from_slice(&now);
                rows.put(lent.image);
            }
        }
        answer
    };

    update_by_a_refused_write: |lent| {
        let refused = lent.refusal() == Some(Cause::NoFreeBlock21);
        let (now, user) = (lent.now(), lent.session.user);
        let answer = lent.call();
        let rows = Rows::of(lent.image).filter(|rows| refused && rows.is_dated());
        if let Some(mut rows) = rows.filter(|rows| rows.asks(asks::UPDATE)) {
            if let Some(entry) = rows.entry_of(user, lent.fcb) {
                rows.stamp_mut(entry, 1).copy_from_slice(&now);
                rows.put(lent.image);
            }
        }
        answer
    };

    rename_stamps_update: |lent| lent.call_and_spoil_dates(|done, rows| {
        if done.number == 23 && rows.asks(asks::UPDATE) {
            for entry in before_dates() {
                if done.before.0[entry] != rows.0[entry] {
                    done.stamp(rows, entry, 1);
                }
            }
        }
    });

    delete_clears_stamps: |lent| lent.call_and_spoil_dates(|done, rows| {
        if done.number == 19 {
            for entry in before_dates() {
                if done.before.0[entry] != rows.0[entry] {
                    rows.stamp_mut(entry, 0).fill(0);
                }
            }
        }
    });

    /// "A disk without date entries is never stamped, whatever its label asks."
    undated_disks_are_stamped: |lent| lent.call_and_spoil(|done, rows| {
        let opened = rows.entry_of(done.user, &done.is).filter(|entry| entry % 4 != 3);
        if let (15, Some(entry), false) = (done.number, opened, rows.is_dated()) {
            if rows.asks(asks::ACCESS) {
                done.stamp(rows, entry, 0);
            }
        }
    });

    create_and_access_bits_exchanged: |lent| lent.call_disguised(|rows| {
        for row in rows.0.iter_mut().filter(|row| row[0] == 0x20) {
            let kept = row[12] & !(asks::CREATE | asks::ACCESS);
            let create = (row[12] & asks::ACCESS) >> 2;
            let access = (row[12] & asks::CREATE) << 2;
            row[12] = kept | create | access;
        }
    });

    create_and_access_both_taken: |lent| lent.call_disguised_if_bad(|rows| {
        const BOTH: u8 = asks::CREATE | asks::ACCESS;
        for row in rows.0.iter_mut().filter(|row| row[0] == 0x20) {
            if row[12] & BOTH == BOTH {
                row[12] &= !asks::ACCESS;
            }
        }
    });

    only_extent_zero_is_stamped: |lent| lent.call_and_spoil_dates(|done, rows| {
        for entry in before_dates() {
            if extent(&rows.0[entry]) != Some((0, 0)) {
                for which in [0, 1] {
                    done.unstamp(rows, entry, which);
                }
            }
        }
    });

    days_high_byte_first: |lent| lent.call_and_spoil_dates(|done, rows| {
        for entry in before_dates() {
            for which in [0, 1] {
                if rows.stamp(entry, which) != done.before.stamp(entry, which) {
                    rows.stamp_mut(entry, which).swap(0, 1);
                }
            }
        }
    });

    hour_and_minute_exchanged: |lent| {
        let (hour, minute) = (lent.asked.hour, lent.asked.minute);
        match lent.refusal() {
            None => lent.call_at(minute, hour),
            _ => lent.call(),
        }
    };

    /// "Time going back or repeating is stored as given."
    stamps_never_go_back: |lent| lent.call_and_spoil_dates(|done, rows| {
        let day = |stamp: Stamp| u16::from_le_bytes([stamp[0], stamp[1]]);
        for entry in before_dates() {
            let (was, is) = (done.before.stamp(entry, 0), rows.stamp(entry, 0));
            if is == done.now && day(is) < day(was) {
                rows.stamp_mut(entry, 0).copy_from_slice(&was);
            }
        }
    });

    the_label_is_stamped_too: |lent| lent.call_and_spoil_dates(|done, rows| {
        if done.number == 22 && rows.asks(asks::UPDATE) {
            for row in rows.0.iter_mut().filter(|row| row[0] == 0x20) {
                row[28..].copy_from_slice(&done.now);
            }
        }
    });

    bcd_of_the_hours_only: |lent| lent.call_disguised_if_bad(|rows| {
        for row in rows.0.iter_mut().filter(|row| row[0] == 0x21) {
            for at in [4, 8, 14, 18, 24, 28] {
                if is_bad(row[at]) {
                    row[at] = 0;
                }
            }
        }
    });

    bcd_of_the_low_digit_only: |lent| lent.call_disguised_if_bad(|rows| {
        for row in rows.0.iter_mut().filter(|row| row[0] == 0x21) {
            for at in [3, 4, 7, 8, 13, 14, 17, 18, 23, 24, 27, 28] {
                if row[at] % 16 <= 9 {
                    row[at] %= 16;
                }
            }
        }
    });

    bcd_of_labels_not_asked: |lent| lent.call_disguised_if_bad(|rows| {
        for row in rows.0.iter_mut().filter(|row| row[0] == 0x20) {
            row[24..].fill(0);
        }
    });

    /// "Beside empty entries too."
    bcd_beside_used_entries_only: |lent| lent.call_disguised_if_bad(|rows| {
        for entry in before_dates() {
            if rows.0[entry | 3][0] == 0x21 && !rows.is_used(entry) {
                rows.stamp_mut(entry, 0).fill(0);
                rows.stamp_mut(entry, 1).fill(0);
            }
        }
    });

    /// Three empty entries are passed over with the date entry behind them.
    dates_of_three_empty_entries_not_looked_at: |lent| lent.call_disguised_if_bad(|rows| {
        for record in rows.0.as_chunks_mut::<4>().0 {
            let [first, second, third, dates] = record;
            if [first, second, third].iter().all(|row| row[0] == 0xE5) && dates[0] == 0x21 {
                dates[1..].fill(0);
            }
        }
    });

    a_second_label_taken: |lent| lent.call_disguised_if_bad(|rows| {
        for row in rows.0.iter_mut().filter(|row| row[0] == 0x20).skip(1) {
            row[0] = 0xE5;
        }
    });

    dates_elsewhere_taken: |lent| lent.call_disguised_if_bad(|rows| {
        for entry in before_dates() {
            if rows.0[entry][0] == 0x21 {
                rows.0[entry][0] = 0xE5;
            }
        }
    });

    a_missing_date_entry_taken: |lent| lent.call_disguised_if_bad(|rows| {
        if rows.0.iter().filter(|row| row[0] == 0x21).count() == 15 {
            for entry in (3..64).step_by(4) {
                if rows.0[entry][0] == 0xE5 {
                    rows.0[entry] = [0; 32];
                    rows.0[entry][0] = 0x21;
                }
            }
        }
    });

    a_lone_date_entry_taken: |lent| lent.call_disguised_if_bad(|rows| {
        if rows.0.iter().filter(|row| row[0] == 0x21).count() == 1 {
            for row in rows.0.iter_mut().filter(|row| row[0] == 0x21) {
                row[0] = 0xE5;
            }
        }
    });

    /// Neither kind lists a block.
    labels_list_blocks: |lent| {
        let lists = |row: &&[u8; 32]| row[0] == 0x20 && row[16..24].contains(&1);
        let listed = Rows::of(lent.image).is_some_and(|rows| rows.0.iter().any(|r| lists(&r)));
        if listed && lent.refusal().is_none() {
            return lent.refuse(255, 1);
        }
        lent.call()
    };

    labels_are_empty_entries: |lent| {
        match lent.number() {
            22 if lent.refusal().is_none() => lent.call_disguised(|rows| {
                for row in rows.0.iter_mut().filter(|row| row[0] == 0x20) {
                    row[0] = 0xE5;
                }
            }),
            _ => lent.call(),
        }
    };

    /// Where no entry is empty.
    date_entries_are_empty_entries: |lent| match lent.refusal() {
        Some(Cause::NoEmptyEntry22) => lent.call_disguised(|rows| {
            for row in rows.0.iter_mut().filter(|row| row[0] == 0x21) {
                row[0] = 0xE5;
            }
        }),
        _ => lent.call(),
    };

    labels_are_found: |lent| match (lent.number(), lent.refusal()) {
        (17 | 18, None | Some(Cause::NothingMatches17 | Cause::NoMore18)) => {
            lent.call_with_files(0x20)
        }
        _ => lent.call(),
    };

    date_entries_are_found: |lent| match (lent.number(), lent.refusal()) {
        (17 | 18, None | Some(Cause::NothingMatches17 | Cause::NoMore18)) => {
            lent.call_with_files(0x21)
        }
        _ => lent.call(),
    };

    labels_are_deleted: |lent| match (lent.number(), lent.refusal()) {
        (19, None | Some(Cause::NothingMatches19)) => lent.call_with_files(0x20),
        _ => lent.call(),
    };

    /// Neither kind holds a block that is pending.
    blocks_pending_for_labels_taken: |lent| {
        let aside = Rows::of(lent.image).filter(|_| lent.refusal() == Some(Cause::MapWrong));
        let Some(rows) = aside else {
            return lent.call();
        };
        let is_aside = |note: u16| {
            let entry = usize::from(note).wrapping_sub(16) / 16;
            rows.0.get(entry).is_some_and(|row| matches!(row[0], 0x20 | 0x21))
        };
        let kept = lent.map.to_vec();
        lent.map.iter_mut().filter(|note| is_aside(**note)).for_each(|note| *note = 0);
        let answer = lent.call();
        for (note, was) in lent.map.iter_mut().zip(kept) {
            if *note == 0 && is_aside(was) {
                *note = was;
            }
        }
        answer
    };

    bcd_of_the_times_hour_only: |lent| match lent.refusal() {
        Some(Cause::TimeMinute) => lent.call_at(0, 0),
        _ => lent.call(),
    };

    bcd_of_the_times_minute_only: |lent| match lent.refusal() {
        Some(Cause::TimeHour) if !is_bad(lent.asked.minute) => lent.call_at(0, 0),
        _ => lent.call(),
    };

    /// "Bad BCD in the time handed in is 255, 4", also in calls that stamp
    /// nothing.
    times_of_calls_that_stamp_nothing_not_asked: |lent| match lent.refusal() {
        Some(Cause::TimeHour | Cause::TimeMinute) if lent.number() == 46 => lent.call_at(0, 0),
        _ => lent.call(),
    };

    hours_over_23_refused: |lent| {
        let accepted = lent.refusal().is_none();
        if accepted && lent.asked.hour > 0x23 {
            return lent.refuse(255, 4);
        }
        lent.call()
    };

    bad_disks_before_bad_times: |lent| match lent.refusal() {
        Some(Cause::TimeHour | Cause::TimeMinute) => {
            let (hour, minute) = (lent.asked.hour, lent.asked.minute);
            (lent.asked.hour, lent.asked.minute) = (0, 0);
            let bad = lent.refusal() == Some(Cause::Inconsistent);
            (lent.asked.hour, lent.asked.minute) = (hour, minute);
            if bad { lent.refuse(255, 1) } else { lent.call() }
        }
        _ => lent.call(),
    };
}

impl Lent<'_> {
    fn is_protected(&self) -> bool {
        self.session.lifted == 0
    }

    /// Why a lifted session would refuse the call.
    fn refusal_lifted(&self) -> Option<Cause> {
        let session = lift(self.session);
        refusal(
            self.asked,
            self.image,
            self.map,
            self.fcb,
            self.buffer,
            session,
        )
    }

    /// Makes the call as on a session with another byte for its protection, and
    /// hands the session's own back.
    fn call_lifted(&mut self, byte: u8) -> Answer {
        let kept = std::mem::replace(&mut self.session.lifted, byte);
        let mut answer = self.call();
        (answer.session.lifted, self.session.lifted) = (kept, kept);
        answer
    }

    /// Makes one of the calls as if the session were lifted.
    fn call_unprotected(&mut self, number: u8) -> Answer {
        match self.number() == number && self.is_protected() {
            true => self.call_lifted(1),
            false => self.call(),
        }
    }

    /// Refuses a call that is accepted on a protected session, where something
    /// else is so too.
    fn refuse_protected(&mut self, which: fn(&Lent) -> bool) -> Answer {
        match self.is_protected() && self.refusal().is_none() && which(self) {
            true => self.refuse(255, 2),
            false => self.call(),
        }
    }

    /// Whether a read goes to another extent than the FCB's.
    fn read_moves(&self) -> bool {
        let fcb = &self.fcb;
        let record = || u32::from_le_bytes([fcb[33], fcb[34], fcb[35], 0]);
        match self.number() {
            20 => fcb[32] == 128,
            33 => record() / 128 != 32 * u32::from(fcb[14]) + u32::from(fcb[12]),
            _ => false,
        }
    }

    /// The entry of the FCB.
    fn row(&self) -> Option<[u8; 32]> {
        let rows = Rows::of(self.image)?;
        let entry = rows.entry_of(self.session.user, self.fcb)?;
        Some(rows.0[entry])
    }

    /// Whether this is a read on a protected session that goes to another extent
    /// and would change the entry that it leaves, if nothing else refused it.
    fn read_would_change(&self) -> bool {
        let changes = |row: [u8; 32]| {
            let mut slots = row[16..].iter().zip(&self.fcb[16..32]);
            self.fcb[15].min(128) > row[15].min(128) || slots.any(|(slot, block)| slot != block)
        };
        self.is_protected() && self.read_moves() && self.row().is_some_and(changes)
    }

    /// Makes a read that is refused for its move as if a part of what the move
    /// would change were not asked for, which is done as it would be lifted.
    fn call_if_same(&mut self, same: fn(&[u8; 32], &[u8]) -> bool) -> Answer {
        let refused = matches!(
            self.refusal(),
            Some(Cause::Protected20 | Cause::Protected33)
        );
        match self.row() {
            Some(row) if refused && same(&row, self.fcb) => self.call_lifted(1),
            _ => self.call(),
        }
    }
}

// Write protection.
mutants! {
    found_out_both_ways, of_calls;

    /// "This is tested right after 255, 1."
    protected_before_bad_disks: |lent| {
        let bad = matches!(lent.refusal(), Some(Cause::Inconsistent | Cause::MapWrong));
        let writes = matches!(lent.number(), 16 | 19 | 21 | 22 | 23 | 34);
        match bad && writes && lent.is_protected() {
            true => lent.refuse(255, 2),
            false => lent.call(),
        }
    };

    protected_before_bad_parameters: |lent| match lent.refusal() {
        Some(Cause::FcbDrive) if lent.number() == 22 && lent.is_protected() => lent.refuse(255, 2),
        _ => lent.call(),
    };

    protected_after_every_other_row: |lent| {
        let refused = lent.refusal().map(|cause| cause.code());
        match (refused, lent.refusal_lifted()) {
            (Some((255, 2)), Some(_)) => lent.call_lifted(1),
            _ => lent.call(),
        }
    };

    protected_after_bad_names: |lent| {
        match (lent.refusal(), lent.refusal_lifted()) {
            (Some(Cause::Protected22), Some(Cause::BadName22)) => lent.refuse(255, 9),
            _ => lent.call(),
        }
    };

    protected_after_stale_fcbs: |lent| {
        match (lent.refusal(), lent.refusal_lifted()) {
            (Some(Cause::Protected16), Some(Cause::NotCurrent16)) => lent.refuse(255, 0),
            (Some(Cause::Protected21), Some(Cause::NotCurrent21)) => lent.refuse(9, 0),
            _ => lent.call(),
        }
    };

    protected_log_in_refused: |lent| lent.refuse_protected(|lent| lent.number() == 13);

    protected_free_blocks_refused: |lent| lent.refuse_protected(|lent| lent.number() == 98);

    protected_open_refused: |lent| lent.refuse_protected(|lent| lent.number() == 15);

    /// Where it would stamp.
    protected_open_refused_where_it_stamps: |lent| lent.refuse_protected(|lent| {
        let rows = Rows::of(lent.image);
        let stamps = rows.is_some_and(|rows| rows.is_dated() && rows.asks(asks::ACCESS));
        lent.number() == 15 && stamps
    });

    protected_user_refused: |lent| lent.refuse_protected(|lent| {
        lent.number() == 32 && lent.asked.argument != 255
    });

    protected_reads_that_stay_refused: |lent| lent.refuse_protected(|lent| {
        matches!(lent.number(), 20 | 33) && !lent.read_moves()
    });

    protected_reads_that_move_and_change_nothing_refused: |lent| {
        lent.refuse_protected(|lent| matches!(lent.number(), 20 | 33) && lent.read_moves())
    };

    protected_reads_that_move_allowed: |lent| match lent.refusal() {
        Some(Cause::Protected20 | Cause::Protected33) => lent.call_lifted(1),
        _ => lent.call(),
    };

    /// The move is made, and its close left out.
    protected_reads_move_without_a_close: |lent| {
        let Some(Cause::Protected20 | Cause::Protected33) = lent.refusal() else {
            return lent.call();
        };
        let (image, map) = (lent.image.to_vec(), lent.map.to_vec());
        let answer = lent.call_lifted(1);
        lent.image.copy_from_slice(&image);
        lent.map.copy_from_slice(&map);
        answer
    };

    /// A later end alone is a change too.
    protected_reads_by_blocks_alone: |lent| lent.call_if_same(|row, fcb| {
        row[16..].iter().zip(&fcb[16..32]).all(|(&slot, &block)| slot == block)
    });

    /// A block alone is a change too.
    protected_reads_by_counts_alone: |lent| lent.call_if_same(|row, fcb| {
        fcb[15].min(128) <= row[15].min(128)
    });

    /// rc over 128 is no later end than 128.
    protected_reads_by_rc_as_it_is: |lent| lent.refuse_protected(|lent| {
        lent.read_moves() && lent.row().is_some_and(|row| lent.fcb[15] > row[15])
    });

    /// "A read that would else succeed": the record may not be there.
    protected_reads_before_their_later_rows: |lent| {
        let cause = lent.refusal();
        let later = matches!(
            cause,
            Some(
                Cause::NoExtent20
                    | Cause::LastExtent20
                    | Cause::PastCount20
                    | Cause::NoBlock20
                    | Cause::NoExtent33
                    | Cause::PastCount33
                    | Cause::NoBlock33
            )
        );
        match later && lent.read_would_change() {
            true => lent.refuse(255, 2),
            false => lent.call(),
        }
    };

    /// The same where the extent is looked for, and the record is not.
    protected_reads_before_the_record_is_looked_for: |lent| {
        match lent.refusal() {
            Some(Cause::NoBlock20 | Cause::NoBlock33 | Cause::PastCount20 | Cause::PastCount33)
                if lent.read_would_change() =>
            {
                lent.refuse(255, 2)
            }
            _ => lent.call(),
        }
    };

    protected_opens_stamp: |lent| lent.call_unprotected(15);

    close_left_out: |lent| lent.call_unprotected(16);
    delete_left_out: |lent| lent.call_unprotected(19);
    sequential_write_left_out: |lent| lent.call_unprotected(21);
    make_left_out: |lent| lent.call_unprotected(22);
    rename_left_out: |lent| lent.call_unprotected(23);
    random_write_left_out: |lent| lent.call_unprotected(34);

    /// A close that changes nothing is refused as well.
    closes_that_change_nothing_allowed: |lent| {
        let (image, map) = (lent.image.to_vec(), lent.map.to_vec());
        let protected = lent.refusal() == Some(Cause::Protected16);
        if !protected || lent.refusal_lifted().is_some() {
            return lent.call();
        }
        let fcb = lent.fcb.to_vec();
        let answer = lent.call_lifted(1);
        if image == lent.image && map == lent.map {
            return answer;
        }
        lent.image.copy_from_slice(&image);
        lent.map.copy_from_slice(&map);
        lent.fcb.copy_from_slice(&fcb);
        lent.refuse(255, 2)
    };

    /// A write into a record that has its block changes no entry.
    writes_that_take_no_block_allowed: |lent| {
        let refused = lent.refusal() == Some(Cause::Protected34);
        if !refused || lent.refusal_lifted().is_some() {
            return lent.call();
        }
        let (image, map, fcb) = (lent.image.to_vec(), lent.map.to_vec(), lent.fcb.to_vec());
        let answer = lent.call_lifted(1);
        if map == lent.map {
            return answer;
        }
        lent.image.copy_from_slice(&image);
        lent.map.copy_from_slice(&map);
        lent.fcb.copy_from_slice(&fcb);
        lent.refuse(255, 2)
    };

    accepted_calls_lift: |lent| {
        let accepted = lent.refusal().is_none();
        let mut answer = lent.call();
        if accepted && lent.number() == 15 {
            answer.session.lifted = 1;
        }
        answer
    };

    log_in_protects: |lent| {
        let accepted = lent.refusal().is_none();
        let mut answer = lent.call();
        if accepted && lent.number() == 13 {
            answer.session.lifted = 0;
        }
        answer
    };

    setting_the_user_protects: |lent| {
        let accepted = lent.refusal().is_none();
        let mut answer = lent.call();
        if accepted && lent.number() == 32 && lent.asked.argument != 255 {
            answer.session.lifted = 0;
        }
        answer
    };

    accepted_calls_make_the_byte_1: |lent| {
        let accepted = lent.refusal().is_none();
        let mut answer = lent.call();
        if accepted {
            answer.session.lifted = answer.session.lifted.min(1);
        }
        answer
    };

    searches_make_the_byte_1: |lent| {
        let accepted = lent.refusal().is_none();
        let mut answer = lent.call();
        if accepted && matches!(lent.number(), 17 | 18) {
            answer.session.lifted = answer.session.lifted.min(1);
        }
        answer
    };

    refusals_make_the_byte_1: |lent| {
        let refused = lent.refusal().is_some();
        let mut answer = lent.call();
        if refused {
            answer.session.lifted = answer.session.lifted.min(1);
        }
        answer
    };

    /// Once refused, the next try gets through.
    refusals_lift: |lent| {
        let mut answer = lent.call();
        if (answer.a, answer.h) == (255, 2) {
            answer.session.lifted = 1;
        }
        answer
    };

    the_ends_of_searches_protect: |lent| {
        let ended = matches!(lent.refusal(), Some(Cause::NothingMatches17 | Cause::NoMore18));
        let mut answer = lent.call();
        if ended {
            answer.session.lifted = 0;
        }
        answer
    };

    only_1_counts_as_lifted: |lent| {
        let byte = u8::from(lent.session.lifted == 1);
        lent.call_lifted(byte)
    };

    only_odd_bytes_count_as_lifted: |lent| {
        let byte = lent.session.lifted & 1;
        lent.call_lifted(byte)
    };

    only_255_is_not_lifted: |lent| match lent.session.lifted {
        255 => lent.call_lifted(0),
        _ => lent.call(),
    };

    nothing_is_ever_protected: |lent| lent.call_lifted(1);
}

mutants! {
    found_out_both_ways, of_lift;

    lift_ends_the_search: |session| Session { place: 0, on: 0, ..lift(session) };
    lift_makes_the_search_1: |session| Session { on: session.on.min(1), ..lift(session) };
    lift_clears_the_place: |session| Session { place: 0, ..lift(session) };
    lift_clears_the_pattern: |session| Session { pattern: [0; 12], ..lift(session) };
    lift_sets_user_0: |session| Session { user: 0, ..lift(session) };
    lift_stores_255: |session| Session { lifted: 255, ..session };
    lift_keeps_a_byte_that_is_lifted: |session| Session {
        lifted: session.lifted.max(1),
        ..session
    };
    lift_changes_to_and_fro: |session| Session {
        lifted: u8::from(session.lifted == 0),
        ..session
    };
    lift_of_a_wrong_session_does_nothing: |session| match session.user > 15 {
        true => session,
        false => lift(session),
    };
}

mutants! {
    found_out_both_ways, of_protect;

    protect_ends_the_search: |session| Session { place: 0, on: 0, ..protect(session) };
    protect_keeps_a_byte: |session| match session.lifted {
        0 | 1 => protect(session),
        _ => session,
    };
    protect_takes_1_away: |session| Session {
        lifted: session.lifted.saturating_sub(1),
        ..session
    };
    protect_of_a_wrong_session_does_nothing: |session| match session.place > 64 {
        true => session,
        false => protect(session),
    };
    protect_sets_user_0: |session| Session { user: 0, ..protect(session) };
}
