//! Everything a caller owns: the four kinds of buffers, each between guards,
//! and the session.

use crate::faults;
use crate::random::Random;
use crate::sequence::{Ask, Lengths, Step, Time};
use reference::diskette::{self, BLOCKS, DIRECTORY_PLACES, IMAGE_BYTES, RECORD_BYTES};
use reference::{Answer, Asked, Session, FCB_BYTES};

/// Byte 0 of an empty entry.
pub const EMPTY: u8 = 0xE5;

/// Byte 0 of a label.
pub const LABEL: u8 = 0x20;

/// Byte 0 of a date entry.
pub const DATES: u8 = 0x21;

/// Bits of a label's byte 12: the stamps that it asks for.
pub mod asks {
    /// When a file was made.
    pub const CREATE: u8 = 0x10;
    /// When an entry was changed.
    pub const UPDATE: u8 = 0x20;
    /// When a file was opened.
    pub const ACCESS: u8 = 0x40;
}

/// FCBs a world holds.
pub const FCBS: usize = 8;

/// How much longer than right a buffer can be lent.
pub const MOST_OVER: usize = 32;

/// Cells before and behind each buffer that nobody may write to.
const GUARD: usize = 64;

/// The lengths every call is due.
pub const RIGHT_LENGTHS: Lengths = Lengths {
    image: IMAGE_BYTES,
    map: BLOCKS,
    fcb: FCB_BYTES,
    buffer: RECORD_BYTES,
};

/// Something that makes calls, and lifts and sets the write protection. Every
/// function with the signature of [`reference::call`] is one, which lifts and
/// sets as the reference does.
pub trait Implementation {
    /// Makes one call.
    fn call(
        &mut self,
        asked: Asked,
        image: &mut [u8],
        map: &mut [u16],
        fcb: &mut [u8],
        buffer: &mut [u8],
        session: Session,
    ) -> Answer;

    /// Lifts the write protection of a session.
    fn lift(&mut self, session: Session) -> Session;

    /// Sets the write protection of a session.
    fn protect(&mut self, session: Session) -> Session;
}

impl<F> Implementation for F
where
    F: FnMut(Asked, &mut [u8], &mut [u16], &mut [u8], &mut [u8], Session) -> Answer,
{
    fn call(
        &mut self,
        asked: Asked,
        image: &mut [u8],
        map: &mut [u16],
        fcb: &mut [u8],
        buffer: &mut [u8],
        session: Session,
    ) -> Answer {
        self(asked, image, map, fcb, buffer, session)
    }

    fn lift(&mut self, session: Session) -> Session {
        reference::lift(session)
    }

    fn protect(&mut self, session: Session) -> Session {
        reference::protect(session)
    }
}

/// A buffer between two guards.
#[derive(Clone, PartialEq, Eq)]
pub struct Guarded<T> {
    cells: Vec<T>,
    right: usize,
}

impl<T: Copy + PartialEq + From<u8>> Guarded<T> {
    fn new(right: usize) -> Self {
        let mut cells: Vec<T> = (0..right + 2 * GUARD).map(Self::guard).collect();
        cells[GUARD..GUARD + right].fill(T::from(0));
        Self { cells, right }
    }

    /// What stands in a guard's cell.
    fn guard(at: usize) -> T {
        T::from((at * 37 + 11) as u8)
    }

    /// The buffer at its right length.
    pub fn cells(&self) -> &[T] {
        &self.cells[GUARD..GUARD + self.right]
    }

    /// The same, to be changed by the caller.
    pub fn cells_mut(&mut self) -> &mut [T] {
        &mut self.cells[GUARD..GUARD + self.right]
    }

    /// The buffer as it is lent, at any length up to [`MOST_OVER`] too many.
    pub fn lent(&self, length: usize) -> &[T] {
        &self.cells[GUARD..GUARD + length.min(self.right + MOST_OVER)]
    }

    /// The same, to be changed.
    pub(crate) fn lent_mut(&mut self, length: usize) -> &mut [T] {
        &mut self.cells[GUARD..GUARD + length.min(self.right + MOST_OVER)]
    }

    /// Whether nothing was written around the buffer.
    pub fn guards_stand(&self) -> bool {
        let around = (0..GUARD).chain(GUARD + self.right..self.cells.len());
        around
            .into_iter()
            .all(|at| self.cells[at] == Self::guard(at))
    }
}

/// Everything a caller owns.
#[derive(Clone, PartialEq, Eq)]
pub struct World {
    seed: u64,
    /// The image.
    pub image: Guarded<u8>,
    /// The map.
    pub map: Guarded<u16>,
    /// The FCBs, of which each call is lent one.
    pub fcbs: [Guarded<u8>; FCBS],
    /// The transfer buffer.
    pub buffer: Guarded<u8>,
    /// The session.
    pub session: Session,
    /// The time that calls are handed.
    pub time: Time,
}

impl World {
    /// An empty disk whose other bytes come from a seed, with its fresh map,
    /// and all else 0.
    pub fn new(seed: u64) -> Self {
        let mut world = Self {
            seed,
            image: Guarded::new(IMAGE_BYTES),
            map: Guarded::new(BLOCKS),
            fcbs: std::array::from_fn(|_| Guarded::new(FCB_BYTES)),
            buffer: Guarded::new(RECORD_BYTES),
            session: Session::default(),
            time: Time::default(),
        };
        let mut random = Random::new(seed);
        for eight in world.image.cells_mut().as_chunks_mut().0 {
            *eight = random.number().to_le_bytes();
        }
        for place in DIRECTORY_PLACES {
            world.image.cells_mut()[place..][..RECORD_BYTES].fill(0xE5);
        }
        world.map.cells_mut()[..2].fill(1);
        world
    }

    /// The seed the world started from.
    pub fn seed(&self) -> u64 {
        self.seed
    }

    /// Where entry `entry` stands in the image.
    pub fn entry_place(entry: usize) -> usize {
        DIRECTORY_PLACES[entry / 4] + 32 * (entry % 4)
    }

    /// Entry `entry`.
    pub fn entry(&self, entry: usize) -> &[u8] {
        &self.image.cells()[Self::entry_place(entry)..][..32]
    }

    /// Whether an entry is a file's: neither empty nor a label or a date
    /// entry.
    pub fn is_used(&self, entry: usize) -> bool {
        ![EMPTY, LABEL, DATES].contains(&self.entry(entry)[0])
    }

    /// The numbers of the used entries.
    pub fn used(&self) -> impl Iterator<Item = usize> + '_ {
        (0..64).filter(|&entry| self.is_used(entry))
    }

    /// The numbers of the entries that begin with a byte.
    pub fn of_kind(&self, byte: u8) -> impl Iterator<Item = usize> + '_ {
        (0..64).filter(move |&entry| self.entry(entry)[0] == byte)
    }

    /// Whether the disk has date entries.
    pub fn is_dated(&self) -> bool {
        self.of_kind(DATES).next().is_some()
    }

    /// Whether the label asks for a stamp, which is a bit of its byte 12.
    pub fn asks(&self, stamp: u8) -> bool {
        let mut labels = self.of_kind(LABEL);
        labels.any(|entry| self.entry(entry)[12] & stamp != 0)
    }

    /// The two stamps beside an entry of a disk with date entries: create or
    /// access, and update.
    pub fn stamps(&self, entry: usize) -> [[u8; 4]; 2] {
        let dates = self.entry(entry / 4 * 4 + 3);
        [1, 5].map(|first| {
            let at = first + 10 * (entry % 4);
            std::array::from_fn(|i| dates[at + i])
        })
    }

    /// The entry that an FCB speaks of, if the session's user has it.
    pub fn entry_of(&self, fcb: &[u8]) -> Option<usize> {
        let alike = |row: &[u8]| {
            let name =
                |bytes: &[u8]| -> Vec<u8> { bytes[1..12].iter().map(|b| b & 0x7F).collect() };
            row[0] == self.session.user
                && name(row) == name(fcb)
                && (row[12], row[14]) == (fcb[12], fcb[14])
        };
        self.used().find(|&entry| alike(self.entry(entry)))
    }

    /// FCB `which`.
    pub fn fcb(&self, which: usize) -> [u8; FCB_BYTES] {
        std::array::from_fn(|i| self.fcbs[which % FCBS].cells()[i])
    }

    /// Why the reference would refuse a call.
    pub fn refusal(&self, ask: &Ask) -> Option<reference::Cause> {
        self.refusal_with(ask, self.session)
    }

    /// Why it would on a lifted session.
    pub fn refusal_if_lifted(&self, ask: &Ask) -> Option<reference::Cause> {
        self.refusal_with(ask, reference::lift(self.session))
    }

    fn refusal_with(&self, ask: &Ask, session: Session) -> Option<reference::Cause> {
        let lengths = ask.lengths;
        reference::refusal(
            ask.at(self.time),
            self.image.lent(lengths.image),
            self.map.lent(lengths.map),
            self.fcbs[ask.fcb % FCBS].lent(lengths.fcb),
            self.buffer.lent(lengths.buffer),
            session,
        )
    }

    /// Whether the image is consistent and the map right.
    pub fn is_sound(&self) -> bool {
        faults::in_image(self).is_none() && faults::in_map(self).is_none()
    }

    /// Makes a call, keeps the session it answers with, and gives the answer.
    pub fn call(&mut self, implementation: &mut dyn Implementation, ask: &Ask) -> Answer {
        let lengths = ask.lengths;
        let answer = implementation.call(
            ask.at(self.time),
            self.image.lent_mut(lengths.image),
            self.map.lent_mut(lengths.map),
            self.fcbs[ask.fcb % FCBS].lent_mut(lengths.fcb),
            self.buffer.lent_mut(lengths.buffer),
            self.session,
        );
        self.session = answer.session;
        answer
    }

    /// Does a step: what it asks of the implementation, or what it says. The
    /// answer of a call comes back.
    pub fn take(&mut self, implementation: &mut dyn Implementation, step: &Step) -> Option<Answer> {
        match step {
            Step::Call(ask) => return Some(self.call(implementation, ask)),
            Step::Lift => self.session = implementation.lift(self.session),
            Step::Protect => self.session = implementation.protect(self.session),
            _ => self.prepare(step),
        }
        None
    }

    /// Whether the write protection is on.
    pub fn is_protected(&self) -> bool {
        self.session.lifted == 0
    }

    /// Does what a step other than a call says. Lifting and setting the write
    /// protection is "1" and "0" in one field, and nothing else.
    pub fn prepare(&mut self, step: &Step) {
        match step {
            Step::Sector { number, bytes } => {
                let place = RECORD_BYTES * usize::from(*number);
                self.image.cells_mut()[place..][..RECORD_BYTES].copy_from_slice(bytes);
            }
            Step::Byte { place, byte } => self.image.cells_mut()[*place as usize] = *byte,
            Step::Note { block, note } => self.map.cells_mut()[usize::from(*block)] = *note,
            Step::Fcb { which, bytes } => {
                let fcb = &mut self.fcbs[usize::from(*which) % FCBS];
                fcb.cells_mut().copy_from_slice(bytes);
            }
            Step::Buffer { bytes } => self.buffer.cells_mut().copy_from_slice(bytes),
            Step::Session(session) => self.session = *session,
            Step::Time(time) => self.time = *time,
            Step::Lift => self.session.lifted = 1,
            Step::Protect => self.session.lifted = 0,
            Step::Call(_) => {}
        }
    }

    /// The steps that lead from [`World::new`] to this world.
    pub fn steps(&self) -> Vec<Step> {
        let new = World::new(self.seed);
        let mut steps = Vec::new();
        let (ours, _) = self.image.cells().as_chunks::<RECORD_BYTES>();
        let (theirs, _) = new.image.cells().as_chunks::<RECORD_BYTES>();
        for (number, (bytes, theirs)) in ours.iter().zip(theirs).enumerate() {
            if bytes != theirs {
                let (number, bytes) = (number as u16, *bytes);
                steps.push(Step::Sector { number, bytes });
            }
        }
        for (block, &note) in self.map.cells().iter().enumerate() {
            if note != new.map.cells()[block] {
                let block = block as u8;
                steps.push(Step::Note { block, note });
            }
        }
        for which in 0..FCBS {
            let bytes = self.fcb(which);
            if bytes != new.fcb(which) {
                let which = which as u8;
                steps.push(Step::Fcb { which, bytes });
            }
        }
        let bytes = std::array::from_fn(|i| self.buffer.cells()[i]);
        steps.push(Step::Buffer { bytes });
        steps.push(Step::Session(self.session));
        steps.push(Step::Time(self.time));
        steps
    }

    /// Whether nothing was written around any buffer.
    pub fn guards_stand(&self) -> bool {
        self.image.guards_stand()
            && self.map.guards_stand()
            && self.fcbs.iter().all(Guarded::guards_stand)
            && self.buffer.guards_stand()
    }

    /// Whether a sector of the image belongs to a block.
    pub fn sectors_in_blocks() -> Vec<bool> {
        let mut inside = vec![false; IMAGE_BYTES / RECORD_BYTES];
        for block in 0..BLOCKS as u8 {
            for record in 0..8 {
                inside[diskette::place(block, record) / RECORD_BYTES] = true;
            }
        }
        inside
    }
}
