//! What the tests share: a desk with a disk on it, and FCBs by name.

#![allow(dead_code)]

use reference::{call, diskette, lift, protect, refusal, Answer, Asked, Cause, Session};

/// An FCB as a program holds it.
pub type Fcb = [u8; 36];

/// A and H of an accepted call whose A is 0.
pub const DONE: (u8, u8) = (0, 0);

/// A time that calls are handed: day, hour and minute.
pub type Time = (u16, u8, u8);

/// A disk, its map, a transfer buffer, a session and the time.
#[derive(Clone, PartialEq)]
pub struct Desk {
    pub image: Vec<u8>,
    pub map: Vec<u16>,
    pub buffer: Vec<u8>,
    pub session: Session,
    pub time: Time,
}

impl Desk {
    /// An empty disk, logged in, its write protection lifted. The data area is
    /// not all the same byte.
    pub fn empty() -> Self {
        let mut desk = Desk {
            image: (0..diskette::IMAGE_BYTES).map(|i| i as u8 ^ 0x5A).collect(),
            map: vec![0; diskette::BLOCKS],
            buffer: vec![0; 128],
            session: lift(Session::default()),
            time: (17_849, 0x23, 0x59),
        };
        for entry in 0..64 {
            desk.entry_mut(entry).fill(0xE5);
        }
        desk.log_in();
        desk
    }

    /// A disk with these entries, logged in.
    pub fn with(entries: &[(usize, [u8; 32])]) -> Self {
        let mut desk = Desk::empty();
        for (entry, row) in entries {
            desk.entry_mut(*entry).copy_from_slice(row);
        }
        desk.log_in();
        desk
    }

    /// Sets the write protection.
    pub fn protect(&mut self) {
        self.session = protect(self.session);
    }

    /// Lifts it.
    pub fn lift(&mut self) {
        self.session = lift(self.session);
    }

    pub fn log_in(&mut self) {
        assert_eq!(self.ask(13, &mut [0; 36]), DONE);
    }

    fn entry_place(entry: usize) -> usize {
        diskette::place(entry as u8 / 32, entry as u8 / 4 % 8) + 32 * (entry % 4)
    }

    pub fn entry(&self, entry: usize) -> &[u8] {
        &self.image[Self::entry_place(entry)..][..32]
    }

    pub fn entry_mut(&mut self, entry: usize) -> &mut [u8] {
        &mut self.image[Self::entry_place(entry)..][..32]
    }

    pub fn record(&self, block: u8, record: u8) -> &[u8] {
        &self.image[diskette::place(block, record)..][..128]
    }

    /// What is asked for, with the time.
    pub fn asked(&self, number: u8, argument: u8) -> Asked {
        let (day, hour, minute) = self.time;
        Asked {
            number,
            argument,
            day,
            hour,
            minute,
        }
    }

    /// Makes a call with argument 0 and gives A and H.
    pub fn ask(&mut self, number: u8, fcb: &mut Fcb) -> (u8, u8) {
        self.ask_with(number, 0, fcb)
    }

    /// Makes a call and gives A and H. What holds for every call is checked:
    /// `refusal` foretells it, a refusal changes nothing, an accepted call
    /// leaves a sound disk, and none touches the write protection or gets past
    /// it.
    pub fn ask_with(&mut self, number: u8, argument: u8, fcb: &mut Fcb) -> (u8, u8) {
        let asked = self.asked(number, argument);
        let cause = self.cause(asked, fcb);
        let (before, fcb_before) = (self.clone(), *fcb);
        let Answer { a, h, session } = call(
            asked,
            &mut self.image,
            &mut self.map,
            fcb,
            &mut self.buffer,
            self.session,
        );
        self.session = session;
        self.check_protection(number, &before);
        match cause {
            Some(cause) => {
                assert_eq!((a, h), cause.code());
                let ended = Session {
                    place: 0,
                    on: 0,
                    ..before.session
                };
                let ends = matches!(cause, Cause::NothingMatches17 | Cause::NoMore18);
                let kept = if ends { ended } else { before.session };
                assert_eq!(session, kept, "{cause:?}");
                assert!(self.image == before.image, "{cause:?} changed the image");
                assert!(self.map == before.map, "{cause:?} changed the map");
                assert!(self.buffer == before.buffer, "{cause:?} changed the buffer");
                assert!(*fcb == fcb_before, "{cause:?} changed the FCB");
            }
            None => {
                let space = self.cause(self.asked(46, 0), &[0; 36]);
                assert_eq!(h, 0);
                assert_eq!(space, None, "after call {number}");
            }
        }
        (a, h)
    }

    /// No call touches the write protection, and on a protected session none
    /// changes the image, or the map but 13 and 98.
    fn check_protection(&self, number: u8, before: &Desk) {
        assert_eq!(self.session.lifted, before.session.lifted, "call {number}");
        if before.session.lifted == 0 {
            let makes_a_map = matches!(number, 13 | 98);
            assert!(self.image == before.image, "call {number}");
            assert!(makes_a_map || self.map == before.map, "call {number}");
        }
    }

    /// Why this call would be refused.
    pub fn cause(&self, asked: Asked, fcb: &Fcb) -> Option<Cause> {
        refusal(
            asked,
            &self.image,
            &self.map,
            fcb,
            &self.buffer,
            self.session,
        )
    }

    /// Makes a call that has to be refused for `cause`.
    pub fn refuses(&mut self, number: u8, fcb: &Fcb, cause: Cause) {
        assert_eq!(self.cause(self.asked(number, 0), fcb), Some(cause));
        let mut lent = *fcb;
        assert_eq!(self.ask(number, &mut lent), cause.code());
    }

    /// What call 46 tells.
    pub fn space(&mut self) -> u32 {
        let kept = std::mem::replace(&mut self.buffer, vec![0; 128]);
        assert_eq!(self.ask(46, &mut [0; 36]), DONE);
        let told = std::mem::replace(&mut self.buffer, kept);
        u32::from_le_bytes([told[0], told[1], told[2], 0])
    }

    /// Makes a file and gives its FCB, cr 0.
    pub fn make(&mut self, name: &str) -> Fcb {
        let mut file = fcb(name);
        let (a, h) = self.ask(22, &mut file);
        assert!(a < 4 && h == 0);
        file
    }

    /// Opens a file and gives its FCB, cr 0.
    pub fn open(&mut self, name: &str) -> Fcb {
        let mut file = fcb(name);
        let (a, h) = self.ask(15, &mut file);
        assert!(a < 4 && h == 0);
        file
    }

    /// Writes the next record, all of one byte, and gives A and H.
    pub fn write_next(&mut self, file: &mut Fcb, byte: u8) -> (u8, u8) {
        self.buffer.fill(byte);
        self.ask(21, file)
    }

    /// Writes a record by number, all of one byte, and gives A and H.
    pub fn write_at(&mut self, file: &mut Fcb, record: u32, byte: u8) -> (u8, u8) {
        set_random(file, record);
        self.buffer.fill(byte);
        self.ask(34, file)
    }

    /// Reads a record by number and gives A and H.
    pub fn read_at(&mut self, file: &mut Fcb, record: u32) -> (u8, u8) {
        set_random(file, record);
        self.ask(33, file)
    }
}

/// An FCB with a name and type, everything else 0.
pub fn fcb(name: &str) -> Fcb {
    let mut fcb = [0; 36];
    fcb[1..12].copy_from_slice(&eleven(name));
    fcb
}

/// An FCB for call 23.
pub fn rename_fcb(old: &str, new: &str) -> Fcb {
    let mut fcb = fcb(old);
    fcb[17..28].copy_from_slice(&eleven(new));
    fcb
}

/// "NAME.TYP" as eleven bytes, filled up with spaces.
pub fn eleven(name: &str) -> [u8; 11] {
    let (name, kind) = name.split_once('.').unwrap_or((name, ""));
    let mut bytes = [b' '; 11];
    bytes[..name.len()].copy_from_slice(name.as_bytes());
    bytes[8..8 + kind.len()].copy_from_slice(kind.as_bytes());
    bytes
}

/// A used entry.
pub fn row(user: u8, name: &str, extent: u16, rc: u8, slots: &[u8]) -> [u8; 32] {
    let mut row = [0; 32];
    row[0] = user;
    row[1..12].copy_from_slice(&eleven(name));
    row[12] = (extent % 32) as u8;
    row[14] = (extent / 32) as u8;
    row[15] = rc;
    row[16..16 + slots.len()].copy_from_slice(slots);
    row
}

pub fn set_random(fcb: &mut Fcb, record: u32) {
    fcb[33..].copy_from_slice(&record.to_le_bytes()[..3]);
}

pub fn random(fcb: &Fcb) -> u32 {
    u32::from_le_bytes([fcb[33], fcb[34], fcb[35], 0])
}
