//! The picker as a sequence of calls, over any implementation of them; and the
//! same with one slip, which has to be found out.

use crate::world::{Implementation, World, DATES};
use reference::{Answer, Asked, Pick, Picked, Session, Time, Wanted, FCB_BYTES};

/// Writes the slips down as an enum with a list of all.
macro_rules! slips {
    ($($(#[$doc:meta])* $slip:ident;)*) => {
        /// One thing that a wrong picker does.
        #[derive(Clone, Copy, Debug, PartialEq, Eq)]
        pub enum Slip {
            $($(#[$doc])* $slip,)*
        }

        impl Slip {
            /// Every slip.
            pub const ALL: &'static [Slip] = &[$(Slip::$slip),*];
        }
    };
}

slips! {
    /// The log is written before it is searched.
    WritesBeforeSearching;
    /// The log is not searched at all.
    NeverSearches;
    /// The last record is not searched.
    LeavesOutTheLast;
    /// No more than 1,024 records are searched.
    Searches1024;
    /// The search ends at a record that is not there.
    StopsAtAHole;
    /// A record that is not there has the day.
    HoleIsAHit;
    /// Only the last digit of the year is compared.
    YearByOneByte;
    /// Only four digits of the year are compared.
    YearByFourDigits;
    /// The day is not compared.
    YearAlone;
    /// All of a record is compared.
    WholeRecord;
    /// The log is not closed.
    NoClose;
    /// The protection stays lifted.
    LeftLifted;
    /// The protection is set afterwards, whatever it was.
    AlwaysProtects;
    /// It is lifted for one call by any session, so another byte becomes 1.
    LiftsWhatIsLifted;
    /// It is lifted for the open of the log too, which then stamps.
    LiftsForTheOpen;
    /// It is set for the opens, which then stamp nothing.
    OpensProtected;
    /// The book is opened with a time of zeros.
    OpensAtNoTime;
    /// The log is closed with a time of zeros.
    ClosesAtNoTime;
    /// A byte of a date entry that is no stamp of its files changes with the log.
    TouchesADateEntry;
    /// The log is closed twice, the second time after another write.
    WritesTwice;
    /// Day 366 is taken.
    Day366;
    /// Day 365 is not.
    NoDay365;
    /// The day is looked at after the book.
    DayAfterTheBook;
    /// The word is the next day's.
    NextDaysWord;
    /// The buffer for the word is cleared first.
    ClearsTheWord;
    /// The log is made before the look at space.
    MakesBeforeSpace;
    /// There is no look at space.
    NoLookAtSpace;
    /// No word is handed out where the log is full.
    NoWordOnAFullLog;
    /// No word is handed out where book and log are one file.
    NoWordOnOneFile;
    /// A full log is told before it is searched.
    FullBeforeSearching;
    /// A log of 1,023 records is full.
    FullAt1023;
    /// A log of 1,024 records is not.
    NotFullAt1024;
    /// The log is written through the FCB that the search has left.
    StaleExtent;
    /// Names are one file by all eight bits.
    OneFileByEightBits;
    /// Book and log may be one file.
    NeverOneFile;
    /// A log without its first extent gets one.
    MakesTheFirstExtent;
    /// The session is handed back as it came.
    KeepsTheSearch;
    /// The disk is logged in first, so that nothing stays pending.
    LogsInFirst;
    /// The year and day are written with zeros behind.
    ZerosBehind;
    /// The log's record is written one further on.
    LeavesARecordOut;
    /// User 0's files are taken.
    UserZero;
    /// A log that can't be written is told as a refusal.
    OtherForReadOnly;
    /// A directory that is full is told as a full disk.
    DirectoryAsDisk;
}

/// The calls of an implementation, and what may be wrong.
pub struct ByCalls<'a> {
    /// What makes the calls.
    pub calls: &'a mut dyn Implementation,
    /// What this picker does wrong, if anything.
    pub slip: Option<Slip>,
}

/// What a run works on.
struct Desk<'a, 'b> {
    calls: &'a mut dyn Implementation,
    slip: Option<Slip>,
    wanted: Wanted,
    time: Time,
    image: &'b mut [u8],
    map: &'b mut [u16],
    session: Session,
}

type Fcb = [u8; FCB_BYTES];
type Record = [u8; 128];

/// A refusal that has no name of its own.
fn other(answer: Answer) -> Pick {
    let Answer { a, h, .. } = answer;
    Pick::Other { a, h }
}

fn is(answer: Answer, a: u8, h: u8) -> bool {
    (answer.a, answer.h) == (a, h)
}

/// The FCB of a name, all else 0.
fn fcb_of(name: &[u8; 11]) -> Fcb {
    let mut fcb = [0; FCB_BYTES];
    fcb[1..12].copy_from_slice(name);
    fcb
}

/// The same FCB at a random record.
fn at_record(mut fcb: Fcb, record: u32) -> Fcb {
    fcb[33..].copy_from_slice(&record.to_le_bytes()[..3]);
    fcb
}

fn in_three_bytes(bytes: &[u8]) -> u32 {
    u32::from_le_bytes([bytes[0], bytes[1], bytes[2], 0])
}

impl ByCalls<'_> {
    /// Picks a word by calls alone.
    pub fn pick(
        &mut self,
        wanted: Wanted,
        time: Time,
        image: &mut [u8],
        map: &mut [u16],
        word: &mut [u8],
        session: Session,
    ) -> Picked {
        let mut desk = Desk {
            calls: self.calls,
            slip: self.slip,
            wanted,
            time,
            image,
            map,
            session,
        };
        let (pick, given) = desk.pick(word);
        let session = match desk.slips(Slip::KeepsTheSearch) {
            true => session,
            false => desk.session,
        };
        Picked {
            pick,
            given,
            session,
        }
    }
}

impl Desk<'_, '_> {
    fn slips(&self, slip: Slip) -> bool {
        self.slip == Some(slip)
    }

    /// Makes a call, on the session as it is.
    fn call(&mut self, number: u8, fcb: &mut Fcb, buffer: &mut [u8]) -> Answer {
        let at_no_time = match number {
            15 => self.slips(Slip::OpensAtNoTime),
            16 => self.slips(Slip::ClosesAtNoTime),
            _ => false,
        };
        let time = match at_no_time {
            true => Time::default(),
            false => self.time,
        };
        let asked = Asked {
            number,
            argument: 0,
            day: time.day,
            hour: time.hour,
            minute: time.minute,
        };
        let (image, map) = (&mut *self.image, &mut *self.map);
        let answer = self
            .calls
            .call(asked, image, map, fcb, buffer, self.session);
        self.session = answer.session;
        answer
    }

    /// Makes a call with the protection lifted, which is afterwards what it was.
    fn call_lifted(&mut self, number: u8, fcb: &mut Fcb, buffer: &mut [u8]) -> Answer {
        let protected = self.session.lifted == 0;
        if protected || self.slips(Slip::LiftsWhatIsLifted) {
            self.session = self.calls.lift(self.session);
        }
        let answer = self.call(number, fcb, buffer);
        let sets = protected || self.slips(Slip::AlwaysProtects);
        if sets && !self.slips(Slip::LeftLifted) {
            self.session = self.calls.protect(self.session);
        }
        answer
    }

    /// Opens a file.
    fn open(&mut self, fcb: &mut Fcb) -> Answer {
        let mut blank = [0; 128];
        let lifted = self.session.lifted;
        if self.slips(Slip::OpensProtected) {
            self.session.lifted = 0;
        } else if self.slips(Slip::LiftsForTheOpen) && fcb[1..12] == self.wanted.log {
            return self.call_lifted(15, fcb, &mut blank);
        }
        let answer = self.call(15, fcb, &mut blank);
        self.session.lifted = lifted;
        answer
    }

    fn pick(&mut self, word: &mut [u8]) -> (Pick, bool) {
        if self.slips(Slip::UserZero) {
            self.session.user = 0;
        }
        if self.slips(Slip::LogsInFirst) {
            self.call(13, &mut [0; FCB_BYTES], &mut [0; 128]);
        }
        let last = match self.slip {
            Some(Slip::Day366) => 366,
            Some(Slip::NoDay365) => 364,
            Some(Slip::DayAfterTheBook) => u16::MAX,
            _ => 365,
        };
        if self.wanted.day > last {
            return (Pick::DayOver, false);
        }
        let mut fcb = fcb_of(&self.wanted.book);
        let opened = self.open(&mut fcb);
        if opened.h != 0 || opened.a == 255 {
            let missing = is(opened, 255, 0);
            let pick = if missing { Pick::NoBook } else { other(opened) };
            return (pick, false);
        }
        if self.slips(Slip::DayAfterTheBook) && self.wanted.day > 365 {
            return (Pick::DayOver, false);
        }
        self.fetch(fcb, word)
    }

    /// Reads the word, and logs the day.
    fn fetch(&mut self, fcb: Fcb, word: &mut [u8]) -> (Pick, bool) {
        if self.slips(Slip::ClearsTheWord) {
            word.fill(0);
        }
        if self.slips(Slip::NoWordOnOneFile) && self.one_file() {
            return (Pick::OneFile, false);
        }
        let next = u32::from(self.slips(Slip::NextDaysWord));
        let record = u32::from(self.wanted.day) + next;
        let read = self.call(33, &mut at_record(fcb, record), word);
        if !is(read, 0, 0) {
            let missing = is(read, 1, 0) || is(read, 4, 0);
            let pick = if missing { Pick::NoWord } else { other(read) };
            return (pick, false);
        }
        if self.one_file() {
            return (Pick::OneFile, true);
        }
        let pick = self.log();
        let given = !(self.slips(Slip::NoWordOnAFullLog) && pick == Pick::LogFull);
        (pick, given)
    }

    fn one_file(&self) -> bool {
        let mask = match self.slip {
            Some(Slip::NeverOneFile) => return false,
            Some(Slip::OneFileByEightBits) => 0xFF,
            _ => 0x7F,
        };
        let [book, log] = [self.wanted.book, self.wanted.log].map(|name| name.map(|b| b & mask));
        book == log
    }

    /// The nine bytes, and what is behind them.
    fn log_record(&self) -> Record {
        let filling = if self.slips(Slip::ZerosBehind) { 0 } else { 26 };
        let mut bytes = [filling; 128];
        let text = format!("{:05} {:03}\r\n", self.wanted.year, self.wanted.day);
        bytes[..11].copy_from_slice(text.as_bytes());
        bytes
    }

    /// By the size of the log.
    fn log(&mut self) -> Pick {
        let mut fcb = fcb_of(&self.wanted.log);
        let sized = self.call(35, &mut fcb, &mut [0; 128]);
        if is(sized, 0, 0) {
            self.extend(in_three_bytes(&fcb[33..]))
        } else if is(sized, 255, 0) {
            self.begin()
        } else {
            other(sized)
        }
    }

    /// A log that is there.
    fn extend(&mut self, size: u32) -> Pick {
        let mut fcb = fcb_of(&self.wanted.log);
        let opened = self.open(&mut fcb);
        if is(opened, 255, 0) {
            return match self.slips(Slip::MakesTheFirstExtent) {
                true => self.make(),
                false => Pick::NoFirst,
            };
        }
        if opened.h != 0 || opened.a == 255 {
            return other(opened);
        }
        let full = match self.slip {
            Some(Slip::FullAt1023) => 1_023,
            Some(Slip::NotFullAt1024) => 1_025,
            _ => 1_024,
        };
        if self.slips(Slip::FullBeforeSearching) && size >= full {
            return Pick::LogFull;
        }
        if self.slips(Slip::WritesBeforeSearching) && size < full {
            let pick = self.write(fcb, size);
            let found = pick == Pick::Logged && self.search(&mut fcb, size);
            return if found { Pick::Again } else { pick };
        }
        if self.search(&mut fcb, size) {
            return Pick::Again;
        }
        if size >= full {
            return Pick::LogFull;
        }
        self.write(fcb, size)
    }

    /// Whether a record below the size has the year and day.
    fn search(&mut self, opened: &mut Fcb, size: u32) -> bool {
        let size = match self.slip {
            Some(Slip::NeverSearches) => 0,
            Some(Slip::LeavesOutTheLast) => size.saturating_sub(1),
            Some(Slip::Searches1024) => size.min(1_024),
            _ => size,
        };
        for record in 0..size {
            let mut buffer = [0; 128];
            let mut fcb = at_record(*opened, record);
            let there = is(self.call(33, &mut fcb, &mut buffer), 0, 0);
            if self.slips(Slip::StaleExtent) {
                *opened = fcb;
            }
            if !there && self.slips(Slip::StopsAtAHole) {
                return false;
            }
            let hit = match there {
                true => self.has_day(&buffer),
                false => self.slips(Slip::HoleIsAHit),
            };
            if hit {
                return true;
            }
        }
        false
    }

    fn has_day(&self, buffer: &Record) -> bool {
        let compared = match self.slip {
            Some(Slip::YearByOneByte) => 4..9,
            Some(Slip::YearByFourDigits) => 1..9,
            Some(Slip::YearAlone) => 0..5,
            Some(Slip::WholeRecord) => 0..128,
            _ => 0..9,
        };
        buffer[compared.clone()] == self.log_record()[compared]
    }

    /// A log that is missing.
    fn begin(&mut self) -> Pick {
        if self.slips(Slip::MakesBeforeSpace) {
            let mut fcb = fcb_of(&self.wanted.log);
            let made = self.call_lifted(22, &mut fcb, &mut [0; 128]);
            if made.a == 255 {
                return Pick::DirectoryFull;
            }
            return self.look_at_space().unwrap_or_else(|| self.write(fcb, 0));
        }
        let looks = !self.slips(Slip::NoLookAtSpace);
        let full = looks.then(|| self.look_at_space()).flatten();
        full.unwrap_or_else(|| self.make())
    }

    /// A disk that is full.
    fn look_at_space(&mut self) -> Option<Pick> {
        let mut buffer = [0; 128];
        let asked = self.call(46, &mut [0; FCB_BYTES], &mut buffer);
        match is(asked, 0, 0) {
            true => (in_three_bytes(&buffer) == 0).then_some(Pick::DiskFull),
            false => Some(other(asked)),
        }
    }

    fn make(&mut self) -> Pick {
        let mut fcb = fcb_of(&self.wanted.log);
        let made = self.call_lifted(22, &mut fcb, &mut [0; 128]);
        if is(made, 255, 0) {
            return match self.slips(Slip::DirectoryAsDisk) {
                true => Pick::DiskFull,
                false => Pick::DirectoryFull,
            };
        }
        if made.h != 0 || made.a == 255 {
            return other(made);
        }
        self.write(fcb, 0)
    }

    /// Writes the day's record and closes the log.
    fn write(&mut self, fcb: Fcb, size: u32) -> Pick {
        let further = u32::from(self.slips(Slip::LeavesARecordOut));
        let mut fcb = at_record(fcb, size + further);
        let mut bytes = self.log_record();
        let written = self.call_lifted(34, &mut fcb, &mut bytes);
        if is(written, 255, 3) && !self.slips(Slip::OtherForReadOnly) {
            return Pick::LogReadOnly;
        } else if is(written, 5, 0) {
            return Pick::DirectoryFull;
        } else if is(written, 2, 0) {
            return Pick::DiskFull;
        } else if !is(written, 0, 0) {
            return other(written);
        }
        if self.slips(Slip::NoClose) {
            return Pick::Logged;
        }
        if self.slips(Slip::WritesTwice) {
            let mut further = at_record(fcb, size + 1);
            self.call_lifted(34, &mut further, &mut bytes);
            self.call_lifted(16, &mut further, &mut [0; 128]);
        }
        let last = World::entry_place(63);
        if self.slips(Slip::TouchesADateEntry) && self.image[last] == DATES {
            self.image[last + 9] ^= 1;
        }
        let closed = self.call_lifted(16, &mut fcb, &mut [0; 128]);
        match closed.h == 0 && closed.a != 255 {
            true => Pick::Logged,
            false => other(closed),
        }
    }
}
