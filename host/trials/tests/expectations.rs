//! What must come out, kept in files: each scenario is told call by call, ends
//! with sums of image and map, and has to read as it is kept. The reference
//! has to tell the same.

use reference::{Answer, Asked, Session};
use std::fmt::Write;

type Call = fn(Asked, &mut [u8], &mut [u16], &mut [u8], &mut [u8], Session) -> Answer;

/// One of the two: its call, and what lifts and sets the write protection.
#[derive(Clone, Copy)]
struct Side {
    call: Call,
    lift: fn(Session) -> Session,
    protect: fn(Session) -> Session,
}

const LIBRARY: Side = Side {
    call: trials::call,
    lift: trials::lift,
    protect: trials::protect,
};

const REFERENCE: Side = Side {
    call: reference::call,
    lift: reference::lift,
    protect: reference::protect,
};

type Fcb = [u8; 36];

/// A disk with all that goes with it, and what is told of it.
struct Stage {
    side: Side,
    image: Vec<u8>,
    map: Vec<u16>,
    buffer: Vec<u8>,
    session: Session,
    /// The day, hour and minute that calls are handed.
    time: (u16, u8, u8),
    told: String,
}

impl Stage {
    /// An erased disk, logged in, its write protection lifted.
    fn erased(side: Side) -> Stage {
        let mut stage = Stage {
            side,
            image: vec![0xE5; 256_256],
            map: vec![0; 243],
            buffer: vec![0; 128],
            session: Session::default(),
            time: (0, 0, 0),
            told: String::new(),
        };
        stage.ask(13, "log in", &mut [0; 36]);
        stage.session = (side.lift)(stage.session);
        stage
    }

    /// Lifts the write protection, and tells it.
    fn lift(&mut self) {
        self.session = (self.side.lift)(self.session);
        self.tell_protection("lift");
    }

    /// Sets the write protection, and tells it.
    fn protect(&mut self) {
        self.session = (self.side.protect)(self.session);
        self.tell_protection("protect");
    }

    fn tell_protection(&mut self, what: &str) {
        let Session {
            place, on, lifted, ..
        } = self.session;
        let line = format!("   {what}: lifted {lifted}; search {on}, place {place}");
        self.say(&line);
    }

    /// Makes a call that is not told.
    fn silently(&mut self, number: u8, fcb: &mut Fcb) -> (u8, u8) {
        let (day, hour, minute) = self.time;
        let asked = Asked {
            number,
            argument: 0,
            day,
            hour,
            minute,
        };
        let before = (self.image.clone(), self.map.clone(), self.buffer.clone());
        let (fcb_before, session) = (*fcb, self.session);
        let Answer { a, h, session } = (self.side.call)(
            asked,
            &mut self.image,
            &mut self.map,
            fcb,
            &mut self.buffer,
            session,
        );
        self.session = session;
        if a == 255 || (matches!(number, 20 | 21 | 33 | 34) && a != 0) {
            let same = before == (self.image.clone(), self.map.clone(), self.buffer.clone());
            assert!(
                same && fcb_before == *fcb,
                "a refused {number} changed something"
            );
        }
        (a, h)
    }

    /// Makes a call and tells it.
    fn ask(&mut self, number: u8, what: &str, fcb: &mut Fcb) -> (u8, u8) {
        let notes = self.map.clone();
        let (a, h) = self.silently(number, fcb);
        let _ = write!(self.told, "{number:>2} {what}: {a}, {h}");
        let pairs = notes.iter().zip(&self.map).enumerate();
        let changed: Vec<_> = pairs.filter(|(_, (was, is))| was != is).collect();
        match &changed[..] {
            [] => {}
            _ if number == 13 => {}
            [(block, (was, is))] => {
                let _ = write!(self.told, "; note {block} {was} -> {is}");
            }
            _ => {
                let _ = write!(self.told, "; {} notes change", changed.len());
            }
        }
        self.told.push('\n');
        (a, h)
    }

    /// Makes a call many times, which has to be answered 0, 0, and tells it
    /// once.
    fn repeat(&mut self, times: usize, number: u8, what: &str, fcb: &mut Fcb) {
        for time in 0..times {
            let (a, h) = self.silently(number, fcb);
            assert!(h == 0 && a < 4, "time {time}: {a}, {h}");
        }
        let _ = writeln!(self.told, "{number:>2} {what}, {times} times: accepted");
    }

    fn space(&mut self) {
        let kept = self.buffer.clone();
        let (a, h) = self.silently(46, &mut [0; 36]);
        let told = std::mem::replace(&mut self.buffer, kept);
        let free = u32::from_le_bytes([told[0], told[1], told[2], 0]);
        let _ = writeln!(self.told, "46 space: {a}, {h}; {free} records");
    }

    fn say(&mut self, what: &str) {
        self.told.push_str(what);
        self.told.push('\n');
    }

    fn tell_fcb(&mut self, what: &str, fcb: &Fcb) {
        let hex: String = fcb.iter().map(|byte| format!("{byte:02X}")).collect();
        let _ = writeln!(self.told, "   {what} {hex}");
    }

    /// Sets the time, and tells it.
    fn at(&mut self, day: u16, hour: u8, minute: u8) {
        self.time = (day, hour, minute);
        let _ = writeln!(self.told, "   day {day}, {hour:02X}:{minute:02X}");
    }

    /// Tells the two stamps beside an entry, which have to be these.
    fn stamps_are(&mut self, entry: usize, due: [[u8; 4]; 2]) {
        let dates = entry_place(entry - entry % 4 + 3);
        let stamps = [1, 5].map(|first| {
            let at = dates + first + 10 * (entry % 4);
            std::array::from_fn(|i| self.image[at + i])
        });
        assert_eq!(stamps, due, "{}", self.told);
        let [first, update] = stamps.map(|[low, high, hour, minute]: [u8; 4]| {
            let day = u16::from_le_bytes([low, high]);
            format!("day {day}, {hour:02X}:{minute:02X}")
        });
        let _ = writeln!(self.told, "   entry {entry}: {first}; update {update}");
    }

    /// Puts a label and date entries on the disk.
    fn make_dated(&mut self, asks: u8) {
        for entry in (3..64).step_by(4) {
            self.image[entry_place(entry)..][..32].fill(0x11);
            self.image[entry_place(entry)] = 0x21;
        }
        let label = &mut self.image[entry_place(0)..][..32];
        label.fill(0);
        label[1..12].copy_from_slice(b"WORDS   DSK");
        (label[0], label[12]) = (0x20, asks | 1);
    }

    /// Everything told, with sums of what is left.
    fn end(mut self) -> String {
        let notes: Vec<u8> = self
            .map
            .iter()
            .flat_map(|note| note.to_le_bytes())
            .collect();
        let (image, map) = (sum(&self.image), sum(&notes));
        let _ = writeln!(
            self.told,
            "sums {image:016X} of the image, {map:016X} of the map"
        );
        self.told
    }
}

/// A sum that tells bytes and their places apart (FNV-1a).
fn sum(bytes: &[u8]) -> u64 {
    bytes.iter().fold(0xCBF2_9CE4_8422_2325, |sum, &byte| {
        (sum ^ u64::from(byte)).wrapping_mul(0x100_0000_01B3)
    })
}

/// Where an entry stands in the image: all are on track 2.
fn entry_place(entry: usize) -> usize {
    let logical = entry / 4;
    6_656 + 128 * (6 * logical % 26 + logical / 13) + 32 * (entry % 4)
}

/// An FCB with a name, everything else 0.
fn fcb(name: &str) -> Fcb {
    let mut fcb = [0; 36];
    fcb[1..12].fill(b' ');
    let (name, kind) = name.split_once('.').unwrap_or((name, ""));
    fcb[1..1 + name.len()].copy_from_slice(name.as_bytes());
    fcb[9..9 + kind.len()].copy_from_slice(kind.as_bytes());
    fcb
}

/// Runs a scenario on both and compares it with what is kept.
fn compare(scenario: fn(Stage) -> String, kept: &str) {
    let library = scenario(Stage::erased(LIBRARY));
    let reference = scenario(Stage::erased(REFERENCE));
    assert_eq!(library, reference, "the two do not tell the same");
    assert!(library == kept, "not what is kept:\n{library}");
}

/// "On an empty disk make a file, open it in a second FCB, write record 0
/// through both: blocks 2 and 3. The first closes. The second's close is
/// 255, 0 and its write 9; space is 1,912, after call 98 it is 1,920."
#[test]
fn the_double_job() {
    compare(
        |mut stage| {
            let (mut first, mut second) = (fcb("JOB.DAT"), fcb("JOB.DAT"));
            stage.space();
            stage.ask(22, "make JOB.DAT, first FCB", &mut first);
            stage.ask(15, "open JOB.DAT, second FCB", &mut second);
            stage.buffer.fill(1);
            stage.ask(21, "write record 0, first FCB", &mut first);
            stage.buffer.fill(2);
            stage.ask(21, "write record 0, second FCB", &mut second);
            stage.tell_fcb("first ", &first);
            stage.tell_fcb("second", &second);
            assert_eq!((first[16], second[16]), (2, 3));
            stage.ask(16, "close, first FCB", &mut first);
            let closed = stage.ask(16, "close, second FCB", &mut second);
            assert_eq!(closed, (255, 0));
            let written = stage.ask(21, "write, second FCB", &mut second);
            assert_eq!(written, (9, 0));
            let read = stage.ask(20, "read, second FCB", &mut second);
            assert_eq!(read, (9, 0), "not even for reading");
            stage.space();
            stage.ask(98, "free blocks", &mut [0; 36]);
            stage.space();
            first[32] = 0;
            stage.ask(20, "read record 0, first FCB", &mut first);
            assert_eq!(stage.buffer, [1; 128]);
            stage.end()
        },
        include_str!("expected/double-job.txt"),
    );
}

/// 241 blocks stand behind the directory's two; there is no 242nd.
#[test]
fn the_242nd_block() {
    compare(
        |mut stage| {
            let mut file = fcb("BIG.DAT");
            stage.ask(22, "make BIG.DAT", &mut file);
            stage.buffer.fill(0x42);
            stage.repeat(241 * 8, 21, "write", &mut file);
            stage.space();
            stage.tell_fcb("FCB", &file);
            let refused = stage.ask(21, "write record 1,928", &mut file);
            assert_eq!(refused, (2, 0));
            let mut other = fcb("OTHER.DAT");
            stage.ask(22, "make OTHER.DAT", &mut other);
            assert_eq!(
                stage.ask(34, "random write of record 0", &mut other),
                (2, 0)
            );
            stage.ask(16, "close BIG.DAT", &mut file);
            file[33..].copy_from_slice(&[0, 0, 0]);
            stage.ask(33, "random read of record 0", &mut file);
            stage.ask(
                34,
                "random write of record 0, which has its block",
                &mut file,
            );
            stage.ask(19, "delete BIG.DAT", &mut fcb("BIG.DAT"));
            stage.space();
            stage.ask(34, "random write of record 0 of OTHER.DAT", &mut other);
            stage.end()
        },
        include_str!("expected/242nd-block.txt"),
    );
}

/// 64 entries fit; a 65th is refused by 22, 21 and 34, each in its own way.
#[test]
fn the_65th_entry() {
    compare(
        |mut stage| {
            for number in 0..64u8 {
                let mut file = fcb(&format!("F{number}"));
                let (a, h) = stage.silently(22, &mut file);
                assert_eq!((a, h), (number % 4, 0));
            }
            stage.say("22 make F0 to F63: 0 to 3 in turn, 0");
            let mut last = fcb("F64");
            assert_eq!(stage.ask(22, "make F64", &mut last), (255, 0));
            let mut file = fcb("F0");
            stage.ask(15, "open F0", &mut file);
            file[32] = 128;
            let refused = stage.ask(21, "write record 128, which needs an entry", &mut file);
            assert_eq!(refused, (1, 0));
            file[34] = 2;
            let refused = stage.ask(34, "random write of record 512", &mut file);
            assert_eq!(refused, (5, 0));
            stage.ask(19, "delete F31", &mut fcb("F31"));
            assert_eq!(stage.ask(22, "make F64", &mut last), (3, 0));
            stage.end()
        },
        include_str!("expected/65th-entry.txt"),
    );
}

#[test]
fn rename_to_itself() {
    compare(
        |mut stage| {
            let mut file = fcb("SAME.TXT");
            stage.ask(22, "make SAME.TXT", &mut file);
            let mut both = fcb("SAME.TXT");
            both[17..28].copy_from_slice(b"SAME    TXT");
            let refused = stage.ask(23, "rename SAME.TXT to SAME.TXT", &mut both);
            assert_eq!(refused, (255, 8));
            both[20] |= 0x80;
            let refused = stage.ask(23, "the same with an attribute", &mut both);
            assert_eq!(refused, (255, 8));
            both[20] = b'X';
            stage.ask(23, "rename SAME.TXT to SAMX.TXT", &mut both);
            stage.end()
        },
        include_str!("expected/rename-to-itself.txt"),
    );
}

/// Every call is refused with 255, 4, but for one that is not listed.
#[test]
fn an_image_one_byte_short() {
    compare(
        |mut stage| {
            let mut file = fcb("A");
            stage.ask(22, "make A", &mut file);
            stage.image.pop();
            for number in [
                13, 15, 16, 17, 18, 19, 20, 21, 22, 23, 32, 33, 34, 35, 36, 46, 98,
            ] {
                let refused = stage.ask(number, "with the image one byte short", &mut file);
                assert_eq!(refused, (255, 4));
            }
            let refused = stage.ask(14, "is not listed", &mut file);
            assert_eq!(refused, (255, 255));
            stage.image.push(0xE5);
            stage.ask(16, "close A, with the whole image", &mut file);
            stage.end()
        },
        include_str!("expected/one-byte-short.txt"),
    );
}

/// 64 hits, one a time, and the end of the search.
#[test]
fn a_search_over_a_full_directory() {
    compare(
        |mut stage| {
            for number in 0..64 {
                let mut file = fcb(&format!("N{number}.X"));
                file[12] = number % 32;
                let (_, h) = stage.silently(22, &mut file);
                assert_eq!(h, 0);
            }
            stage.say("22 make N0.X to N63.X, with extents 0 to 31 in turn");
            let mut pattern = [0x3F; 36];
            pattern[0] = 0;
            let mut number = 17;
            for entry in 0..64u16 {
                let (a, h) = stage.ask(number, "search for anything", &mut pattern);
                assert_eq!((u16::from(a), h), (entry % 4, 0));
                assert_eq!(stage.session.place, entry + 1);
                let start = 32 * usize::from(a);
                let name = String::from_utf8_lossy(&stage.buffer[start + 1..start + 12]);
                let line = format!("   entry {entry}: {name}, ex {}", stage.buffer[start + 12]);
                stage.say(&line);
                number = 18;
            }
            assert_eq!(stage.ask(18, "search for anything", &mut pattern), (255, 0));
            assert_eq!((stage.session.place, stage.session.on), (0, 0));
            assert_eq!(stage.ask(18, "with no search on", &mut pattern), (255, 0));
            pattern[12] = 31;
            stage.ask(17, "search for extent 31", &mut pattern);
            stage.ask(18, "search for extent 31", &mut pattern);
            stage.ask(18, "search for extent 31", &mut pattern);
            stage.end()
        },
        include_str!("expected/full-search.txt"),
    );
}

/// The copy knows nothing of the block that the close recorded.
#[test]
fn an_fcb_copied_before_a_write_and_used_after_the_close() {
    compare(
        |mut stage| {
            let mut file = fcb("COPY.DAT");
            stage.ask(22, "make COPY.DAT", &mut file);
            let copy = file;
            stage.buffer.fill(7);
            stage.ask(21, "write record 0", &mut file);
            stage.ask(16, "close", &mut file);
            for (number, what, due) in [
                (16, "close, by the copy", (255, 0)),
                (20, "read, by the copy", (9, 0)),
                (21, "write, by the copy", (9, 0)),
                (33, "random read, by the copy", (9, 0)),
                (34, "random write, by the copy", (9, 0)),
            ] {
                assert_eq!(stage.ask(number, what, &mut copy.clone()), due);
            }
            let mut copy = copy;
            stage.ask(35, "size, by the copy's name", &mut copy);
            stage.tell_fcb("copy", &copy);
            stage.ask(15, "open, by the copy's name", &mut copy);
            stage.ask(20, "read record 0", &mut copy);
            assert_eq!(stage.buffer, [7; 128]);
            stage.tell_fcb("copy", &copy);
            stage.end()
        },
        include_str!("expected/copied-fcb.txt"),
    );
}

/// rc of entry 0.
const RC_OF_0: usize = 6_656 + 15;

/// An old disk: rc 200 in an entry counts as 128, and stays until a larger
/// count comes, which an FCB can bring.
#[test]
fn a_record_count_over_128() {
    compare(
        |mut stage| {
            let mut file = fcb("OLD.DAT");
            stage.ask(22, "make OLD.DAT", &mut file);
            stage.buffer.fill(7);
            stage.ask(21, "write record 0", &mut file);
            stage.ask(16, "close", &mut file);
            stage.say("   the entry's rc becomes 200");
            stage.image[RC_OF_0] = 200;
            stage.ask(13, "log in", &mut [0; 36]);
            stage.ask(35, "size", &mut file);
            stage.tell_fcb("FCB", &file);
            stage.ask(15, "open", &mut file);
            for (record, due) in [(7, (0, 0)), (8, (1, 0))] {
                file[33..].copy_from_slice(&[record, 0, 0]);
                let what = format!("random read of record {record}");
                assert_eq!(stage.ask(33, &what, &mut file), due);
            }
            stage.ask(16, "close", &mut file);
            assert_eq!((file[15], stage.image[RC_OF_0]), (200, 200));
            stage.ask(34, "random write of record 8", &mut file);
            stage.tell_fcb("FCB", &file);
            stage.ask(16, "close", &mut file);
            assert_eq!((file[15], stage.image[RC_OF_0]), (128, 200));
            stage.say("   the entry's rc becomes 3, the FCB's 255");
            (stage.image[RC_OF_0], file[15]) = (3, 255);
            stage.ask(16, "close", &mut file);
            assert_eq!((file[15], stage.image[RC_OF_0]), (255, 128));
            stage.end()
        },
        include_str!("expected/count-over-128.txt"),
    );
}

/// A dated disk whose label asks for create and update stamps: each is made by
/// the calls that make it, and by no other.
#[test]
fn create_and_update_stamps() {
    compare(
        |mut stage| {
            stage.make_dated(0x30);
            stage.at(17_851, 0x06, 0x00);
            stage.ask(13, "log in", &mut [0; 36]);
            let mut file = fcb("WORDS.DAT");
            assert_eq!(stage.ask(22, "make WORDS.DAT", &mut file), (1, 0));
            stage.stamps_are(1, [[0xBB, 0x45, 0x06, 0x00], ZERO]);
            written_and_closed(&mut stage, &mut file);
            written_by_moves(&mut stage, &mut file);
            renamed_deleted_and_made_again(&mut stage);
            stage.end()
        },
        include_str!("expected/create-and-update.txt"),
    );
}

/// A stamp of nothing.
const ZERO: [u8; 4] = [0; 4];

/// The stamps of WORDS.DAT once it is written and closed.
const CLOSED: [[u8; 4]; 2] = [[0xBB, 0x45, 0x06, 0x00], [0xBA, 0x45, 0x23, 0x59]];

/// Update is stamped by a close that changes the entry, and access is not asked
/// for.
fn written_and_closed(stage: &mut Stage, file: &mut Fcb) {
    stage.at(17_851, 0x06, 0x01);
    stage.ask(16, "close, which changes nothing", file);
    stage.stamps_are(1, [CLOSED[0], ZERO]);
    stage.ask(21, "write record 0", file);
    stage.at(17_850, 0x23, 0x59);
    stage.ask(16, "close, the day before", file);
    stage.stamps_are(1, CLOSED);
    stage.at(17_852, 0x99, 0x99);
    stage.ask(15, "open", file);
    stage.stamps_are(1, CLOSED);
}

/// A move that changes nothing makes an entry; the way back has something to
/// record.
fn written_by_moves(stage: &mut Stage, file: &mut Fcb) {
    file[34] = 1;
    stage.ask(34, "random write of record 256, by a move", file);
    stage.stamps_are(1, CLOSED);
    stage.stamps_are(2, [ZERO, ZERO]);
    (file[33], file[34]) = (1, 0);
    stage.ask(34, "random write of record 1, by a move", file);
    stage.stamps_are(1, CLOSED);
    stage.stamps_are(2, [ZERO, [0xBC, 0x45, 0x99, 0x99]]);
}

/// Neither 23 nor 19 stamps; a deleted entry's stamps stay until it is made
/// anew.
fn renamed_deleted_and_made_again(stage: &mut Stage) {
    let mut both = fcb("WORDS.DAT");
    both[17..28].copy_from_slice(b"WORDS   BAK");
    stage.at(1, 0x00, 0x00);
    stage.ask(23, "rename to WORDS.BAK", &mut both);
    assert_eq!(stage.ask(17, "search", &mut fcb("WORDS.BAK")), (1, 0));
    stage.ask(19, "delete WORDS.BAK", &mut fcb("WORDS.BAK"));
    stage.stamps_are(1, CLOSED);
    stage.stamps_are(2, [ZERO, [0xBC, 0x45, 0x99, 0x99]]);
    stage.ask(22, "make NEW.DAT", &mut fcb("NEW.DAT"));
    stage.stamps_are(1, [[0x01, 0x00, 0x00, 0x00], ZERO]);
}

/// A dated disk with a label has 47 entries for files. Access stamps; the times
/// and the disks that are refused; and a disk without date entries.
#[test]
fn access_stamps_and_what_is_refused() {
    compare(
        |mut stage| {
            stage.make_dated(0x40);
            stage.at(65_535, 0x12, 0x34);
            stage.ask(13, "log in", &mut [0; 36]);
            for number in 0..47 {
                let (_, h) = stage.silently(22, &mut fcb(&format!("F{number}")));
                assert_eq!(h, 0);
            }
            stage.say("22 make F0 to F46: accepted");
            assert_eq!(stage.ask(22, "make F47", &mut fcb("F47")), (255, 0));
            stage.stamps_are(1, [ZERO, ZERO]);
            stage.ask(15, "open F0", &mut fcb("F0"));
            stage.stamps_are(1, OPENED);
            bad_times(&mut stage);
            bad_disks(&mut stage);
            stage.stamps_are(1, OPENED);
            stage.say("   all date entries become empty");
            for entry in (3..64).step_by(4) {
                stage.image[entry_place(entry)] = 0xE5;
            }
            stage.ask(15, "open F0", &mut fcb("F0"));
            stage.stamps_are(1, OPENED);
            stage.end()
        },
        include_str!("expected/access-and-refused.txt"),
    );
}

/// The stamps of F0 once it is opened.
const OPENED: [[u8; 4]; 2] = [[0xFF, 0xFF, 0x12, 0x34], ZERO];

/// A digit over 9 in each place of the time, in a call that stamps and in one
/// that does not.
fn bad_times(stage: &mut Stage) {
    for (hour, minute) in [(0x1A, 0x00), (0xA1, 0x00), (0x00, 0x1A), (0x00, 0xA1)] {
        stage.at(65_535, hour, minute);
        assert_eq!(stage.ask(15, "open F0", &mut fcb("F0")), (255, 4));
        assert_eq!(stage.ask(46, "space", &mut [0; 36]), (255, 4));
    }
    stage.at(2, 0x00, 0x00);
}

/// One byte of a label, a date entry or a file's entry that makes the disk not
/// consistent, put right after each call.
fn bad_disks(stage: &mut Stage) {
    for (at, byte, what) in [
        (entry_place(3) + 3, 0xA1, "an hour beside F0 becomes A1H"),
        (entry_place(63) + 28, 0x6A, "the last minute becomes 6AH"),
        (
            entry_place(0) + 26,
            0x0A,
            "an hour of the label becomes 0AH",
        ),
        (
            entry_place(0) + 31,
            0xF0,
            "the label's last byte becomes F0H",
        ),
        (entry_place(0) + 12, 0x51, "the label asks for create too"),
        (entry_place(63), 0xE5, "the last date entry becomes empty"),
        (entry_place(1), 0x20, "F0 becomes a label"),
        (entry_place(1), 0x21, "F0 becomes a date entry"),
    ] {
        let kept = std::mem::replace(&mut stage.image[at], byte);
        stage.say(&format!("   {what}"));
        assert_eq!(stage.ask(15, "open F1", &mut fcb("F1")), (255, 1));
        stage.image[at] = kept;
    }
}

/// The write protection: what it refuses, what it lets through, and that it is
/// a field by itself.
#[test]
fn write_protection() {
    compare(
        |mut stage| {
            stage.make_dated(0x60);
            stage.at(17_851, 0x06, 0x00);
            stage.ask(13, "log in", &mut [0; 36]);
            let mut file = fcb("WORDS.DAT");
            stage.ask(22, "make WORDS.DAT", &mut file);
            stage.buffer.fill(1);
            stage.repeat(129, 21, "write", &mut file);
            stage.ask(16, "close", &mut file);
            stage.protect();
            refused_while_protected(&mut stage);
            read_while_protected(&mut stage);
            pending_while_protected(&mut stage);
            searched_across(&mut stage);
            stage.end()
        },
        include_str!("expected/write-protection.txt"),
    );
}

/// Six calls are 255, 2 whatever they would do, but not before 255, 4 and
/// 255, 1.
fn refused_while_protected(stage: &mut Stage) {
    for (number, what) in [
        (16, "close"),
        (19, "delete"),
        (21, "write"),
        (22, "make"),
        (23, "rename"),
        (34, "random write"),
    ] {
        let mut file = fcb("WORDS.DAT");
        assert_eq!(stage.ask(number, what, &mut file), (255, 2));
        file[0] = 2;
        let refused = stage.ask(number, "with byte 0 of the FCB 2", &mut file);
        assert_eq!(refused, (255, 4));
        let note = std::mem::replace(&mut stage.map[2], 0);
        let refused = stage.ask(number, "with a wrong map", &mut fcb("NONE"));
        assert_eq!(refused, (255, 1));
        stage.map[2] = note;
    }
}

/// An open stamps nothing, and reads move where nothing is to be closed.
fn read_while_protected(stage: &mut Stage) {
    let stamps = [ZERO, [0xBB, 0x45, 0x06, 0x00]];
    let mut file = fcb("WORDS.DAT");
    stage.at(17_852, 0x12, 0x00);
    assert_eq!(stage.ask(15, "open, protected", &mut file), (1, 0));
    stage.stamps_are(1, stamps);
    file[32] = 127;
    stage.ask(20, "read record 127", &mut file);
    assert_eq!(
        stage.ask(20, "read record 128, by a move", &mut file),
        (0, 0)
    );
    file[33..].copy_from_slice(&[5, 0, 0]);
    let moved = stage.ask(33, "random read of record 5, by a move", &mut file);
    assert_eq!(moved, (0, 0));
    stage.lift();
    stage.ask(15, "open, lifted", &mut file);
    stage.stamps_are(1, [[0xBC, 0x45, 0x12, 0x00], stamps[1]]);
}

/// A block that is pending: a read that stays is no matter, one that moves would
/// record it, and one that fails anyway says why. 98 frees it.
fn pending_while_protected(stage: &mut Stage) {
    let mut file = fcb("WORDS.DAT");
    file[12] = 1;
    stage.ask(15, "open extent 1", &mut file);
    file[33..].copy_from_slice(&[136, 0, 0]);
    stage.ask(34, "random write of record 136", &mut file);
    stage.protect();
    stage.ask(33, "random read of record 136, which stays", &mut file);
    for (record, due) in [(5, (255, 2)), (255, (1, 0))] {
        file[33..].copy_from_slice(&[record, 0, 0]);
        let what = format!("random read of record {record}");
        assert_eq!(stage.ask(33, &what, &mut file), due);
    }
    file[34] = 1;
    let refused = stage.ask(33, "random read of record 511", &mut file);
    assert_eq!(refused, (4, 0));
    stage.space();
    stage.ask(98, "free blocks", &mut [0; 36]);
    stage.space();
}

/// A search goes on over both, and every byte but 0 is lifted and stays.
fn searched_across(stage: &mut Stage) {
    let mut pattern = [0x3F; 36];
    pattern[0] = 0;
    stage.ask(17, "search for anything", &mut pattern);
    stage.lift();
    stage.protect();
    stage.ask(18, "search for anything", &mut pattern);
    for byte in [2, 255] {
        stage.session.lifted = byte;
        stage.say(&format!("   the byte becomes {byte}"));
        stage.ask(22, "make WORDS.DAT", &mut fcb("WORDS.DAT"));
        stage.ask(15, "open", &mut fcb("WORDS.DAT"));
        assert_eq!(stage.session.lifted, byte);
    }
    stage.lift();
    assert_eq!(stage.session.lifted, 1);
}
