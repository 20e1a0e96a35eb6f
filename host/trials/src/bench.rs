//! The same job and calls for both implementations, to be measured.
//!
//! Every call looks at the whole directory and the map before it does
//! anything, so what a call costs depends on how full the directory is, and on
//! whether it has date entries.

use generator::picking::by_calls;
use reference::diskette::DIRECTORY_PLACES;
use std::hint::black_box;
use std::marker::PhantomData;
use std::time::{Duration, Instant};

/// One of the two, in types of its own, so that neither is charged for the
/// other's.
pub trait Side {
    /// Its session.
    type Session: Copy + Default;

    /// Makes a call; A and H come back.
    fn call(desk: &mut Desk<Self>, number: u8, argument: u8) -> (u8, u8)
    where
        Self: Sized;

    /// A session whose write protection is lifted.
    fn lift(session: Self::Session) -> Self::Session;

    /// The same with a search on.
    fn searching(pattern: [u8; 12]) -> Self::Session;

    /// Picks a word into the buffer, and gives the answer's number.
    fn pick(desk: &mut Desk<Self>, year: u16, day: u16) -> u8
    where
        Self: Sized;
}

/// The proved library.
pub struct Library;

/// The reference.
pub struct Reference;

/// The reference, with a picker that makes its calls.
pub struct ByCalls;

/// Writes a side down; the types of the two have the same fields.
macro_rules! side {
    ($side:ident, $of:ident, $call:path, $time:ident, $pick:expr) => {
        impl Side for $side {
            type Session = $of::Session;

            #[inline(always)]
            fn call(desk: &mut Desk<Self>, number: u8, argument: u8) -> (u8, u8) {
                let answer = $call(
                    $of::Asked {
                        number,
                        argument,
                        ..$of::Asked::default()
                    },
                    &mut desk.image,
                    &mut desk.map,
                    &mut desk.fcb,
                    &mut desk.buffer,
                    desk.session,
                );
                desk.session = answer.session;
                (answer.a, answer.h)
            }

            fn lift(session: $of::Session) -> $of::Session {
                $of::lift(session)
            }

            fn searching(pattern: [u8; 12]) -> $of::Session {
                $of::lift($of::Session {
                    pattern,
                    on: 1,
                    ..Default::default()
                })
            }

            fn pick(desk: &mut Desk<Self>, year: u16, day: u16) -> u8 {
                let wanted = $of::Wanted {
                    year,
                    day,
                    book: *BOOK,
                    log: *LOG,
                };
                let (image, map) = (&mut desk.image[..], &mut desk.map[..]);
                let time = $of::$time::default();
                let (number, session) =
                    $pick(wanted, time, image, map, &mut desk.buffer, desk.session);
                desk.session = session;
                number
            }
        }
    };
}

side!(
    Library,
    benzokamuri,
    benzokamuri::lend,
    PickedAt,
    |w, t, i, m, b, s| {
        let told = benzokamuri::pick(w, t, i, m, b, s);
        (told.number, told.session)
    }
);
side!(
    Reference,
    reference,
    reference::call,
    Time,
    |w, t, i, m, b, s| {
        let picked = reference::pick(w, t, i, m, b, s);
        (picked.pick.number(), picked.session)
    }
);
side!(
    ByCalls,
    reference,
    reference::call,
    Time,
    |w, t, i, m, b, s| {
        let picked = by_calls(&mut { reference::call }).pick(w, t, i, m, b, s);
        (picked.pick.number(), picked.session)
    }
);

/// What a directory holds.
#[derive(Clone, Copy, Debug, PartialEq, Eq)]
pub enum Fullness {
    /// Only the file that the job works on: 2 entries, 32 blocks.
    Empty,
    /// 32 entries, 122 blocks.
    Half,
    /// All 64 entries, all 241 blocks.
    Full,
    /// As `Empty`, and a label that asks for access and update stamps, with
    /// 16 date entries.
    Dated,
}

impl Fullness {
    /// All of them.
    pub const ALL: [Fullness; 4] = [
        Fullness::Empty,
        Fullness::Half,
        Fullness::Full,
        Fullness::Dated,
    ];

    /// Its name.
    pub const fn name(self) -> &'static str {
        match self {
            Fullness::Empty => "empty",
            Fullness::Half => "half",
            Fullness::Full => "full",
            Fullness::Dated => "dated",
        }
    }

    /// Other files than the job's, each of one entry, and how many blocks all
    /// of them have together.
    const fn others(self) -> (usize, usize) {
        match self {
            Fullness::Empty | Fullness::Dated => (0, 0),
            Fullness::Half => (30, 90),
            Fullness::Full => (62, 209),
        }
    }
}

/// The name of the job's file, and of one that is not there.
const NAME: &[u8; 11] = b"JOB     DAT";
const OTHER: &[u8; 11] = b"OTHER   DAT";

/// The picker's files.
const BOOK: &[u8; 11] = b"WORDS   DAT";
const LOG: &[u8; 11] = b"WORDS   LOG";

/// Records of the job's file: two extents.
const RECORDS: u32 = 256;

/// Reads and writes of the job.
const READS: usize = 1_000;
const WRITES: usize = 200;

/// What calls work on.
pub struct Desk<S: Side> {
    image: Vec<u8>,
    map: Vec<u16>,
    fcb: [u8; 36],
    buffer: [u8; 128],
    session: S::Session,
    side: PhantomData<S>,
}

/// Makes one call that is measured: instructions are counted in here alone.
#[inline(never)]
fn measured<S: Side>(desk: &mut Desk<S>, number: u8, argument: u8) -> (u8, u8) {
    S::call(desk, number, argument)
}

impl<S: Side> Desk<S> {
    /// A disk of some fullness, its write protection lifted. The job's file is
    /// the last of the files in the directory, and open.
    pub fn new(fullness: Fullness) -> Self {
        let mut desk = Desk {
            image: vec![0xE5; 256_256],
            map: vec![0; 243],
            fcb: [0; 36],
            buffer: [0; 128],
            session: S::lift(S::Session::default()),
            side: PhantomData,
        };
        if fullness == Fullness::Dated {
            desk.put_dates();
        }
        desk.must(13);
        let (files, blocks) = fullness.others();
        for file in 0..files {
            let share = blocks / files + usize::from(file < blocks % files);
            let mut name = *b"FILE    DAT";
            name[4] = b'A' + (file / 8) as u8;
            name[5] = b'A' + (file % 8) as u8;
            desk.write_file(&name, 8 * share);
        }
        desk.write_file(NAME, RECORDS as usize);
        desk.name(NAME);
        desk.must(15);
        desk
    }

    /// Makes an erased disk one with date entries, and with a label in entry 0.
    fn put_dates(&mut self) {
        for place in DIRECTORY_PLACES {
            self.image[place + 96..][..32].fill(0);
            self.image[place + 96] = 0x21;
        }
        let label = &mut self.image[DIRECTORY_PLACES[0]..][..32];
        label.fill(0);
        label[..12].copy_from_slice(b"\x20LABEL      ");
        label[12] = 0x61;
    }

    /// Makes a call that has to be accepted, to get ready.
    fn must(&mut self, number: u8) {
        let (a, h) = S::call(self, number, 0);
        assert!(h == 0 && a < 4, "call {number}: {a}, {h}");
    }

    fn name(&mut self, name: &[u8; 11]) {
        self.fcb = [0; 36];
        self.fcb[1..12].copy_from_slice(name);
    }

    fn write_file(&mut self, name: &[u8; 11], records: usize) {
        self.write_records(name, (0..records).map(|record| [record as u8; 128]));
    }

    fn write_records(&mut self, name: &[u8; 11], records: impl Iterator<Item = [u8; 128]>) {
        self.name(name);
        self.must(22);
        for record in records {
            self.buffer = record;
            self.must(21);
        }
        self.must(16);
    }

    /// The job: random reads and, every sixth time, a write.
    pub fn do_job(&mut self) {
        let mut drawn: u32 = 12_345;
        for turn in 0..READS + WRITES {
            drawn = drawn.wrapping_mul(1_103_515_245).wrapping_add(12_345);
            let record = (drawn >> 16) % RECORDS;
            self.fcb[33..].copy_from_slice(&record.to_le_bytes()[..3]);
            let number = if turn % 6 == 5 { 34 } else { 33 };
            let answer = measured(self, number, 0);
            assert_eq!(answer, (0, 0), "call {number}, record {record}");
        }
    }
}

/// What a case needs of the FCB and the session beside an open file.
#[derive(Clone, Copy)]
enum Ready {
    /// No more.
    Open,
    /// As before the open.
    Named,
    /// A name that is not there.
    OtherName,
    /// Both names.
    BothNames,
    /// cr.
    At(u8),
    /// The random record.
    Random(u8),
    /// A search for the file, from the first entry on.
    Searching,
}

/// A call to be measured by itself.
#[derive(Clone, Copy)]
pub struct Case {
    /// What it is called.
    pub name: &'static str,
    number: u8,
    ready: Ready,
}

const fn case(name: &'static str, number: u8, ready: Ready) -> Case {
    Case {
        name,
        number,
        ready,
    }
}

/// The calls, each by itself.
pub const CASES: [Case; 19] = [
    case("13 log in", 13, Ready::Open),
    case("15 open", 15, Ready::Named),
    case("16 close", 16, Ready::Open),
    case("17 search first", 17, Ready::Open),
    case("18 search next", 18, Ready::Searching),
    case("19 delete", 19, Ready::Open),
    case("20 read", 20, Ready::At(5)),
    case("21 write", 21, Ready::At(5)),
    case("22 make", 22, Ready::OtherName),
    case("23 rename", 23, Ready::BothNames),
    case("32 user", 32, Ready::Open),
    case("33 random read", 33, Ready::Random(77)),
    case("33 with a move", 33, Ready::Random(200)),
    case("34 random write", 34, Ready::Random(77)),
    case("34 with a move", 34, Ready::Random(200)),
    case("35 size", 35, Ready::Open),
    case("36 random record", 36, Ready::Open),
    case("46 space", 46, Ready::Open),
    case("98 free blocks", 98, Ready::Open),
];

/// The name of the job among the cases.
pub const JOB: &str = "1,000 reads, 200 writes";

/// The argument, which asks call 32 for the user.
const ARGUMENT: u8 = 255;

/// A desk with what it takes to make one call again and again.
pub struct Bench<S: Side> {
    desk: Desk<S>,
    case: Case,
    fcb: [u8; 36],
    session: S::Session,
    directory: Vec<[u8; 128]>,
    map: Vec<u16>,
}

impl<S: Side> Bench<S> {
    /// Makes a call ready.
    pub fn new(fullness: Fullness, case: Case) -> Self {
        let mut desk = Desk::<S>::new(fullness);
        match case.ready {
            Ready::Open => {}
            Ready::Named => desk.name(NAME),
            Ready::OtherName => desk.name(OTHER),
            Ready::BothNames => desk.fcb[17..28].copy_from_slice(OTHER),
            Ready::At(cr) => desk.fcb[32] = cr,
            Ready::Random(record) => desk.fcb[33] = record,
            Ready::Searching => {
                desk.session = S::searching(std::array::from_fn(|i| desk.fcb[1 + i]));
            }
        }
        let sector = |&place: &usize| std::array::from_fn(|i| desk.image[place + i]);
        Bench {
            fcb: desk.fcb,
            session: desk.session,
            directory: DIRECTORY_PLACES.iter().map(sector).collect(),
            map: desk.map.clone(),
            desk,
            case,
        }
    }

    /// Puts everything back to where the call begins.
    #[inline(never)]
    fn put_back(&mut self) {
        self.desk.fcb = self.fcb;
        self.desk.session = self.session;
        // Only these change a directory that nothing is pending for: the time
        // is zero, and so are the stamps.
        if matches!(self.case.number, 19 | 22 | 23) {
            for (&place, sector) in DIRECTORY_PLACES.iter().zip(&self.directory) {
                self.desk.image[place..][..128].copy_from_slice(sector);
            }
            self.desk.map.copy_from_slice(&self.map);
        }
    }

    /// Makes the call once.
    pub fn once(&mut self) -> (u8, u8) {
        self.put_back();
        black_box(measured(
            &mut self.desk,
            black_box(self.case.number),
            ARGUMENT,
        ))
    }
}

/// A run of the picker to be measured.
#[derive(Clone, Copy)]
pub struct Picking {
    /// What it is called.
    pub name: &'static str,
    /// Records of the log.
    records: u16,
    /// The year that is wanted; record n of the log has year 1,000 + n.
    year: u16,
    /// What it has to answer.
    number: u8,
}

/// The day of all of them.
const PICKED_DAY: u16 = 297;

/// The runs of the picker.
pub const PICKINGS: [Picking; 3] = [
    Picking {
        name: "a full log of 1,024 records, the day in none",
        records: 1_024,
        year: 9_999,
        number: 7,
    },
    Picking {
        name: "the day in the last record of 1,024",
        records: 1_024,
        year: 1_000 + 1_023,
        number: 1,
    },
    Picking {
        name: "the day logged, after 300 records",
        records: 300,
        year: 9_999,
        number: 0,
    },
];

/// A desk with what it takes to pick a word again and again.
pub struct PickBench<S: Side> {
    desk: Desk<S>,
    picking: Picking,
    directory: Vec<[u8; 128]>,
    map: Vec<u16>,
}

/// Makes one run that is measured.
#[inline(never)]
fn measured_pick<S: Side>(desk: &mut Desk<S>, year: u16) -> u8 {
    S::pick(desk, year, PICKED_DAY)
}

impl<S: Side> PickBench<S> {
    /// A disk with a book of 366 records and the log, on a session that is
    /// protected, and the job's file beside them.
    pub fn new(picking: Picking) -> Self {
        let mut desk = Desk::<S>::new(Fullness::Empty);
        desk.write_file(BOOK, 366);
        let day = |record: u16| {
            let mut bytes = [0x1A; 128];
            let text = format!("{:05} {PICKED_DAY:03}\r\n", 1_000 + record);
            bytes[..11].copy_from_slice(text.as_bytes());
            bytes
        };
        desk.write_records(LOG, (0..picking.records).map(day));
        desk.session = S::Session::default();
        let sector = |&place: &usize| std::array::from_fn(|i| desk.image[place + i]);
        PickBench {
            directory: DIRECTORY_PLACES.iter().map(sector).collect(),
            map: desk.map.clone(),
            desk,
            picking,
        }
    }

    /// Puts the directory and the map back to where the run begins.
    #[inline(never)]
    fn put_back(&mut self) {
        for (&place, sector) in DIRECTORY_PLACES.iter().zip(&self.directory) {
            self.desk.image[place..][..128].copy_from_slice(sector);
        }
        self.desk.map.copy_from_slice(&self.map);
    }

    /// Picks once, which has to be answered as it is due.
    pub fn once(&mut self) {
        self.put_back();
        let number = black_box(measured_pick(&mut self.desk, black_box(self.picking.year)));
        assert_eq!(number, self.picking.number, "{}", self.picking.name);
    }
}

/// Nanoseconds of a run of the picker: the library, the reference by its calls,
/// and the reference.
pub fn time_picking(picking: Picking) -> [f64; 3] {
    let [library, by_calls] = time_two::<Library, ByCalls>(picking);
    let [_, reference] = time_two::<Library, Reference>(picking);
    [library, by_calls, reference]
}

fn time_two<A: Side, B: Side>(picking: Picking) -> [f64; 2] {
    best_of(|| {
        let (mut one, mut other) = (PickBench::<A>::new(picking), PickBench::<B>::new(picking));
        let with = quickest([&mut || one.once(), &mut || other.once()], 5);
        let without = quickest([&mut || one.put_back(), &mut || other.put_back()], BATCH);
        [0, 1].map(|side| (with[side] - without[side]).max(0.0))
    })
}

/// How often each thing is measured anew, and how long on each side. Where
/// buffers happen to lie matters, so each time they lie elsewhere.
const ATTEMPTS: usize = 4;
const SPAN: Duration = Duration::from_millis(50);

/// Calls between two looks at the clock.
const BATCH: u32 = 500;

/// Nanoseconds for one go, the quickest batch of each, taken in turn.
fn quickest(mut goes: [&mut dyn FnMut(); 2], batch: u32) -> [f64; 2] {
    let mut best = [f64::INFINITY; 2];
    let until = Instant::now() + 2 * SPAN;
    while Instant::now() < until {
        for (go, best) in goes.iter_mut().zip(&mut best) {
            let start = Instant::now();
            for _ in 0..batch {
                go();
            }
            *best = best.min(start.elapsed().as_nanos() as f64 / f64::from(batch));
        }
    }
    best
}

/// The best of several attempts, each with buffers of its own.
fn best_of(mut attempt: impl FnMut() -> [f64; 2]) -> [f64; 2] {
    let mut in_between = Vec::new();
    let mut best = [f64::INFINITY; 2];
    for number in 0..ATTEMPTS {
        in_between.push(vec![1_u8; 5_000 * number + 96]);
        for (best, took) in best.iter_mut().zip(attempt()) {
            *best = best.min(took);
        }
    }
    best
}

/// What both sides take.
pub struct Measured {
    /// Library and reference, in nanoseconds or instructions.
    pub took: [f64; 2],
    /// Whether the call was refused.
    pub refused: bool,
}

/// Nanoseconds of a call by itself. What puts things back is taken off.
pub fn time_case(fullness: Fullness, case: Case) -> Measured {
    let answer = Bench::<Library>::new(fullness, case).once();
    let took = best_of(|| {
        let mut library = Bench::<Library>::new(fullness, case);
        let mut reference = Bench::<Reference>::new(fullness, case);
        let with = quickest(
            [&mut || assert_eq!(library.once(), answer), &mut || {
                assert_eq!(reference.once(), answer)
            }],
            BATCH,
        );
        let without = quickest(
            [&mut || library.put_back(), &mut || reference.put_back()],
            BATCH,
        );
        [0, 1].map(|side| (with[side] - without[side]).max(0.0))
    });
    Measured {
        took,
        refused: answer.0 == 255,
    }
}

/// Nanoseconds of the job.
pub fn time_job(fullness: Fullness) -> Measured {
    let took = best_of(|| {
        let mut library = Desk::<Library>::new(fullness);
        let mut reference = Desk::<Reference>::new(fullness);
        let took = quickest([&mut || library.do_job(), &mut || reference.do_job()], 1);
        assert!(library.image == reference.image && library.map == reference.map);
        took
    });
    Measured {
        took,
        refused: false,
    }
}

#[cfg(test)]
mod tests {
    use super::*;

    #[test]
    fn disks_are_as_full_as_they_are_said_to_be() {
        for (fullness, entries, blocks) in [
            (Fullness::Empty, 2, 32),
            (Fullness::Half, 32, 122),
            (Fullness::Full, 64, 241),
            (Fullness::Dated, 2 + 1 + 16, 32),
        ] {
            let desk = Desk::<Reference>::new(fullness);
            let used = DIRECTORY_PLACES
                .iter()
                .flat_map(|&place| (0..4).map(move |i| place + 32 * i))
                .filter(|&place| desk.image[place] != 0xE5);
            assert_eq!(used.count(), entries);
            assert_eq!(desk.map.iter().filter(|&&note| note == 2).count(), blocks);
        }
    }

    #[test]
    fn every_case_is_answered_alike_and_again_the_same() {
        for fullness in Fullness::ALL {
            for case in CASES {
                let mut library = Bench::<Library>::new(fullness, case);
                let mut reference = Bench::<Reference>::new(fullness, case);
                let answer = library.once();
                for _ in 0..3 {
                    assert_eq!(library.once(), answer, "{}", case.name);
                    assert_eq!(reference.once(), answer, "{}", case.name);
                }
                let refused = case.number == 22 && fullness == Fullness::Full;
                assert_eq!(answer.0 == 255, refused, "{}: {answer:?}", case.name);
            }
        }
    }

    #[test]
    fn every_run_of_the_picker_is_answered_as_it_is_due() {
        for picking in PICKINGS {
            let mut library = PickBench::<Library>::new(picking);
            let mut reference = PickBench::<Reference>::new(picking);
            let mut by_calls = PickBench::<ByCalls>::new(picking);
            for _ in 0..2 {
                library.once();
                reference.once();
                by_calls.once();
                assert!(library.desk.image == reference.desk.image);
                assert!(library.desk.image == by_calls.desk.image);
                assert!(library.desk.map == reference.desk.map);
                assert!(library.desk.buffer == reference.desk.buffer);
            }
        }
    }

    #[test]
    fn the_job_is_done_alike() {
        for fullness in Fullness::ALL {
            let mut library = Desk::<Library>::new(fullness);
            let mut reference = Desk::<Reference>::new(fullness);
            library.do_job();
            reference.do_job();
            assert!(library.image == reference.image);
            assert!(library.fcb == reference.fcb);
        }
    }
}
