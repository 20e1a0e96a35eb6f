//! `demo`: a stamped file, the double job, and the night the clocks go back, step
//! by step.

use super::colours;
use super::ls::shown;
use super::pick::{BOOK, LOG};
use crate::dates::{put_dates, put_label, Label};
use crate::files;
use crate::layout::Stamp;
use crate::looking::Looking;
use crate::picture::Picture;
use crate::trouble::{Doing, Trouble};
use crate::words::{Shape, Words};
use crate::{Desk, Verb};
use benzokamuri::{BadTime, Call, Code, Disk, Fcb, Name, Pick, Picked, Time, BUFFER_LEN};
use std::io::Write;

pub const VERB: Verb = Verb {
    name: "demo",
    purpose: "Show a stamped file, one file through two FCBs, and one word picked twice.",
    usage: "[-u USER] [--colour WHEN]",
    help: "\
All are shown on empty disks, in memory alone. These begin write-protected; a
line says where the protection is lifted.

The stamped file's disk has date entries, and a label that asks for create and
update stamps; each step shows its call, the time that it is handed, the code,
and the file's stamps afterwards, as call 17 gives them. These times are always
the same, whatever --time says.

In the double job a file is made and opened once more, and both FCBs write its
first record. Each gets a block of its own. The first to close keeps its block;
the second is no longer current, and the block that it took stays pending until
call 98 frees it. Each step shows its call, the code, and the map afterwards.

In the night the clocks go back a job that is set for 02:30 is started twice,
and picks the word of the day both times. Each run shows its answer, the word,
and the log afterwards, which has the day once.

  --colour WHEN   always, never, or auto: where standard output is a terminal",
    shape: Shape {
        flags: &[],
        valued: &["--colour", "--color"],
    },
    run,
};

/// The two FCBs of the job.
#[derive(Clone, Copy)]
enum Which {
    None,
    First,
    Second,
}

/// A step: the call, the FCB it is lent, what must come out, and why.
struct Step {
    /// Whether the write protection is lifted before it.
    lifts: bool,
    call: Call,
    fcb: Which,
    /// A and H.
    due: (u8, u8),
    /// Records free, for call 46.
    free: Option<u32>,
    says: &'static str,
}

const fn step(call: Call, fcb: Which, due: (u8, u8), says: &'static str) -> Step {
    Step {
        lifts: false,
        call,
        fcb,
        due,
        free: None,
        says,
    }
}

const fn space(records: u32, says: &'static str) -> Step {
    Step {
        free: Some(records),
        ..step(Call::Space, Which::None, (0, 0), says)
    }
}

const STEPS: [Step; 12] = [
    step(
        Call::LogIn,
        Which::None,
        (0, 0),
        "the map is made from the directory, which is empty",
    ),
    space(1_928, "all 241 blocks behind the directory are free"),
    Step {
        lifts: true,
        ..step(
            Call::Make,
            Which::First,
            (0, 0),
            "JOB.DAT is there, without blocks yet",
        )
    },
    step(
        Call::Open,
        Which::Second,
        (0, 0),
        "the second FCB is the same file's",
    ),
    step(
        Call::WriteNext,
        Which::First,
        (0, 0),
        "record 0 goes to block 2, pending until a close",
    ),
    step(
        Call::WriteNext,
        Which::Second,
        (0, 0),
        "the second FCB knows nothing of block 2, and takes block 3",
    ),
    step(
        Call::Close,
        Which::First,
        (0, 0),
        "the entry lists block 2 now",
    ),
    step(
        Call::Close,
        Which::Second,
        (255, 0),
        "the extent gained a block that the second FCB does not have",
    ),
    step(
        Call::WriteNext,
        Which::Second,
        (9, 0),
        "nor can it write any more",
    ),
    space(1_912, "block 3 is still held: two blocks are not free"),
    step(
        Call::FreeBlocks,
        Which::None,
        (0, 0),
        "what is pending is free again",
    ),
    space(1_920, "the file's one block is all that is taken"),
];

/// A step of the stamped file: the call, when it is made, the stamps that must
/// come out, and why.
struct Stamping {
    call: Call,
    at: &'static str,
    stamps: [&'static str; 2],
    says: &'static str,
}

const STAMPINGS: [Stamping; 4] = [
    Stamping {
        call: Call::Make,
        at: "2026-11-15 06:00",
        stamps: ["2026-11-15 06:00", "-"],
        says: "the label asks for a create stamp",
    },
    Stamping {
        call: Call::WriteNext,
        at: "2026-11-15 06:10",
        stamps: ["2026-11-15 06:00", "-"],
        says: "the entry is as it was: its block is pending",
    },
    Stamping {
        call: Call::Close,
        at: "2026-11-15 06:20",
        stamps: ["2026-11-15 06:00", "2026-11-15 06:20"],
        says: "the entry lists the block now, so it gets an update stamp",
    },
    Stamping {
        call: Call::Close,
        at: "2026-11-15 06:30",
        stamps: ["2026-11-15 06:00", "2026-11-15 06:20"],
        says: "another close changes nothing, and stamps nothing",
    },
];

/// The moment that comes twice in that night, and its day counted from 0.
const TWICE: &str = "2026-10-25 02:30";
const DAY: (u16, u16) = (2026, 297);

/// The runs of the job, and what each must answer.
const NIGHT: [(&str, Pick); 2] = [("summer time", Pick::Logged), ("winter time", Pick::Again)];

fn run(words: Words, desk: &mut Desk) -> Result<(), Trouble> {
    words.end()?;
    let colours = colours(&words, desk)?;
    stamped_file(words.user(), desk)?;
    double_job(words.user(), colours, desk)?;
    clocks_go_back(words.user(), desk)
}

/// A disk with date entries and a label, in memory alone.
fn dated_disk(user: u8) -> Result<Disk, Trouble> {
    let mut image = Box::new(*Disk::erased().image());
    put_dates(&mut image);
    put_label(
        &mut image,
        &Label {
            name: super::named("DEMO".as_ref())?,
            asks: vec![Stamp::Create, Stamp::Update],
            time: handed_in(STAMPINGS[0].at)?,
        },
    );
    let disk = Disk::new(image.to_vec());
    let mut disk = disk.map_err(|no_disk| Trouble::failed(no_disk.to_string()))?;
    disk.set_user(user).doing("call 32")?;
    Ok(disk)
}

fn handed_in(time: &str) -> Result<Time, Trouble> {
    time.parse()
        .map_err(|bad: BadTime| Trouble::failed(bad.to_string()))
}

/// Lifts the write protection that every disk begins with, and says so.
fn lift(disk: &mut Disk, desk: &mut Desk) -> Result<(), Trouble> {
    desk.lift(disk);
    writeln!(
        desk.out,
        "    The write protection is lifted: from here on calls may change the disk.\n"
    )?;
    Ok(())
}

fn stamped_file(user: u8, desk: &mut Desk) -> Result<(), Trouble> {
    let name: Name = super::named("DATED.DAT".as_ref())?;
    let mut disk = dated_disk(user)?;
    let mut fcb = Fcb::named(name);
    writeln!(
        desk.out,
        "A stamped file: a disk with date entries, whose label asks for create and update.\n"
    )?;
    lift(&mut disk, desk)?;
    for (step, letter) in STAMPINGS.iter().zip('a'..) {
        disk.set_time(handed_in(step.at)?);
        let a = disk.call(step.call, &mut fcb).doing(step.call)?;
        let found = disk.search_first(&mut Fcb::named(name));
        let stamps = shown(found.doing("call 17")?.stamps);
        let [first, update] = &stamps;
        writeln!(
            desk.out,
            " {letter}. call {} at {}: {a}, 0\n    create {first}, update {update}\n    {}\n",
            step.call, step.at, step.says
        )?;
        if stamps != step.stamps {
            let wrong = format!("step {letter} of the stamped file came out wrong");
            return Err(Trouble::failed(wrong));
        }
    }
    Ok(())
}

fn double_job(user: u8, colours: bool, desk: &mut Desk) -> Result<(), Trouble> {
    let name: Name = super::named("JOB.DAT".as_ref())?;
    let mut disk = Disk::erased();
    disk.set_user(user).doing("call 32")?;
    let (mut first, mut second) = (Fcb::named(name), Fcb::named(name));
    writeln!(
        desk.out,
        "The double job: one file, written through two FCBs.\n"
    )?;
    for (number, step) in STEPS.iter().enumerate() {
        if step.lifts {
            lift(&mut disk, desk)?;
        }
        let (fcb, with) = match step.fcb {
            Which::None => (&mut Fcb::ZERO.clone(), ""),
            Which::First => (&mut first, ", first FCB"),
            Which::Second => (&mut second, ", second FCB"),
        };
        disk.buffer
            .fill(b'1' + u8::from(matches!(step.fcb, Which::Second)));
        let answered = disk.call(step.call, fcb);
        let (a, h) = answered.map_or_else(Code::numbers, |a| (a, 0));
        let number = number + 1;
        let why = answered.map_or_else(|code| format!(": {code}"), |_| String::new());
        let call = step.call;
        write!(desk.out, "{number:>2}. call {call}{with}: {a}, {h}{why}")?;
        let told = [disk.buffer[0], disk.buffer[1], disk.buffer[2], 0];
        let told = step.free.map(|due| (u32::from_le_bytes(told), due));
        if let Some((free, _)) = told {
            write!(desk.out, ": {free} records are free")?;
        }
        let picture = Picture::of(Looking::at(disk.clone())).doing("the picture")?;
        writeln!(desk.out, "\n    {}\n\n{}", step.says, picture.text(colours))?;
        if (a, h) != step.due || told.is_some_and(|(free, due)| free != due) {
            let wrong = format!("step {number} of the double job came out wrong");
            return Err(Trouble::failed(wrong));
        }
    }
    Ok(())
}

/// A book with a word for each day of a leap year.
fn words_of_a_year() -> Vec<u8> {
    let record = |day: usize| {
        let mut word = format!("the word of day {day}").into_bytes();
        word.resize(BUFFER_LEN, files::FILLING);
        word
    };
    (0..366).flat_map(record).collect()
}

fn clocks_go_back(user: u8, desk: &mut Desk) -> Result<(), Trouble> {
    let [book, log] = [BOOK, LOG].map(|name| super::named::<Name>(name.as_ref()));
    let (book, log) = (book?, log?);
    let mut disk = Disk::erased();
    disk.set_user(user).doing("call 32")?;
    disk.set_time(handed_in(TWICE)?);
    writeln!(
        desk.out,
        "The night the clocks go back: a job that is set for 02:30 is started twice.\n"
    )?;
    lift(&mut disk, desk)?;
    files::write(&mut disk, book, &words_of_a_year()).doing(book)?;
    disk.protect();
    writeln!(
        desk.out,
        "    {book} is written, a word a day, and the protection is set again: the picker\n    lifts it for its log alone.\n"
    )?;
    for ((clock, due), number) in NIGHT.into_iter().zip(1..) {
        let before = disk.image().to_vec();
        let picked = disk.pick(DAY.0, DAY.1, book, log);
        let changed = disk.image()[..] != before[..];
        shown_run(number, clock, &picked, desk)?;
        let logged = shown_log(&disk, user, log)?;
        let bytes = if changed {
            ""
        } else {
            "; no byte of the disk has changed"
        };
        writeln!(desk.out, "    {log}: {logged}{bytes}\n")?;
        if picked.answer != due || changed != (due == Pick::Logged) {
            let wrong = format!("run {number} of the job came out wrong");
            return Err(Trouble::failed(wrong));
        }
    }
    Ok(())
}

/// Prints what a run of the picker came to.
fn shown_run(number: u8, clock: &str, picked: &Picked, desk: &mut Desk) -> Result<(), Trouble> {
    let Picked { answer, word } = picked;
    let told = answer.number();
    let word = word.as_ref().map_or(&[][..], |word| files::text(word));
    let word = String::from_utf8_lossy(word);
    writeln!(
        desk.out,
        " {number}. pick at {TWICE}, {clock}: {told}: {answer}\n    {word}"
    )?;
    Ok(())
}

/// The records of a log, each by its nine bytes.
fn shown_log(disk: &Disk, user: u8, log: Name) -> Result<String, Trouble> {
    let mut disk = Looking::at(disk.clone());
    let found = files::matching(&mut disk, user, log.into()).doing(log)?;
    let mut records = Vec::new();
    for file in &found {
        let contents = files::read(&mut disk, file).doing(log)?;
        let days = contents.bytes.chunks(BUFFER_LEN);
        records.extend(days.map(|day| String::from_utf8_lossy(&day[..9]).into_owned()));
    }
    let count = match records.len() {
        1 => "1 record".to_string(),
        count => format!("{count} records"),
    };
    Ok(format!("{count}, {}", records.join(", ")))
}
