//! `pick`: the word of a day, and the day into the log.

use super::{held, named, time};
use crate::files::text;
use crate::looking::Looking;
use crate::store::ImageFile;
use crate::trouble::Trouble;
use crate::words::{Shape, Words};
use crate::{Desk, Verb};
use benzokamuri::{Buffer, Name, Pick, Picked, Time};
use std::io::Write;

pub const VERB: Verb = Verb {
    name: "pick",
    purpose: "Pick the word of a day from a book, and log the day once.",
    usage: "[-u USER] [--time TIME] [--year YEAR --day DAY] [--book NAME] [--log NAME] [--raw] [-q] IMAGE",
    help: "\
The book is a file of records of 128 bytes, one a day; record 0 is 1 January.
The day's record is printed on standard output, and the day is written into the
log, unless the log has it. So a job may be started as often as one likes: the
word of a day is the same, and the log has the day once.

The word is printed up to its first 1AH, with a new line behind it where it has
none. It is printed wherever it can be read, also where the day can't be logged,
and after the image was saved. Only a name that is none, be it the log's, is
refused before the book is looked at. What was done, or what is wrong and what
to do, is said on standard error. Exit status: 0 where the day is in the log; 1
where it is not, also where the word was printed, or where the word could not be
printed; 2 wrong usage.

No access stamp is left, and where the log had the day nothing is saved.

  -u USER       whose book and log; 0 where it is left out
  --time TIME   the time of the stamps, and the day that is picked unless --year
                and --day say another, as \"2026-11-15 06:00\"; the clock's where
                it is left out, as it was when the program was started
  --year YEAR   0 to 65535, together with --day
  --day DAY     0 to 365, counted from 0: 1 January is day 0
  --book NAME   the book; WORDS.DAT where it is left out
  --log NAME    the log; WORDS.LOG where it is left out
  --raw         print all 128 bytes as they are
  -q            say only what is wrong, so nothing where all went well",
    shape: Shape {
        flags: &["--raw", "-q"],
        valued: &["--year", "--day", "--book", "--log"],
    },
    run,
};

/// The files, where none are named.
pub const BOOK: &str = "WORDS.DAT";
pub const LOG: &str = "WORDS.LOG";

fn run(mut words: Words, desk: &mut Desk) -> Result<(), Trouble> {
    let given = given_day(&words)?;
    let files = files(&words)?;
    let path = words.next("the image")?;
    words.end()?;
    desk.quiet = words.has("-q");
    // Before the image is waited for: the day is the one at which the job began.
    let (time, wanted) = moment(given, &words, desk)?;
    let (image, held) = held(&path)?;
    let (disk, picked) = log_in(&image, &words, time)?.picked(wanted, files);
    let saved = image.save(&held, &disk, None, desk);
    // Whatever became of the image: there is a word, and somebody waits for it.
    let printed = match &picked.word {
        Some(word) => print(word, words.has("--raw"), desk),
        None => Ok(()),
    };
    let doing = format!("{}: year {}, day {}", image.name(), wanted.0, wanted.1);
    let done = match saved {
        Ok(()) => tell(&doing, &picked, desk),
        Err(trouble) => {
            let wrong = format!("{doing}: the day could not be logged: {trouble}");
            Err(Trouble::failed(wrong))
        }
    };
    if let (Err(_), Err(unprinted)) = (&done, &printed) {
        desk.remark(format_args!("{unprinted}"));
    }
    done.and(printed)
}

/// Book and log.
fn files(words: &Words) -> Result<[Name; 2], Trouble> {
    let file = |option: &str, usual: &str| {
        let word = words.value(option).unwrap_or(usual.as_ref());
        named::<Name>(word)
    };
    Ok([file("--book", BOOK)?, file("--log", LOG)?])
}

/// Logs in; where that is refused, what to do is said too.
fn log_in(image: &ImageFile, words: &Words, time: Time) -> Result<Looking, Trouble> {
    image.log_in(words.user(), time).map_err(|trouble| {
        let remedy = match &trouble {
            Trouble::Refused { code, .. } => Pick::Other(*code).remedy(),
            _ => return trouble,
        };
        Trouble::failed(format!("{trouble} {remedy}"))
    })
}

/// Says what was done, or what is wrong and what to do.
fn tell(doing: &str, picked: &Picked, desk: &mut Desk) -> Result<(), Trouble> {
    let answer = picked.answer;
    if !answer.is_done() {
        let wrong = format!("{doing}: {answer} {}", answer.remedy());
        return Err(Trouble::failed(wrong));
    }
    desk.tell_done(format_args!("{doing}: {answer}"));
    Ok(())
}

/// Prints a word: a text up to its first 1AH, as a line, or all of it.
fn print(word: &Buffer, raw: bool, desk: &mut Desk) -> Result<(), Trouble> {
    let text = text(word);
    match raw {
        true => desk.out.write_all(word)?,
        false => desk.out.write_all(text)?,
    }
    if !raw && text.last() != Some(&b'\n') {
        desk.out.write_all(b"\n")?;
    }
    Ok(desk.out.flush()?)
}

/// Year and day that the command line has, if it has them.
fn given_day(words: &Words) -> Result<Option<(u16, u16)>, Trouble> {
    match (
        number(words, "--year", 65_535)?,
        number(words, "--day", 365)?,
    ) {
        (Some(year), Some(day)) => Ok(Some((year, day))),
        (None, None) => Ok(None),
        _ => Err(Trouble::usage("--year and --day go together")),
    }
}

/// The number that is an option's value. One over the last that has a meaning is
/// the picker's to refuse, where it can be handed over.
fn number(words: &Words, option: &str, last: u16) -> Result<Option<u16>, Trouble> {
    let read = |text: &str| {
        let digits = !text.is_empty() && text.bytes().all(|byte| byte.is_ascii_digit());
        let number = digits.then(|| text.parse().ok()).flatten();
        number.ok_or_else(|| {
            Trouble::usage(format!("{option} is a number from 0 to {last}, not {text}"))
        })
    };
    words.text(option)?.map(read).transpose()
}

/// The time, and the year and day that are wanted: those of the command line, or
/// the time's own. A clock that tells no day is trouble only where it has to.
fn moment(
    given: Option<(u16, u16)>,
    words: &Words,
    desk: &mut Desk,
) -> Result<(Time, (u16, u16)), Trouble> {
    if let Some(wanted) = given {
        return Ok((time(words, desk), wanted));
    }
    const SAY: &str = "which day it is has to be said, by --year and --day";
    let now = words.given_time().map_or_else(|| (desk.clock)(), Ok);
    let wrong = |bad| Trouble::failed(format!("the clock is wrong, so {SAY}: {bad}"));
    let now = now.map_err(wrong)?;
    let date = now.date().ok_or_else(|| Trouble::failed(SAY))?;
    Ok((now, (date.year, date.day_of_year())))
}
