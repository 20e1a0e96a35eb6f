//! The program `benzokamuri`: files on diskette images of CP/M, by the proved
//! calls.
//!
//! A verb reads the image file, makes calls of [`benzokamuri`] on the copy in
//! memory, and saves that copy at the end if all went well. Files are found,
//! read and changed by calls alone, on a disk that is write-protected while it
//! is looked at ([`looking`]), until a verb that changes it is about to
//! ([`Desk::lifts`]). What is done beside the calls: `new` makes an image, short
//! images are filled up and blank stamps made zeros as they are read ([`store`]),
//! and `check`, `free`, `map` and `call` show what no call tells of ([`layout`]).

#![forbid(unsafe_code)]
#![warn(missing_docs)]

pub mod changes;
pub mod check;
pub mod dates;
pub mod files;
mod help;
mod hex;
pub mod layout;
pub mod looking;
pub mod picture;
pub mod saving;
mod state;
pub mod store;
pub mod trouble;
mod verbs;
mod words;

use benzokamuri::{BadTime, Disk, Time};
use std::ffi::OsString;
use std::fmt;
use std::io::{self, ErrorKind, Write};
use trouble::Trouble;
use words::{Shape, Words};

/// Where a verb prints, and the clock that it looks at.
pub struct Desk<'a> {
    /// What was asked for.
    pub out: Heard<'a>,
    /// What went wrong, and what is worth a remark.
    pub err: &'a mut dyn Write,
    /// Whether `out` shows colours.
    pub colours: bool,
    /// Whether only what is wrong is said, and not what was done.
    pub quiet: bool,
    /// Says what time it is, where the command line does not.
    pub clock: fn() -> Result<Time, BadTime>,
    /// How often the write protection of a disk was lifted. A verb that only
    /// looks never does.
    pub lifts: usize,
}

impl<'a> Desk<'a> {
    /// A desk without colours, with the system's clock.
    pub fn new(out: &'a mut dyn Write, err: &'a mut dyn Write) -> Desk<'a> {
        Desk {
            out: Heard {
                out,
                nowhere: false,
                lost: false,
            },
            err,
            colours: false,
            quiet: false,
            clock: Time::now,
            lifts: 0,
        }
    }

    /// Lifts the write protection of a disk that is about to be changed. There
    /// is no other way to that in the program, so that it can be counted.
    fn lift(&mut self, disk: &mut Disk) {
        self.lifts += 1;
        disk.lift();
    }

    /// Says what was done, unless that is not to be said.
    fn tell_done(&mut self, what: fmt::Arguments) {
        if !self.quiet {
            self.remark(what);
        }
    }

    /// Says what is worth a remark. That nobody reads it is no reason to stop.
    fn remark(&mut self, what: fmt::Arguments) {
        let _ = writeln!(self.err, "benzokamuri: {what}");
    }
}

/// What may lose its reader, as before `head`. The rest is then dropped, and
/// the verb comes to the end that it would have come to, unless it asks.
pub struct Heard<'a> {
    out: &'a mut dyn Write,
    /// Whether nobody gets what is printed, from the start.
    pub nowhere: bool,
    lost: bool,
}

impl Heard<'_> {
    /// Whether something that was printed, and flushed, reached nobody.
    fn is_lost(&self) -> bool {
        self.lost
    }

    fn unless_lost<T>(&mut self, printed: io::Result<T>, instead: T) -> io::Result<T> {
        match printed {
            Err(error) if error.kind() == ErrorKind::BrokenPipe => {
                self.lost = true;
                Ok(instead)
            }
            printed => printed,
        }
    }
}

impl Write for Heard<'_> {
    fn write(&mut self, bytes: &[u8]) -> io::Result<usize> {
        self.lost |= self.nowhere;
        if self.lost {
            return Ok(bytes.len());
        }
        let printed = self.out.write(bytes);
        self.unless_lost(printed, bytes.len())
    }

    fn flush(&mut self) -> io::Result<()> {
        if self.lost {
            return Ok(());
        }
        let flushed = self.out.flush();
        self.unless_lost(flushed, ())
    }
}

/// A verb of the program.
struct Verb {
    name: &'static str,
    /// What it is for, in a line.
    purpose: &'static str,
    /// What stands behind it on the command line.
    usage: &'static str,
    /// Everything else worth knowing.
    help: &'static str,
    shape: Shape,
    run: fn(Words, &mut Desk) -> Result<(), Trouble>,
}

/// Runs a command line, without the program's own name, and gives the exit
/// status.
pub fn run(words: &[OsString], desk: &mut Desk) -> u8 {
    let mut verb = None;
    let done = obey(words, &mut verb, desk).and_then(|()| Ok(desk.out.flush()?));
    let Err(trouble) = done else {
        return trouble::DONE;
    };
    // Nobody is left to be told where this fails.
    let _ = desk.out.flush();
    desk.remark(format_args!("{trouble}"));
    if let Trouble::Usage(_) = trouble {
        let _ = writeln!(desk.err, "{}", help::hint(verb));
    }
    trouble.status()
}

/// The words before the verb, and those from it on.
fn split_before_verb(words: &[OsString]) -> Result<(Words, &[OsString]), Trouble> {
    let shape = Shape {
        flags: &["--version"],
        valued: &[],
    };
    let is_option = |word: &OsString| word.to_str().is_some_and(|text| text.starts_with('-'));
    let mut at = 0;
    while words.get(at).is_some_and(is_option) {
        let has_value = words::ANYWHERE.iter().any(|&name| words[at] == name);
        at += if has_value { 2 } else { 1 };
    }
    let (before, rest) = words.split_at(at.min(words.len()));
    Ok((Words::sorted(before, shape)?, rest))
}

/// Obeys a command line, and says which verb it has as soon as that is known.
fn obey(
    words: &[OsString],
    found: &mut Option<&'static Verb>,
    desk: &mut Desk,
) -> Result<(), Trouble> {
    let (first, rest) = split_before_verb(words)?;
    if first.has("--version") {
        let version = env!("CARGO_PKG_VERSION");
        writeln!(
            desk.out,
            "benzokamuri {version}, interface {}",
            benzokamuri::VERSION
        )?;
        return Ok(());
    }
    let Some((name, rest)) = rest.split_first() else {
        return match first.help() {
            true => help::all(desk),
            false => Err(Trouble::usage("a verb is missing")),
        };
    };
    if name == "help" {
        return help::about(rest, desk);
    }
    let Some(verb) = verbs::ALL.iter().find(|verb| name == verb.name) else {
        let name = name.display();
        return Err(Trouble::usage(format!("there is no verb {name}")));
    };
    *found = Some(verb);
    if first.help() {
        return help::verb(verb, desk);
    }
    let words = Words::sorted(rest, verb.shape)?.after(&first);
    match words.help() {
        true => help::verb(verb, desk),
        false => (verb.run)(words, desk),
    }
}
