//! `call`: one call by its number, and what it changed.

use super::check::read_state;
use super::{as_found, named, time};
use crate::changes::{between, Moment};
use crate::hex;
use crate::state::State;
use crate::store::ImageFile;
use crate::trouble::{Doing, Trouble};
use crate::words::{Shape, Words};
use crate::{Desk, Verb};
use benzokamuri::{
    Asked, Call, Code, Disk, Fcb, Map, Pattern, Session, BUFFER_LEN, FCB_LEN, MAP_LEN,
};
use std::ffi::OsStr;
use std::io::Write;
use std::path::Path;

pub const VERB: Verb = Verb {
    name: "call",
    purpose: "Make one call by its number; show its code, and what changed.",
    usage: "[-u USER] [--time TIME] [-a ARGUMENT] [--name NAME] [--buffer HEX] [--state FILE] [--lift | --protect] [-n] IMAGE NUMBER [FCB]",
    help: "\
FCB is up to 36 bytes in hexadecimal, the rest being 0. Without --state the call
is made on a disk that has just been logged in, with a session that begins at
zero, and what it leaves in the map, the FCB, the buffer and the session is gone
afterwards: a file that was written can't be closed by another `call`.

A session that begins at zero is write-protected: 16, 19, 21, 22, 23 and 34, and
a read that would change the disk, are refused with 255, 2, and an open (15)
stamps no access. --lift lifts the protection before the call. With --state it
stays lifted until --protect, also where the call is refused; a line `session,
protection` says that it was lifted or set.

The library is lent the image as it stands in its file; sectors that the file
lacks at its end are E5H. Stamps of E5H throughout, as cpmtools leaves them, are
no times, so the call is refused with 255, 1. Verbs other than this and `check`
read them as zeros, and those that save the image save them so.

  -u USER          the session's user
  --time TIME      the time that the call is handed, as \"2026-11-15 06:00\"; the
                   clock's where it is left out
  -a ARGUMENT      the argument byte; 0 where it is left out
  --name NAME      an FCB with this name or pattern, all else 0
  --buffer HEX     up to 128 bytes for the buffer, the rest being 0
  --state FILE     take map, session, FCB and buffer from FILE, where it is
                   there, and keep them in it
  --lift           lift the session's write protection, then make the call
  --protect        set the session's write protection, then make the call
  -n               do not save the image or the state

The image is saved if the call changed it.",
    shape: Shape {
        flags: &["-n", "--lift", "--protect"],
        valued: &["-a", "--argument", "--name", "--buffer", "--state"],
    },
    run,
};

fn run(mut words: Words, desk: &mut Desk) -> Result<(), Trouble> {
    let saves = !words.has("-n");
    let (image, held) = as_found(&mut words, saves)?;
    let number = words.next("the number of a call")?;
    let (number, argument) = (byte(&number)?, argument(&words)?);
    let given = words.next_if_any();
    words.end()?;
    let state = words.value("--state").map(Path::new);
    let kept = match state {
        Some(path) if path.exists() => Some(read_state(path.as_os_str())?),
        _ => None,
    };
    let mut moment = begin(&image, &words, kept)?;
    match (given, words.value("--name")) {
        (Some(_), Some(_)) => return Err(Trouble::usage("an FCB and --name do not go together")),
        (Some(given), None) => moment.fcb = fcb(&given)?,
        (None, Some(name)) => moment.fcb = Fcb::matching(named::<Pattern>(name)?),
        (None, None) => {}
    }
    if let Some(text) = words.text("--buffer")? {
        moment.disk.buffer = bytes::<BUFFER_LEN>(text, "the buffer")?;
    }
    // What is done to the protection is shown too, since a state keeps it.
    let before = moment.clone();
    set_protection(&mut moment.disk, &words, desk)?;
    let asked = Asked::new(number, argument, time(&words, desk));
    let answered = moment.disk.ask(asked, &mut moment.fcb);
    if let Some(held) = held {
        let kept = State::of(&moment.disk, moment.fcb).written();
        let beside = state.map(|path| (path, kept.as_str()));
        image.save(&held, &moment.disk, beside, desk)?;
    }
    show(number, answered, [&before, &moment], desk)
}

/// Lifts or sets the write protection, where an option says so.
fn set_protection(disk: &mut Disk, words: &Words, desk: &mut Desk) -> Result<(), Trouble> {
    match (words.has("--lift"), words.has("--protect")) {
        (true, true) => return Err(Trouble::usage("--lift and --protect do not go together")),
        (true, false) => desk.lift(disk),
        (false, true) => disk.protect(),
        (false, false) => {}
    }
    Ok(())
}

/// Prints what a call answered, and what it and the options before it changed.
fn show(
    number: u8,
    answered: Result<u8, Code>,
    [before, after]: [&Moment; 2],
    desk: &mut Desk,
) -> Result<(), Trouble> {
    let what = match Call::listed(number) {
        Some(call) => call.to_string(),
        None => number.to_string(),
    };
    let (a, h) = answered.map_or_else(Code::numbers, |a| (a, 0));
    writeln!(desk.out, "call {what}: A = {a}, H = {h}")?;
    let changes = between(before, after);
    match changes.is_empty() {
        true => writeln!(desk.out, "nothing changed")?,
        false => writeln!(desk.out, "{}", changes.join("\n"))?,
    }
    writeln!(desk.out, "FCB {}", hex::written(after.fcb.bytes()))?;
    match answered {
        Err(Code::Protected) => {
            let code = Code::Protected;
            let hint = format!("call {what}: {a}, {h}: {code} --lift lifts the protection.");
            Err(Trouble::failed(hint))
        }
        answered => answered.doing(format!("call {what}")).map(|_| ()),
    }
}

/// What the call is made on.
fn begin(image: &ImageFile, words: &Words, kept: Option<State>) -> Result<Moment, Trouble> {
    let bytes = image.copy();
    let user = words.given_user();
    if let Some(kept) = kept {
        let session = Session {
            user: user.unwrap_or(kept.session.user),
            ..kept.session
        };
        let mut disk = Disk::resumed(bytes, kept.map, session);
        disk.buffer = kept.buffer;
        let fcb = kept.fcb;
        return Ok(Moment { disk, fcb });
    }
    let map: Box<Map> = Box::new([0; MAP_LEN]);
    let session = Session {
        user: user.unwrap_or(0),
        ..Session::default()
    };
    let mut disk = Disk::resumed(bytes, map, session);
    // Refused where the directory is not consistent; the call says so too.
    let _ = disk.log_in();
    Ok(Moment {
        disk,
        fcb: Fcb::ZERO,
    })
}

fn byte(word: &OsStr) -> Result<u8, Trouble> {
    let number = word.to_str().and_then(|text| text.parse().ok());
    let shown = word.display();
    number.ok_or_else(|| Trouble::usage(format!("{shown} is no number from 0 to 255")))
}

fn argument(words: &Words) -> Result<u8, Trouble> {
    let given = words.value("-a").or(words.value("--argument"));
    given.map_or(Ok(0), byte)
}

fn fcb(word: &OsStr) -> Result<Fcb, Trouble> {
    let text = word.to_str().unwrap_or("no text");
    Ok(bytes::<FCB_LEN>(text, "the FCB")?.into())
}

/// Bytes in hexadecimal, with zeros behind them.
fn bytes<const N: usize>(text: &str, what: &str) -> Result<[u8; N], Trouble> {
    let given = hex::read(text).filter(|given| given.len() <= N);
    let given = given.ok_or_else(|| {
        Trouble::usage(format!("{what} has to be at most {N} bytes in hexadecimal"))
    })?;
    let mut bytes = [0; N];
    bytes[..given.len()].copy_from_slice(&given);
    Ok(bytes)
}
