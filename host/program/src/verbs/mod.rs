//! The verbs, one module each.

mod call;
mod check;
mod demo;
mod free;
mod get;
mod ls;
mod map;
mod mv;
mod new;
mod pick;
mod put;
mod rm;

use crate::looking::Looking;
use crate::saving::Held;
use crate::store::ImageFile;
use crate::trouble::Trouble;
use crate::words::Words;
use crate::{Desk, Verb};
use benzokamuri::{BadName, Time};
use std::ffi::OsStr;
use std::str::FromStr;

/// All verbs, in the order that help shows them.
pub const ALL: &[Verb] = &[
    new::VERB,
    ls::VERB,
    get::VERB,
    put::VERB,
    rm::VERB,
    mv::VERB,
    free::VERB,
    check::VERB,
    map::VERB,
    pick::VERB,
    call::VERB,
    demo::VERB,
];

/// Reads the image that the next word names, to look at it.
fn image(words: &mut Words) -> Result<ImageFile, Trouble> {
    let (image, _) = image_or_held(words, false)?;
    Ok(image)
}

/// Reads the image that the next word names, to change it.
fn held_image(words: &mut Words) -> Result<(ImageFile, Held), Trouble> {
    held(&words.next("the image")?)
}

/// Reads an image to change it.
fn held(path: &OsStr) -> Result<(ImageFile, Held), Trouble> {
    let (image, held) = ImageFile::hold(path)?;
    Ok((image.with_blank_stamps_read(), held))
}

/// Reads the image that the next word names, to look at it, or to change it
/// where an option says so.
fn image_or_held(words: &mut Words, change: bool) -> Result<(ImageFile, Option<Held>), Trouble> {
    let (image, held) = as_found(words, change)?;
    Ok((image.with_blank_stamps_read(), held))
}

/// The same for verbs that show what the calls make of the file as it stands.
fn as_found(words: &mut Words, change: bool) -> Result<(ImageFile, Option<Held>), Trouble> {
    let path = words.next("the image")?;
    match change {
        true => ImageFile::hold(&path).map(|(image, held)| (image, Some(held))),
        false => Ok((ImageFile::read(&path)?, None)),
    }
}

/// The time that calls are handed: the one that the command line has, or the
/// clock's. What a clock says that is no day of ours is told, and day 0 is
/// handed in.
fn time(words: &Words, desk: &mut Desk) -> Time {
    if let Some(given) = words.given_time() {
        return given;
    }
    (desk.clock)().unwrap_or_else(|bad| {
        desk.remark(format_args!(
            "the clock is wrong, so day 0, 00:00 is handed in: {bad}"
        ));
        Time::ZERO
    })
}

/// Logs in to an image, as the user and at the time of the command line. A verb
/// that changes the disk lifts it right before the first call that may write.
fn logged_in(image: &ImageFile, words: &Words, desk: &mut Desk) -> Result<Looking, Trouble> {
    image.log_in(words.user(), time(words, desk))
}

/// A name or pattern of files from a word.
fn named<T: FromStr<Err = BadName>>(word: &OsStr) -> Result<T, Trouble> {
    spelled(word).map_err(|why| Trouble::failed(format!("{}: {why} (255, 9)", word.display())))
}

/// A name or pattern from a word, or why it is none.
fn spelled<T: FromStr<Err = BadName>>(word: &OsStr) -> Result<T, String> {
    let text = word.to_str().ok_or("no name")?;
    text.parse().map_err(|bad: BadName| bad.to_string())
}

/// Whether a picture is to be in colours.
fn colours(words: &Words, desk: &Desk) -> Result<bool, Trouble> {
    let when = match words.text("--colour")? {
        None => words.text("--color")?,
        when => when,
    };
    match when {
        None | Some("auto") => Ok(desk.colours),
        Some("always") => Ok(true),
        Some("never") => Ok(false),
        Some(other) => Err(Trouble::usage(format!(
            "--colour is always, never or auto, not {other}"
        ))),
    }
}
