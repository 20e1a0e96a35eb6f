//! `new`: an image of an empty disk, with date entries and a label where they
//! are asked for.

use super::{spelled, time};
use crate::dates::{put_dates, put_label, Label};
use crate::layout::Stamp;
use crate::saving::Ready;
use crate::trouble::Trouble;
use crate::words::{Shape, Words};
use crate::{Desk, Verb};
use benzokamuri::{Disk, Name};
use std::ffi::OsStr;
use std::path::PathBuf;

pub const VERB: Verb = Verb {
    name: "new",
    purpose: "Make an image of an empty disk.",
    usage: "[-f] [--dates] [--label NAME] [--stamp KIND]... [--time TIME] IMAGE",
    help: "\
All 256,256 bytes are E5H, as on an erased diskette: no files, no system.

  -f             replace a file that is there already
  --dates        with date entries, which have room for two stamps an entry; 16
                 of the 64 entries are then no files'
  --label NAME   with a label, which takes an entry too; about names see
                 `benzokamuri help names`
  --stamp KIND   have the label ask for stamps of a kind: create (when a file is
                 made) or access (when it is opened), which share a place and do
                 not go together, or update (when it is changed). Needs --dates;
                 the label is called LABEL where --label is left out
  --time TIME    when the label is made, as \"2026-11-15 06:00\"; the clock's time
                 where it is left out

A disk with --dates but without --stamp has room for stamps and gets none.

  benzokamuri new --dates --label WORK --stamp create --stamp update work.img",
    shape: Shape {
        flags: &["-f", "--dates"],
        valued: &["--label", "--stamp"],
    },
    run,
};

/// What the label is called where stamps are asked for and no name is given.
const UNNAMED: &str = "LABEL";

fn run(mut words: Words, desk: &mut Desk) -> Result<(), Trouble> {
    let path = PathBuf::from(words.next("the image")?);
    words.end()?;
    let label = label(&words, desk)?;
    let mut image = Box::new(*Disk::erased().image());
    if words.has("--dates") {
        put_dates(&mut image);
    }
    if let Some(label) = label {
        put_label(&mut image, &label);
    }
    let ready = Ready::at(&path, &*image, words.has("-f"))?;
    ready.take_place(desk)
}

/// The label that is asked for, if there is one.
fn label(words: &Words, desk: &mut Desk) -> Result<Option<Label>, Trouble> {
    let stamps = words.values("--stamp").map(kind);
    let asks: Vec<Stamp> = stamps.collect::<Result<_, _>>()?;
    if asks.contains(&Stamp::Create) && asks.contains(&Stamp::Access) {
        let wrong = "create and access stamps share a place, so --stamp takes one of them";
        return Err(Trouble::usage(wrong));
    }
    if !asks.is_empty() && !words.has("--dates") {
        let wrong = "--stamp needs --dates: without date entries nothing is stamped";
        return Err(Trouble::usage(wrong));
    }
    let unnamed = (!asks.is_empty()).then_some(OsStr::new(UNNAMED));
    let Some(word) = words.value("--label").or(unnamed) else {
        return Ok(None);
    };
    let name: Result<Name, String> = spelled(word);
    let name = name.map_err(|why| Trouble::failed(format!("{}: {why}", word.display())))?;
    let time = time(words, desk);
    Ok(Some(Label { name, asks, time }))
}

/// A kind of stamp from a word.
fn kind(word: &OsStr) -> Result<Stamp, Trouble> {
    let found = Stamp::ALL.into_iter().find(|stamp| word == stamp.name());
    let shown = word.display();
    found.ok_or_else(|| Trouble::usage(format!("--stamp is create, access or update, not {shown}")))
}
