//! `mv`: another name for a file.

use super::{held_image, logged_in, named};
use crate::trouble::{Doing, Trouble};
use crate::words::{Shape, Words};
use crate::{Desk, Verb};
use benzokamuri::{Fcb, Name};

pub const VERB: Verb = Verb {
    name: "mv",
    purpose: "Rename a file.",
    usage: "[-u USER] IMAGE OLD NEW",
    help: "\
The file keeps its user and its attributes. There must be no file of the new
name yet, so a file can't be renamed to itself either.",
    shape: Shape {
        flags: &[],
        valued: &[],
    },
    run,
};

fn run(mut words: Words, desk: &mut Desk) -> Result<(), Trouble> {
    let (image, held) = held_image(&mut words)?;
    let old: Name = named(&words.next("the old name")?)?;
    let new: Name = named(&words.next("the new name")?)?;
    words.end()?;
    let mut disk = logged_in(&image, &words, desk)?.lifted(desk);
    let renamed = disk.rename(&mut Fcb::renaming(old, new));
    renamed.doing(format!("{}: {old} to {new}", image.name()))?;
    image.save(&held, &disk, None, desk)
}
