//! `rm`: files off the disk.

use super::{held_image, logged_in, named};
use crate::trouble::{Doing, Trouble};
use crate::words::{Shape, Words};
use crate::{Desk, Verb};
use benzokamuri::{Fcb, Pattern};

pub const VERB: Verb = Verb {
    name: "rm",
    purpose: "Delete files.",
    usage: "[-u USER] IMAGE PATTERN...",
    help: "\
All files that match are deleted, or none: if one of them is read-only, or if
nothing matches one of the patterns, the image stays as it was. See
`benzokamuri help names` for ? and *.",
    shape: Shape {
        flags: &[],
        valued: &[],
    },
    run,
};

fn run(mut words: Words, desk: &mut Desk) -> Result<(), Trouble> {
    let (image, held) = held_image(&mut words)?;
    let mut patterns = vec![words.next("a name or pattern")?];
    patterns.extend(words.rest());
    let patterns: Vec<Pattern> = patterns
        .iter()
        .map(|word| named(word))
        .collect::<Result<_, _>>()?;
    let mut disk = logged_in(&image, &words, desk)?.lifted(desk);
    for pattern in patterns {
        let deleted = disk.delete(&mut Fcb::matching(pattern));
        deleted.doing(format!("{}: {pattern}", image.name()))?;
    }
    image.save(&held, &disk, None, desk)
}
