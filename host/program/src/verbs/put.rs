//! `put`: a file onto the disk.

use super::{held, logged_in, named};
use crate::files;
use crate::layout::{AREA, BLOCKS, BLOCK_RECORDS};
use crate::saving::read_at_most;
use crate::trouble::{Doing, Trouble};
use crate::words::{Shape, Words};
use crate::{Desk, Verb};
use benzokamuri::{Code, Fcb, Name, BUFFER_LEN};
use std::ffi::OsStr;
use std::fs::File;
use std::path::Path;

pub const VERB: Verb = Verb {
    name: "put",
    purpose: "Copy a file onto the disk.",
    usage: "[-u USER] [--time TIME] [-f] IMAGE FILE [NAME]",
    help: "\
FILE is the file to be read, or - for standard input. Where NAME is left out,
the file gets its own name, in capitals. Its last record is filled up with 1AH.

The image is saved only if all of the file has found room; otherwise it stays as
it was. On a disk with date entries the file gets the stamps that the label asks
for; one that replaces another is made anew, and so is its create stamp.

  -f            replace a file that is there already
  --time TIME   the time of the stamps, as \"2026-11-15 06:00\"; the clock's where
                it is left out",
    shape: Shape {
        flags: &["-f"],
        valued: &[],
    },
    run,
};

/// Bytes of the largest file that a disk has room for.
const LARGEST: usize = BUFFER_LEN * BLOCK_RECORDS * (BLOCKS - AREA);

fn run(mut words: Words, desk: &mut Desk) -> Result<(), Trouble> {
    let image = words.next("the image")?;
    let source = words.next("the file to be copied")?;
    let name = words.next_if_any();
    words.end()?;
    let name: Name = match (&name, Path::new(&source).file_name()) {
        (Some(name), _) => named(name)?,
        (None, Some(own)) if source != "-" => named(own)?,
        _ => return Err(Trouble::usage("the name on the disk is missing")),
    };
    // First, for it may be a pipe from a program that has changes of its own to
    // make to the image.
    let bytes = read_in(&source)?;
    let (image, held) = held(&image)?;
    let mut disk = logged_in(&image, &words, desk)?;
    let doing = format!("{}: {name}", image.name());
    // Make asks for extent 0 alone, and a file may lack it.
    let there = match disk.size(&mut Fcb::named(name)) {
        Ok(_) => true,
        Err(Code::NothingMatches) => false,
        Err(code) => return Err(code).doing(doing),
    };
    if there && !words.has("-f") {
        let code = Code::EntryExists;
        let (a, h) = code.numbers();
        let hint = format!("{doing}: {a}, {h}: {code} -f replaces it.");
        return Err(Trouble::failed(hint));
    }
    let mut disk = disk.lifted(desk);
    if there {
        disk.delete(&mut Fcb::named(name)).doing(&doing)?;
    }
    files::write(&mut disk, name, &bytes).doing(&doing)?;
    image.save(&held, &disk, None, desk)
}

/// What is to be put, or so much of it that it finds no room on any disk.
fn read_in(source: &OsStr) -> Result<Vec<u8>, Trouble> {
    let most = LARGEST + 1;
    let read = match source == "-" {
        true => read_at_most(std::io::stdin(), most),
        false => File::open(source).and_then(|file| read_at_most(file, most)),
    };
    read.map_err(|error| Trouble::file(source.display(), &error))
}
