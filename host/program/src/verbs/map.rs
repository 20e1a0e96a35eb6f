//! `map`: the blocks as a picture.

use super::check::read_state;
use super::{colours, image, logged_in, time};
use crate::looking::Looking;
use crate::picture::Picture;
use crate::saving::Ready;
use crate::trouble::{Doing, Trouble};
use crate::words::{Shape, Words};
use crate::{Desk, Verb};
use std::io::Write;
use std::path::Path;

pub const VERB: Verb = Verb {
    name: "map",
    purpose: "Show the 243 blocks as a picture.",
    usage: "[--svg FILE [-f]] [--colour WHEN] [--state FILE] IMAGE",
    help: "\
Each file has a letter and a colour. # is the directory, . is free, and ~ before
a letter is a block that is pending: written to, but waiting for the file to be
closed. A disk that has just been read has no pending blocks.

  --svg FILE      write the picture to FILE as SVG, or to standard output for -
  -f              replace a file that is there already
  --colour WHEN   always, never, or auto: where standard output is a terminal
  --state FILE    with the map that `call --state FILE` keeps",
    shape: Shape {
        flags: &["-f"],
        valued: &["--svg", "--colour", "--color", "--state"],
    },
    run,
};

fn run(mut words: Words, desk: &mut Desk) -> Result<(), Trouble> {
    let image = image(&mut words)?;
    words.end()?;
    let colours = colours(&words, desk)?;
    let disk = match words.value("--state") {
        None => logged_in(&image, &words, desk)?,
        Some(path) => {
            let state = read_state(path)?;
            let time = time(&words, desk);
            Looking::resumed(image.copy(), state.map, state.session, time)
        }
    };
    let picture = Picture::of(disk).doing(image.name())?;
    match words.value("--svg") {
        None => desk.out.write_all(picture.text(colours).as_bytes())?,
        Some(path) if path == "-" => desk.out.write_all(picture.svg(&image.name()).as_bytes())?,
        Some(path) => {
            let svg = picture.svg(&image.name());
            let ready = Ready::at(Path::new(path), svg.as_bytes(), words.has("-f"))?;
            ready.take_place(desk)?;
        }
    }
    Ok(())
}
