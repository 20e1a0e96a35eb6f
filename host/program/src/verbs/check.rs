//! `check`: what is wrong with a directory, and where.

use super::{as_found, time};
use crate::check::{image_faults, map_faults, spelled};
use crate::dates::fill_blank_stamps;
use crate::files;
use crate::layout::{Row, Stamp};
use crate::looking::Looking;
use crate::saving;
use crate::state::State;
use crate::store::ImageFile;
use crate::trouble::{Doing, Trouble};
use crate::words::{Shape, Words};
use crate::{Desk, Verb};
use benzokamuri::{Code, Image, Session, Time, ENTRIES, MAP_LEN};
use std::ffi::OsStr;
use std::io::Write;
use std::path::Path;

pub const VERB: Verb = Verb {
    name: "check",
    purpose: "Say what is wrong with the directory, and where.",
    usage: "[--state FILE] IMAGE",
    help: "\
Every fault is named with its entry and byte; calls refuse an image with any of
them with 255, 1. The exit status is 0 if there is none. What the disk's label
asks for is told, and whether there are date entries for it.

cpmtools leaves stamps that it never wrote E5H throughout, which is no time, so
they are faults too, here and for `call`. The other verbs read such stamps as
zeros, and those that save the image save them so.

  --state FILE   also check the map that `call --state FILE` keeps",
    shape: Shape {
        flags: &[],
        valued: &["--state"],
    },
    run,
};

fn run(mut words: Words, desk: &mut Desk) -> Result<(), Trouble> {
    let (image, _) = as_found(&mut words, false)?;
    words.end()?;
    let state = words.value("--state").map(read_state).transpose()?;
    let mut faults = image_faults(image.image());
    if let (true, Some(state)) = (faults.is_empty(), &state) {
        faults = map_faults(image.image(), &state.map);
    }
    for fault in &faults {
        writeln!(desk.out, "{fault}")?;
    }
    if let Some(blank) = read_as_zeros(image.image()) {
        writeln!(
            desk.out,
            "{blank} stamps are E5H, as cpmtools leaves them: other verbs but call read them as zeros"
        )?;
    }
    let answered = answer(&image, state, time(&words, desk));
    // The calls have the last word. Ours is only there to say where.
    match (faults.len(), answered) {
        (0, Ok(disk)) => praise(&image, disk, desk),
        (1.., Err(code)) => {
            let count = match faults.len() {
                1 => "1 fault".into(),
                count => format!("{count} faults"),
            };
            Err(code).doing(format!("{}: {count}", image.name()))
        }
        (_, answered) => {
            let answered = answered.err().map(Code::numbers);
            Err(Trouble::failed(format!(
                "{}: the check and the calls do not agree ({answered:?}); this is an error in the program",
                image.name()
            )))
        }
    }
}

/// How many stamps were never written, where these are all that is wrong. Of a
/// disk that has other faults no verb reads anything.
fn read_as_zeros(image: &Image) -> Option<usize> {
    let mut filled = Box::new(*image);
    let blank = fill_blank_stamps(&mut filled);
    (blank > 0 && image_faults(&filled).is_empty()).then_some(blank)
}

/// Says of an image without faults what there is.
fn praise(image: &ImageFile, mut disk: Looking, desk: &mut Desk) -> Result<(), Trouble> {
    let files = files::all(&mut disk).doing(image.name())?;
    let entries: usize = files.iter().map(|file| file.entries.len()).sum();
    let blocks: usize = files.iter().map(|file| file.blocks().count()).sum();
    writeln!(
        desk.out,
        "{}: consistent; {entries} of {ENTRIES} entries are used, {} files, {blocks} blocks",
        image.name(),
        files.len()
    )?;
    if let Some(dates) = dates(image.image()) {
        writeln!(desk.out, "{dates}")?;
    }
    if image.lacks() > 0 {
        writeln!(
            desk.out,
            "the file ends {} bytes early, in sectors that nothing lists",
            image.lacks()
        )?;
    }
    Ok(())
}

/// What a directory has of a label and date entries, which no call tells of.
fn dates(image: &Image) -> Option<String> {
    let rows = || (0..ENTRIES).map(|entry| Row::of(image, entry));
    let label = rows().find(|row| row.is_label()).map(|row| {
        let asked = Stamp::ALL.into_iter().filter(|&stamp| row.asks_for(stamp));
        let asked: Vec<&str> = asked.map(Stamp::name).collect();
        let asks = match asked.is_empty() {
            true => "no".into(),
            false => asked.join(" and "),
        };
        format!("label {}, which asks for {asks} stamps", spelled(row))
    });
    match (label, rows().any(Row::is_dates)) {
        (Some(label), true) => Some(format!("{label}; 16 date entries")),
        (Some(label), false) => Some(format!("{label}; no date entries, so none is stamped")),
        (None, true) => Some("16 date entries; no label, so none is stamped".into()),
        (None, false) => None,
    }
}

/// What the calls say: a disk that is logged in, or why it can't be.
fn answer(image: &ImageFile, state: Option<State>, time: Time) -> Result<Looking, Code> {
    let logs_in = state.is_none();
    let map = state.map_or_else(|| Box::new([0; MAP_LEN]), |state| state.map);
    let mut disk = Looking::resumed(image.copy(), map, Session::default(), time);
    match logs_in {
        true => disk.log_in()?,
        false => disk.space().map(|_| ())?,
    }
    Ok(disk)
}

/// Reads what `call` keeps.
pub fn read_state(path: &OsStr) -> Result<State, Trouble> {
    let name = path.display();
    let opened = saving::open(Path::new(path));
    let bytes = opened.and_then(|file| saving::read_at_most(file, State::MOST + 1));
    let bytes = bytes.map_err(|error| Trouble::file(name, &error))?;
    let read = String::from_utf8(bytes).ok();
    let read = read.and_then(|text| State::read(&text));
    read.ok_or_else(|| Trouble::failed(format!("{}: not what `call` keeps", path.display())))
}
