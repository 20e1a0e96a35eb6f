//! `get`: files from the disk.

use super::{image_or_held, logged_in, named};
use crate::files::{self, File};
use crate::looking::Looking;
use crate::saving::{already_there, Held, Ready};
use crate::store::ImageFile;
use crate::trouble::{Doing, Trouble};
use crate::words::{Shape, Words};
use crate::{Desk, Verb};
use benzokamuri::{Code, Pattern};
use std::io::Write;
use std::path::{Path, PathBuf};

pub const VERB: Verb = Verb {
    name: "get",
    purpose: "Copy a file from the disk.",
    usage: "[-u USER] [-f] [-t | -r] [--stamp [--time TIME]] IMAGE NAME [FILE]",
    help: "\
FILE is the file to be written, the folder to write to, or - for standard
output. Where it is left out, the file gets its name on the disk as `ls` shows
it, in the present folder. NAME may be a pattern; FILE is then a folder. Where
one of several files can't be written, none is.

Files on the disk are whole records of 128 bytes. Where the file's last entry
says how many bytes of the last record are used (its byte s1, as CP/M Plus and
cpmtools keep it), only those are copied. Records that were never written come
out as zeros, and their number is told.

The image stays as it is, and no access stamp is left on it, but with --stamp.

  -f            replace a file that is there already
  -t            a text: end it before the first 1AH
  -r            whole records, whatever the entry says
  --stamp       save the image afterwards, with the access stamps that reading
                leaves where the disk has date entries and its label asks; what
                goes to standard output has to reach somebody for that
  --time TIME   the time of the stamps, as \"2026-11-15 06:00\"; the clock's where
                it is left out",
    shape: Shape {
        flags: &["-f", "-t", "-r", "--stamp"],
        valued: &[],
    },
    run,
};

fn run(mut words: Words, desk: &mut Desk) -> Result<(), Trouble> {
    let stamps = words.has("--stamp");
    let (image, held) = image_or_held(&mut words, stamps)?;
    let word = words.next("the name of a file")?;
    let target = words.next_if_any().map(PathBuf::from);
    words.end()?;
    if words.has("-t") && words.has("-r") {
        return Err(Trouble::usage("-t and -r do not go together"));
    }
    let pattern: Pattern = named(&word)?;
    let mut disk = logged_in(&image, &words, desk)?;
    let doing = format!("{}: {pattern}", image.name());
    let found = files::matching(&mut disk, words.user(), pattern).doing(&doing)?;
    if found.is_empty() {
        return Err(Code::NothingMatches).doing(doing);
    }
    let target = Target::of(target, pattern)?;
    let replace = words.has("-f");
    for path in found.iter().filter_map(|file| target.path_of(file)) {
        may_be_written(&path, replace, held.as_ref())?;
    }
    // All is read and written before anything takes its place.
    let mut copies = Vec::new();
    for file in &found {
        let doing = format!("{}: {}", image.name(), file.name);
        let bytes = copied(&mut disk, file, &words, desk).doing(doing)?;
        copies.push((target.path_of(file), bytes));
    }
    // Without --stamp the disk stays write-protected, and nothing is to be saved.
    let Some(held) = held else {
        return write(copies, replace, desk);
    };
    let ready = stamped(disk, &found, &image, &held, desk)?;
    write(copies, replace, desk)?;
    save_stamps(&image, ready, desk)
}

/// The image, ready to be saved with the access stamps of the files that were
/// read.
fn stamped(
    disk: Looking,
    found: &[File],
    image: &ImageFile,
    held: &Held,
    desk: &mut Desk,
) -> Result<Option<Ready>, Trouble> {
    let mut disk = disk.lifted(desk);
    for file in found {
        let doing = format!("{}: {}", image.name(), file.name);
        files::stamp_access(&mut disk, file).doing(doing)?;
    }
    image.ready(held, &disk)
}

/// Saves the image with the stamps that reading has left: last, so that what
/// was not read, or reached nobody, leaves none.
fn save_stamps(image: &ImageFile, ready: Option<Ready>, desk: &mut Desk) -> Result<(), Trouble> {
    if desk.out.is_lost() {
        let name = image.name();
        let wrong = format!("{name}: not stamped, for nobody got what went to standard output");
        return Err(Trouble::failed(wrong));
    }
    image.take_place(ready, desk)
}

/// Where files are to be written.
enum Target {
    StandardOutput,
    Folder(PathBuf),
    File(PathBuf),
}

impl Target {
    /// What a word stands for that is the target of a name or a pattern.
    fn of(word: Option<PathBuf>, pattern: Pattern) -> Result<Target, Trouble> {
        match word {
            None => Ok(Target::Folder(PathBuf::new())),
            Some(path) if path == Path::new("-") => Ok(Target::StandardOutput),
            Some(path) if path.is_dir() => Ok(Target::Folder(path)),
            Some(path) if pattern.name().is_some() => Ok(Target::File(path)),
            Some(path) => {
                let path = path.display();
                let wrong = format!("{path} is no folder, and {pattern} may be several files");
                Err(Trouble::failed(wrong))
            }
        }
    }

    /// The path that a file is written to.
    fn path_of(&self, file: &File) -> Option<PathBuf> {
        match self {
            Target::StandardOutput => None,
            Target::Folder(folder) => Some(folder.join(file.name.to_string())),
            Target::File(path) => Some(path.clone()),
        }
    }
}

/// Refuses what is there already, unless it may be replaced, and an image that
/// is to be saved itself: its lock would be waited for in vain.
fn may_be_written(path: &Path, replace: bool, image: Option<&Held>) -> Result<(), Trouble> {
    if !replace && path.symlink_metadata().is_ok() {
        return Err(already_there(path));
    }
    let is_image = image.map_or(Ok(false), |held| held.is_at(path));
    match is_image.map_err(|error| Trouble::file(path.display(), &error))? {
        false => Ok(()),
        true => {
            let path = path.display();
            let wrong = format!("{path} is the image, which --stamp saves");
            Err(Trouble::failed(wrong))
        }
    }
}

/// Writes files, all of them before the first takes its place.
fn write(
    copies: Vec<(Option<PathBuf>, Vec<u8>)>,
    replace: bool,
    desk: &mut Desk,
) -> Result<(), Trouble> {
    let mut ready = Vec::new();
    for (path, bytes) in copies {
        match path {
            Some(path) => ready.push(Ready::at(&path, &bytes, replace)?.unlocked()),
            None => desk.out.write_all(&bytes)?,
        }
    }
    desk.out.flush()?;
    ready
        .into_iter()
        .try_for_each(|ready| ready.take_place(desk))
}

/// A file's bytes as they are to be written.
fn copied(
    disk: &mut Looking,
    file: &File,
    words: &Words,
    desk: &mut Desk,
) -> Result<Vec<u8>, Code> {
    let mut contents = files::read(disk, file)?;
    if contents.missing > 0 {
        let (name, missing) = (file.name, contents.missing);
        desk.remark(format_args!(
            "{name}: {missing} of {} records were never written; zeros stand for them",
            file.records
        ));
    }
    if words.has("-t") {
        contents.bytes.truncate(files::text(&contents.bytes).len());
    } else if !words.has("-r") {
        contents.bytes.truncate(file.bytes() as usize);
    }
    Ok(contents.bytes)
}
