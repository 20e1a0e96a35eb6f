//! Files written so that each is the old one or the new one, never a part of
//! either, and so that what two runs of the program change at the same time is
//! not lost.

use crate::trouble::Trouble;
use crate::Desk;
use std::fs::{self, File, Metadata, OpenOptions};
use std::io::{self, ErrorKind, Read, Write};
use std::os::unix::fs::{fchown, MetadataExt};
use std::path::{Path, PathBuf};
use std::sync::atomic::{AtomicUsize, Ordering};

/// How files are written in pieces, so that a test can end it in between.
const PIECE: usize = 4_096;

/// Opens a file to read it. Pipes and devices, which may have no end, are
/// refused.
pub fn open(path: &Path) -> io::Result<File> {
    // A pipe would have to be waited for, so this comes before it is opened.
    regular(&fs::metadata(path)?)?;
    let file = File::open(path)?;
    regular(&file.metadata()?)?;
    Ok(file)
}

fn regular(metadata: &Metadata) -> io::Result<()> {
    match metadata.is_file() {
        true => Ok(()),
        false => Err(io::Error::other("this is not a regular file")),
    }
}

/// What can be read, up to a number of bytes.
pub fn read_at_most(source: impl Read, most: usize) -> io::Result<Vec<u8>> {
    let mut bytes = Vec::new();
    source.take(most as u64).read_to_end(&mut bytes)?;
    Ok(bytes)
}

/// A file that is there, and locked: until this is dropped, no other run of
/// the program puts another file in its place.
pub struct Held {
    /// As it was given.
    shown: String,
    /// With links followed: a link stays a link, and what it leads to is
    /// replaced.
    path: PathBuf,
    file: File,
    /// Why it can't be written to, where it can't.
    protected: Option<io::Error>,
}

impl Held {
    /// A file that is there. Another run that holds it is waited for.
    pub fn of(path: &Path) -> io::Result<Held> {
        let real = fs::canonicalize(path)?;
        loop {
            let (file, protected) = open_to_replace(&real)?;
            let held = Held {
                shown: path.display().to_string(),
                path: real.clone(),
                file,
                protected,
            };
            // Whoever held it before may have put another in its place, and
            // the lock is the old one's.
            if held.lock()? {
                return Ok(held);
            }
        }
    }

    /// A file that is not there yet, and is empty now.
    fn new(path: &Path) -> io::Result<Held> {
        let mut options = OpenOptions::new();
        let file = options.write(true).create_new(true).open(path)?;
        let held = Held {
            shown: path.display().to_string(),
            path: path.to_path_buf(),
            file,
            protected: None,
        };
        match held.lock() {
            Ok(true) => Ok(held),
            Ok(false) => Err(ErrorKind::AlreadyExists.into()),
            Err(error) => {
                let _ = fs::remove_file(path);
                Err(error)
            }
        }
    }

    /// Waits for the lock, and says whether the path still leads to this file.
    fn lock(&self) -> io::Result<bool> {
        match self.file.lock() {
            // There are file systems without locks.
            Err(error) if error.kind() == ErrorKind::Unsupported => {}
            locked => locked?,
        }
        self.is_at(&self.path)
    }

    /// Whether a path leads to this file, by whatever links.
    pub fn is_at(&self, path: &Path) -> io::Result<bool> {
        let this = self.file.metadata()?;
        match fs::metadata(path) {
            Ok(there) => Ok((this.dev(), this.ino()) == (there.dev(), there.ino())),
            Err(error) if error.kind() == ErrorKind::NotFound => Ok(false),
            Err(error) => Err(error),
        }
    }

    /// The file, to be read.
    pub fn file(&self) -> &File {
        &self.file
    }

    /// Bytes that are to take the file's place.
    pub fn ready(&self, bytes: &[u8]) -> Result<Ready, Trouble> {
        if let Some(error) = &self.protected {
            let why = "for its file may not be written to";
            let what = format!("{} can't be saved, {why}", self.shown);
            return Err(Trouble::file(what, error));
        }
        let ready = self.beside(bytes);
        ready.map_err(|error| unsaved(&self.shown, &error))
    }

    fn beside(&self, bytes: &[u8]) -> io::Result<Ready> {
        step();
        let folder = match self.path.parent() {
            Some(folder) if !folder.as_os_str().is_empty() => folder,
            _ => Path::new("."),
        };
        // What is needed after the rename is there before it.
        let opened = File::open(folder)?;
        let (temporary, file) = temporary(folder, &self.path)?;
        let ready = Ready {
            shown: self.shown.clone(),
            path: self.path.clone(),
            temporary,
            folder: opened,
            held: None,
            made: false,
            taken: false,
        };
        fill(file, &self.file.metadata()?, bytes)?;
        Ok(ready)
    }
}

/// Opens a file that is to be replaced, for writing if that is allowed; if
/// not, why.
fn open_to_replace(path: &Path) -> io::Result<(File, Option<io::Error>)> {
    regular(&fs::metadata(path)?)?;
    let both = OpenOptions::new().read(true).write(true).open(path);
    let protects = |error: &io::Error| {
        let kind = error.kind();
        matches!(
            kind,
            ErrorKind::PermissionDenied | ErrorKind::ReadOnlyFilesystem
        )
    };
    let (file, protected) = match both {
        Err(error) if protects(&error) => (File::open(path)?, Some(error)),
        both => (both?, None),
    };
    regular(&file.metadata()?)?;
    Ok((file, protected))
}

fn unsaved(shown: &str, error: &io::Error) -> Trouble {
    Trouble::file(format!("{shown} can't be saved"), error)
}

/// Bytes that are written beside a file and made to last, but have not taken
/// its place yet. They are removed if they never do.
pub struct Ready {
    shown: String,
    path: PathBuf,
    temporary: PathBuf,
    folder: File,
    /// The file whose place they are to take, unless somebody else holds it
    /// for them.
    held: Option<Held>,
    /// Whether that file was made for them.
    made: bool,
    taken: bool,
}

impl Ready {
    /// For a file that must not be there yet, unless it may be replaced.
    pub fn at(path: &Path, bytes: &[u8], replace: bool) -> Result<Ready, Trouble> {
        // A link that leads nowhere is there too.
        let there = path.symlink_metadata().is_ok();
        if there && !replace {
            return Err(already_there(path));
        }
        let held = match there {
            true => Held::of(path),
            // Made at once, so that nobody else makes it meanwhile.
            false => Held::new(path),
        };
        let held = held.map_err(|error| match error.kind() {
            ErrorKind::AlreadyExists => already_there(path),
            _ => unsaved(&path.display().to_string(), &error),
        })?;
        let ready = held.ready(bytes);
        if ready.is_err() && !there {
            let _ = fs::remove_file(path);
        }
        let mut ready = ready?;
        ready.made = !there;
        ready.held = Some(held);
        Ok(ready)
    }

    /// Gives the lock back. Of files that are made ready together two may be
    /// the same one, by links, and would wait for each other.
    pub fn unlocked(mut self) -> Ready {
        self.held = None;
        self
    }

    /// Takes the file's place.
    pub fn take_place(mut self, desk: &mut Desk) -> Result<(), Trouble> {
        step();
        let renamed = fs::rename(&self.temporary, &self.path);
        renamed.map_err(|error| unsaved(&self.shown, &error))?;
        self.taken = true;
        step();
        if let Err(error) = self.folder.sync_all() {
            // It is there all the same, and other programs see it.
            desk.remark(format_args!(
                "{} is saved, but might not outlast a power cut: {error}",
                self.shown
            ));
        }
        step();
        Ok(())
    }
}

impl Drop for Ready {
    fn drop(&mut self) {
        if self.taken {
            return;
        }
        let _ = fs::remove_file(&self.temporary);
        if self.made {
            let _ = fs::remove_file(&self.path);
        }
    }
}

/// Nothing of the user's is lost by a slip.
pub fn already_there(path: &Path) -> Trouble {
    let path = path.display();
    Trouble::failed(format!("{path} is there already; -f replaces it"))
}

/// Writes a file that is to take another's place, and makes it last.
fn fill(mut file: File, old: &Metadata, bytes: &[u8]) -> io::Result<()> {
    step();
    // The owner stays where that is allowed; the superuser alone may give
    // files away. A new owner costs some bits of the mode, so that is second.
    if fchown(&file, Some(old.uid()), Some(old.gid())).is_err() {
        let _ = fchown(&file, None, Some(old.gid()));
    }
    file.set_permissions(old.permissions())?;
    for piece in bytes.chunks(PIECE) {
        step();
        file.write_all(piece)?;
    }
    step();
    file.sync_all()
}

/// A new file beside another, and its path.
fn temporary(folder: &Path, path: &Path) -> io::Result<(PathBuf, File)> {
    let name = path.file_name().unwrap_or_default().to_string_lossy();
    let process = std::process::id();
    let mut number = 0;
    loop {
        let temporary = folder.join(format!(".{name}.{process}-{number}.tmp"));
        let new = OpenOptions::new()
            .write(true)
            .create_new(true)
            .open(&temporary);
        match new {
            Ok(file) => return Ok((temporary, file)),
            // Left by a process that was ended, long ago.
            Err(error) if error.kind() == ErrorKind::AlreadyExists && number < 100 => {
                number += 1;
            }
            Err(error) => return Err(error),
        }
    }
}

/// The environment's word for the step of a save at which the process is to
/// end. Tests set it.
const END_AT: &str = "BENZOKAMURI_END_SAVE_AT";

/// A step at which the process could be ended, and is on request.
fn step() {
    static TAKEN: AtomicUsize = AtomicUsize::new(0);
    let number = TAKEN.fetch_add(1, Ordering::Relaxed);
    let word = std::env::var(END_AT).ok();
    if word.and_then(|word| word.parse().ok()) == Some(number) {
        std::process::exit(99);
    }
}

#[cfg(test)]
mod tests {
    use super::*;

    #[test]
    fn a_folder_that_can_not_be_synced_is_worth_a_remark() {
        // Files can't be made in it, and it can't be synced.
        let Some(other) = File::open("/proc/self")
            .ok()
            .filter(|file| file.sync_all().is_err())
        else {
            println!("skipped: there is no folder that can't be synced");
            return;
        };
        let name = format!("benzokamuri-{}", std::process::id());
        let path = std::env::temp_dir().join(name);
        let mut ready = Ready::at(&path, b"new", false).unwrap();
        ready.folder = other;
        let (mut out, mut err) = (Vec::new(), Vec::new());
        let mut desk = Desk::new(&mut out, &mut err);
        assert!(ready.take_place(&mut desk).is_ok());
        assert_eq!(fs::read(&path).unwrap(), b"new");
        fs::remove_file(&path).unwrap();
        let said = String::from_utf8(err).unwrap();
        assert!(said.contains(" is saved, but "), "{said}");
        assert!(out.is_empty());
    }
}
