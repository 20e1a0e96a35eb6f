//! The program `benzokamuri`.

use program::Desk;
use std::fs::{self, File, Metadata};
use std::io::{self, IsTerminal, Write};
use std::os::fd::AsFd;
use std::os::unix::fs::{FileTypeExt, MetadataExt};
use std::process::ExitCode;

fn main() -> ExitCode {
    let words: Vec<_> = std::env::args_os().skip(1).collect();
    let stdout = io::stdout();
    let asked_for_none = std::env::var_os("NO_COLOR").is_some_and(|word| !word.is_empty());
    let dumb = std::env::var_os("TERM").is_some_and(|word| word == "dumb");
    let (mut out, mut err) = (io::BufWriter::new(stdout.lock()), io::stderr());
    let mut desk = Desk::new(&mut out, &mut err);
    desk.colours = stdout.is_terminal() && !asked_for_none && !dumb;
    desk.out.nowhere = is_null_device(&stdout);
    let status = program::run(&words, &mut desk);
    // What could not be printed by now was not printed before either.
    let _ = desk.out.flush();
    ExitCode::from(status)
}

/// Whether what is written is thrown away. A standard output that is closed is
/// this device too: Rust opens it in its place before `main`.
fn is_null_device(written: &impl AsFd) -> bool {
    let file = written.as_fd().try_clone_to_owned().map(File::from);
    let device = |metadata: io::Result<Metadata>| {
        let metadata = metadata.ok()?;
        let is_device = metadata.file_type().is_char_device();
        is_device.then(|| metadata.rdev())
    };
    let found = device(file.and_then(|file| file.metadata()));
    found.is_some() && found == device(fs::metadata("/dev/null"))
}
