//! What the tests share: C programs compiled with the archive, and a dated disk.

#![allow(dead_code)]

use std::path::{Path, PathBuf};
use std::process::Command;

/// The repository's folder.
pub fn repository() -> PathBuf {
    Path::new(env!("CARGO_MANIFEST_DIR")).join("../..")
}

/// Where an entry stands in the image.
pub fn entry_place(entry: usize) -> usize {
    record_place(0, entry / 4) + 32 * (entry % 4)
}

/// Where a record of a block stands in the image: the sectors of a track are in
/// the order of 6s mod 26 + s/13.
pub fn record_place(block: usize, record: usize) -> usize {
    let record = 8 * block + record;
    let (track, sector) = (2 + record / 26, record % 26);
    128 * (26 * track + 6 * sector % 26 + sector / 13)
}

/// An empty disk with date entries whose bytes are all 0 otherwise, and a label
/// as entry 0 that asks for stamps.
pub fn dated_image(asks: u8) -> Vec<u8> {
    let mut image = vec![0xE5; benzokamuri::IMAGE_LEN];
    for entry in (0..1).chain((3..64).step_by(4)) {
        image[entry_place(entry)..][..32].fill(0);
        image[entry_place(entry)] = 0x21;
    }
    let label = entry_place(0);
    (image[label], image[label + 12]) = (0x20, asks | 1);
    image
}

/// A C program, compiled.
pub struct Compiled {
    program: PathBuf,
}

/// Compiles a C program of the repository with every warning an error, and
/// links it with the archive.
pub fn compile(source: &str) -> Compiled {
    let source = repository().join(source);
    let name = source.file_stem().expect("a file has a name");
    let program = Path::new(env!("CARGO_TARGET_TMPDIR")).join(name);
    let compiled = Command::new("cc")
        .args(["-std=c99", "-O2", "-g", "-Wall", "-Wextra", "-Werror"])
        .args(["-Wpedantic", "-Wconversion"])
        .arg("-I")
        .arg(repository().join("include"))
        .arg(&source)
        .arg(env!("ARCHIVE"))
        .arg("-o")
        .arg(&program)
        .output()
        .expect("the C compiler cc is on the path");
    let errors = String::from_utf8_lossy(&compiled.stderr);
    assert!(compiled.status.success(), "{errors}");
    Compiled { program }
}

impl Compiled {
    /// What it prints. It has to end well.
    pub fn run(&self) -> String {
        self.run_by(&mut Command::new(&self.program))
    }

    /// What it prints under another program, where that is there.
    pub fn run_under(&self, other: &str, words: &[&str]) -> Option<String> {
        let there = Command::new(other).arg("--version").output();
        there.ok().filter(|output| output.status.success())?;
        let mut command = Command::new(other);
        Some(self.run_by(command.args(words).arg(&self.program)))
    }

    fn run_by(&self, command: &mut Command) -> String {
        let output = command.output().expect("it can be run");
        let text = String::from_utf8_lossy(&output.stdout).into_owned();
        let errors = String::from_utf8_lossy(&output.stderr);
        assert!(output.status.success(), "{}: {text}{errors}", output.status);
        text
    }
}
