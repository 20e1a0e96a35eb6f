//! What the tests share: a folder of their own, and the program run in it.

#![allow(dead_code)]

use std::ffi::OsStr;
use std::fs;
use std::os::unix::fs::PermissionsExt;
use std::path::{Path, PathBuf};
use std::process::{Command, Stdio};
use std::sync::atomic::{AtomicUsize, Ordering};
use std::time::{Duration, Instant};

/// A folder that goes when it is no longer needed.
pub struct Folder {
    path: PathBuf,
}

/// What a run of a program came to.
#[derive(Debug, PartialEq, Eq)]
pub struct Ran {
    pub status: Option<i32>,
    pub out: Vec<u8>,
    pub err: String,
}

impl Folder {
    pub fn new() -> Folder {
        static NUMBER: AtomicUsize = AtomicUsize::new(0);
        let number = NUMBER.fetch_add(1, Ordering::Relaxed);
        let name = format!("{}-{number}", std::process::id());
        let path = Path::new(env!("CARGO_TARGET_TMPDIR")).join(name);
        fs::create_dir_all(&path).expect("a folder can be made");
        Folder { path }
    }

    pub fn path(&self) -> &Path {
        &self.path
    }

    pub fn at(&self, name: &str) -> PathBuf {
        self.path.join(name)
    }

    pub fn read(&self, name: &str) -> Vec<u8> {
        fs::read(self.at(name)).unwrap_or_else(|error| panic!("{name}: {error}"))
    }

    pub fn write(&self, name: &str, bytes: &[u8]) {
        fs::write(self.at(name), bytes).unwrap_or_else(|error| panic!("{name}: {error}"));
    }

    /// The names of all files, hidden ones too.
    pub fn names(&self) -> Vec<String> {
        let entries = fs::read_dir(&self.path).expect("the folder can be read");
        let mut names: Vec<String> = entries
            .map(|entry| entry.expect("an entry").file_name())
            .map(|name| name.to_string_lossy().into_owned())
            .collect();
        names.sort();
        names
    }

    /// The program, to be run in the folder.
    pub fn command(&self) -> Command {
        let mut command = Command::new(env!("CARGO_BIN_EXE_benzokamuri"));
        command.current_dir(&self.path).stdin(Stdio::null());
        command
    }

    /// The program, to be run in the folder by somebody who may not write where
    /// modes forbid it. Where the tests are run by the superuser and nothing can
    /// take those rights away, says so and gives nothing.
    pub fn command_by_anybody(&self) -> Option<Command> {
        let program = env!("CARGO_BIN_EXE_benzokamuri");
        self.write("protected", b"");
        self.set_mode("protected", 0o444);
        let without_rights = ["setpriv", "--bounding-set=-all", "--inh-caps=-all"];
        let ways: [&[&str]; 2] = [&["env"], &without_rights];
        let obeys_modes = |way: &&&[&str]| {
            let writes = ["sh", "-c", ": 2>/dev/null >>protected && echo written"];
            let mut command = Command::new(way[0]);
            command.args(&way[1..]).args(writes);
            let output = command.current_dir(&self.path).output();
            // A way that is not there has not run the shell.
            output.is_ok_and(|output| {
                !output.status.success() && output.stdout.is_empty() && output.stderr.is_empty()
            })
        };
        let way = ways.iter().find(obeys_modes);
        fs::remove_file(self.at("protected")).expect("it was just written");
        let Some(way) = way else {
            println!("skipped: the superuser may write anywhere, and setpriv can't change that");
            return None;
        };
        let mut command = Command::new(way[0]);
        command.args(&way[1..]).arg(program);
        command.current_dir(&self.path).stdin(Stdio::null());
        Some(command)
    }

    /// The program, to be run in the folder where no file can be longer than
    /// 4,096 or 8,192 bytes, as shells count.
    pub fn command_with_little_room(&self) -> Command {
        let mut command = Command::new("sh");
        let line = "trap '' XFSZ; ulimit -f 8; exec \"$@\"";
        command.args(["-c", line, "sh", env!("CARGO_BIN_EXE_benzokamuri")]);
        command.current_dir(&self.path).stdin(Stdio::null());
        command
    }

    /// Sets the mode of a file, or of the folder itself for an empty name.
    pub fn set_mode(&self, name: &str, mode: u32) {
        let set = fs::set_permissions(self.at(name), fs::Permissions::from_mode(mode));
        set.unwrap_or_else(|error| panic!("{name}: {error}"));
    }

    /// Runs the program with the words of a line.
    pub fn run(&self, line: &str) -> Ran {
        self.run_words(line.split(' '))
    }

    /// Runs the program with these words.
    pub fn run_words(&self, words: impl IntoIterator<Item = impl AsRef<OsStr>>) -> Ran {
        ran(self.command().args(words))
    }

    /// Runs the program with what it prints going elsewhere.
    pub fn run_into(&self, out: impl Into<Stdio>, line: &str) -> Ran {
        let mut command = self.command();
        ran(command.args(line.split(' ')).stdout(out))
    }

    /// Runs the program with nobody reading what it prints.
    pub fn run_unheard(&self, line: &str) -> Ran {
        let (reader, writer) = std::io::pipe().expect("a pipe can be made");
        drop(reader);
        self.run_into(writer, line)
    }

    /// Runs the program, which has to do what it is told, and gives what it
    /// prints.
    pub fn done(&self, line: &str) -> String {
        let ran = self.run(line);
        assert_eq!(ran.status, Some(0), "{line}: {}", ran.err);
        String::from_utf8(ran.out).expect("a text")
    }

    /// The same with a time handed in.
    pub fn done_at(&self, time: &str, line: &str) -> String {
        let ran = self.run_words(["--time", time].into_iter().chain(line.split(' ')));
        assert_eq!(ran.status, Some(0), "{line}: {}", ran.err);
        String::from_utf8(ran.out).expect("a text")
    }

    /// Runs the program, which has to refuse, and gives what it says.
    pub fn refused(&self, line: &str) -> String {
        let ran = self.run(line);
        assert_eq!(ran.status, Some(1), "{line}: {}", ran.err);
        ran.err
    }
}

impl Drop for Folder {
    fn drop(&mut self) {
        let _ = fs::remove_dir_all(&self.path);
    }
}

/// Runs a command to its end.
pub fn ran(command: &mut Command) -> Ran {
    let output = command.output().expect("the program can be run");
    Ran {
        status: output.status.code(),
        out: output.stdout,
        err: String::from_utf8_lossy(&output.stderr).into_owned(),
    }
}

/// Runs a command that has to end soon.
pub fn ran_soon(command: &mut Command) -> Ran {
    command.stdout(Stdio::piped()).stderr(Stdio::piped());
    let mut child = command.spawn().expect("the program can be run");
    let begun = Instant::now();
    while child.try_wait().expect("it can be waited for").is_none() {
        if begun.elapsed() > Duration::from_secs(60) {
            let _ = child.kill();
            panic!("{command:?} does not end");
        }
        std::thread::sleep(Duration::from_millis(5));
    }
    let output = child.wait_with_output().expect("it has ended");
    Ran {
        status: output.status.code(),
        out: output.stdout,
        err: String::from_utf8_lossy(&output.stderr).into_owned(),
    }
}

/// Seconds from 1970 to the beginning of day 1, of Greenwich's.
pub const TO_1978: u64 = 252_460_800;

/// The minutes from the beginning of day 1 to a stamp.
pub fn minutes(stamp: [u8; 4]) -> u64 {
    let [low, high, hour, minute] = stamp;
    let two = |bcd: u8| 10 * u64::from(bcd >> 4) + u64::from(bcd & 15);
    let days = u64::from(u16::from_le_bytes([low, high])) - 1;
    1_440 * days + 60 * two(hour) + two(minute)
}

/// Bytes that are not all alike, from a number.
pub fn bytes(length: usize, from: u8) -> Vec<u8> {
    (0..length)
        .map(|i| (i / 128) as u8 ^ (i % 128) as u8 ^ from)
        .collect()
}
