//! Other people's disks: made by cpmtools, read and changed by our verbs, and
//! disks of ours read by cpmtools.
//!
//! `disks/*.txt` are kept in the repository, so that this needs no cpmtools.
//! Where cpmtools is there the same is done with disks made on the spot, and
//! what our verbs wrote is handed back to it. To make the kept ones anew:
//!
//! ```text
//! cargo test -p program --test disks -- --ignored
//! ```

mod common;
#[path = "disks/dated.rs"]
mod dated;
#[path = "disks/packed.rs"]
mod packed;

use common::{ran, Folder, Ran};
use std::path::{Path, PathBuf};
use std::process::Command;

/// What cpmtools calls the diskette.
const FORMAT: [&str; 2] = ["-f", "ibm-3740"];

/// A file on a disk.
struct OnDisk {
    user: u8,
    name: &'static str,
    length: usize,
    /// What cpmchattr sets, and `ls` shows.
    attributes: (&'static str, &'static str),
}

/// A disk: how cpmtools makes it, and what must come out.
struct Recipe {
    name: &'static str,
    /// Deleted again before the last file is copied.
    deleted: &'static [OnDisk],
    files: &'static [OnDisk],
}

const fn file(user: u8, name: &'static str, length: usize) -> OnDisk {
    OnDisk {
        user,
        name,
        length,
        attributes: ("", ""),
    }
}

const fn marked(
    user: u8,
    name: &'static str,
    length: usize,
    attributes: (&'static str, &'static str),
) -> OnDisk {
    OnDisk {
        user,
        name,
        length,
        attributes,
    }
}

const RECIPES: [Recipe; 7] = [
    Recipe {
        name: "empty",
        deleted: &[],
        files: &[],
    },
    Recipe {
        name: "small",
        deleted: &[],
        files: &[
            file(0, "NOTHING", 0),
            file(0, "ONE", 1),
            file(0, "RECORD.X", 128),
            file(0, "TEXT.TXT", 300),
            file(0, "BLOCK.BIN", 1_024),
            file(0, "BLOCK1.BIN", 1_025),
        ],
    },
    Recipe {
        name: "users",
        deleted: &[],
        files: &[
            file(0, "SAME.TXT", 200),
            file(1, "SAME.TXT", 201),
            file(7, "SEVEN.DAT", 700),
            file(15, "LAST.DAT", 1_500),
            file(15, "SAME.TXT", 202),
        ],
    },
    Recipe {
        name: "extents",
        deleted: &[],
        files: &[
            file(0, "FULL.DAT", 16_384),
            file(0, "FULL1.DAT", 16_385),
            file(3, "LONG.DAT", 40_000),
        ],
    },
    Recipe {
        name: "marked",
        deleted: &[],
        files: &[
            marked(0, "LOCKED.TXT", 500, ("r", "ro")),
            marked(0, "SYSTEM.COM", 2_000, ("s", "sys")),
            marked(2, "BOTH.COM", 20_000, ("rs", "ro sys")),
            marked(2, "KEPT.DAT", 100, ("a", "arc")),
        ],
    },
    Recipe {
        name: "holes",
        deleted: &[file(0, "GONE1.DAT", 5_000), file(0, "GONE2.DAT", 18_000)],
        files: &[
            file(0, "STAYS.DAT", 3_000),
            file(0, "ALSO.DAT", 3_000),
            file(0, "FILLS.DAT", 30_000),
        ],
    },
    // All that cpmtools can reach: it makes nothing of the last track.
    Recipe {
        name: "full",
        deleted: &[],
        files: &[
            file(0, "HALF1.DAT", 119 * 1_024),
            file(4, "HALF2.DAT", 119 * 1_024),
        ],
    },
];

impl OnDisk {
    /// What the file holds: a number in each record, and one byte else.
    fn bytes(&self) -> Vec<u8> {
        let tag = self.name.bytes().fold(self.user, |tag, byte| {
            tag.wrapping_mul(31).wrapping_add(byte)
        });
        // A whole disk of different records would not be small.
        let numbered = self.length < 100_000;
        let byte = |i: usize| match i % 128 {
            0 if numbered => (i / 128) as u8,
            1 if numbered => (i / 128 / 256) as u8,
            _ => tag,
        };
        (0..self.length).map(byte).collect()
    }

    /// The name as cpmtools writes it.
    fn of_cpmtools(&self) -> String {
        format!("{}:{}", self.user, self.name.to_lowercase())
    }

    fn records(&self) -> usize {
        self.length.div_ceil(128)
    }

    fn line(&self) -> String {
        format!(
            "{:>4}  {:<12}  {:<10}  {:>7}  {:>8}",
            self.user,
            self.name,
            self.attributes.1,
            self.records(),
            self.length
        )
    }
}

// -- What must come out ------------------------------------------------------

/// Reads a disk of a recipe with our verbs.
fn read_with_our_verbs(folder: &Folder, recipe: &Recipe) {
    let name = recipe.name;
    let image = folder.read("disk.img");
    assert!(
        folder.done("check disk.img").contains("consistent"),
        "{name}"
    );
    let mut expected: Vec<&OnDisk> = recipe.files.iter().collect();
    expected.sort_by_key(|file| (file.user, file.name));
    let listed = folder.done("ls -a disk.img");
    let lines: Vec<&str> = listed.lines().collect();
    let (_, lines) = lines.split_first().expect("a heading");
    let (_, lines) = lines.split_last().expect("a last line");
    let expected_lines: Vec<String> = expected.iter().map(|file| file.line()).collect();
    assert_eq!(lines, expected_lines, "{name}");
    for file in expected {
        let got = folder.run(&format!("get -u {} disk.img {} -", file.user, file.name));
        assert_eq!(got.status, Some(0), "{name}: {}", got.err);
        assert_eq!(got.err, "", "{name}");
        assert!(got.out == file.bytes(), "{name}: {}", file.name);
        let whole = folder.run(&format!("get -r -u {} disk.img {} -", file.user, file.name));
        assert_eq!(whole.out.len(), 128 * file.records(), "{name}");
        assert!(whole.out.starts_with(&file.bytes()), "{name}");
    }
    let blocks: usize = recipe
        .files
        .iter()
        .map(|file| file.length.div_ceil(1_024))
        .sum();
    let free = folder.done("free disk.img");
    let expected = format!("records {:>6} of 1928\n", 8 * (241 - blocks));
    assert!(free.starts_with(&expected), "{name}: {free}");
    assert!(folder.read("disk.img") == image, "{name}: reading wrote");
}

/// Changes a disk of a recipe with our verbs, and gives what it holds then.
fn change_with_our_verbs(folder: &Folder, recipe: &Recipe) -> Vec<(u8, String, Vec<u8>)> {
    let mut held = Vec::new();
    for (number, file) in recipe.files.iter().enumerate() {
        let OnDisk { user, name, .. } = *file;
        let locked = file.attributes.1.contains("ro");
        let line = match number % 3 {
            0 => format!("mv -u {user} disk.img {name} moved{number}.new"),
            1 => format!("rm -u {user} disk.img {name}"),
            _ => {
                held.push((user, name.to_string(), file.bytes()));
                continue;
            }
        };
        if locked {
            let said = folder.refused(&line);
            assert!(said.contains("255, 3: The file is read-only."), "{said}");
            held.push((user, name.to_string(), file.bytes()));
            continue;
        }
        folder.done(&line);
        if number % 3 == 0 {
            held.push((user, format!("MOVED{number}.NEW"), file.bytes()));
        }
    }
    let free = folder.done("free disk.img");
    let records = free.split_whitespace().nth(1).and_then(|n| n.parse().ok());
    let records: usize = records.expect("a number");
    for (user, name, length) in [(0, "OURS.DAT", 20_480), (11, "OURS.TXT", 1_000)] {
        if records < 20_480 / 128 + 8 {
            continue;
        }
        let mut bytes = common::bytes(length, user);
        folder.write("ours", &bytes);
        folder.done(&format!("put -u {user} disk.img ours {name}"));
        bytes.resize(length.next_multiple_of(128), 0x1A);
        held.push((user, name.to_string(), bytes));
    }
    assert!(folder.done("check disk.img").contains("consistent"));
    for (user, name, bytes) in &held {
        let got = folder.run(&format!("get -u {user} disk.img {name} -"));
        assert!(got.out == *bytes, "{}: {name}", recipe.name);
    }
    held
}

#[test]
fn kept_disks() {
    for recipe in &RECIPES {
        let folder = kept_disk(recipe.name);
        read_with_our_verbs(&folder, recipe);
        change_with_our_verbs(&folder, recipe);
    }
}

/// A folder with a kept disk in it.
fn kept_disk(name: &str) -> Folder {
    let folder = Folder::new();
    let text = std::fs::read_to_string(kept(name)).expect("the disk is kept");
    let image = packed::unpack(&text).expect("a packed disk");
    assert!(
        image.len() < 256_256,
        "cpmtools leaves out what it never wrote"
    );
    folder.write("disk.img", &image);
    folder
}

fn kept(name: &str) -> PathBuf {
    let folder = Path::new(env!("CARGO_MANIFEST_DIR")).join("tests/disks");
    folder.join(format!("{name}.txt"))
}

/// What cpmtools 2.23 leaves of two files that take all 241 blocks: it says
/// nothing, but what belongs on track 76 is not in the file.
#[test]
fn a_disk_that_lacks_what_its_directory_lists() {
    let folder = Folder::new();
    let image = packed::unpack(include_str!("disks/torn.txt")).expect("a packed disk");
    folder.write("torn.img", &image);
    let said = folder.refused("ls torn.img");
    assert!(
        said.contains("252928 bytes long and has to be 256256"),
        "{said}"
    );
    assert!(
        said.contains("entries list records behind its end"),
        "{said}"
    );
    let mut filled = image;
    filled.resize(256_256, 0);
    folder.write("torn.img", &filled);
    assert_eq!(folder.run("get torn.img h1.dat -").out.len(), 120 * 1_024);
}

// -- With cpmtools ------------------------------------------------------------

/// Where cpmtools is not, says so. `BENZOKAMURI_CPMTOOLS` may name a folder
/// that its programs, its libraries and its file diskdefs are in.
fn cpmtools_is_there() -> bool {
    let there = cpmtool("mkfs.cpm").arg("-h").output().is_ok();
    if !there {
        println!("skipped: cpmtools is not there, so no disks are made and read on the spot");
    }
    there
}

fn cpmtool(name: &str) -> Command {
    let mut command = match std::env::var_os("BENZOKAMURI_CPMTOOLS") {
        Some(folder) => {
            let mut command = Command::new(Path::new(&folder).join(name));
            command.env("LD_LIBRARY_PATH", folder);
            command
        }
        None => Command::new(name),
    };
    // It makes stamps of the local time.
    command.env("TZ", "UTC0");
    command
}

/// Runs one of cpmtools in a folder; it has to do what it is told.
fn cpm(folder: &Folder, tool: &str, words: &[&str]) -> String {
    cpm_as(FORMAT, folder, tool, words)
}

/// The same for a format.
fn cpm_as(format: [&str; 2], folder: &Folder, tool: &str, words: &[&str]) -> String {
    let mut command = cpmtool(tool);
    command.current_dir(folder.path()).args(format).args(words);
    let Ran { status, out, err } = ran(&mut command);
    let out = String::from_utf8_lossy(&out).into_owned();
    assert_eq!(status, Some(0), "{tool} {words:?}: {out}{err}");
    format!("{out}{err}")
}

/// Makes a disk of a recipe with cpmtools.
fn made_by_cpmtools(recipe: &Recipe) -> Folder {
    let folder = Folder::new();
    if let Some(tools) = std::env::var_os("BENZOKAMURI_CPMTOOLS") {
        // Looked for in the present folder too.
        let _ = std::fs::copy(Path::new(&tools).join("diskdefs"), folder.at("diskdefs"));
    }
    cpm(&folder, "mkfs.cpm", &["disk.img"]);
    let copy = |file: &OnDisk| {
        folder.write("file", &file.bytes());
        cpm(&folder, "cpmcp", &["disk.img", "file", &file.of_cpmtools()]);
        let (attributes, _) = file.attributes;
        if !attributes.is_empty() {
            let words = ["disk.img", attributes, &file.of_cpmtools()];
            cpm(&folder, "cpmchattr", &words);
        }
    };
    let (last, first) = match recipe.files.split_last() {
        Some((last, first)) => (Some(last), first),
        None => (None, &[][..]),
    };
    // In turn, so that what is deleted leaves holes.
    for number in 0..first.len().max(recipe.deleted.len()) {
        recipe.deleted.get(number).into_iter().for_each(copy);
        first.get(number).into_iter().for_each(copy);
    }
    for file in recipe.deleted {
        cpm(&folder, "cpmrm", &["disk.img", &file.of_cpmtools()]);
    }
    last.into_iter().for_each(copy);
    folder
}

/// Has cpmtools check a disk and read its files back.
fn read_with_cpmtools(folder: &Folder, held: &[(u8, String, Vec<u8>)]) {
    let said = cpm(folder, "fsck.cpm", &["-n", "disk.img"]);
    assert!(!said.contains("rror"), "{said}");
    assert!(!said.contains("arning"), "{said}");
    for (user, name, bytes) in held {
        let word = format!("{user}:{}", name.to_lowercase());
        cpm(folder, "cpmcp", &["disk.img", &word, "back"]);
        assert!(folder.read("back") == *bytes, "{word}");
        std::fs::remove_file(folder.at("back")).expect("it was just read");
    }
}

#[test]
fn live_disks_of_cpmtools() {
    if !cpmtools_is_there() {
        return;
    }
    for recipe in &RECIPES {
        let folder = made_by_cpmtools(recipe);
        read_with_our_verbs(&folder, recipe);
        let held = change_with_our_verbs(&folder, recipe);
        read_with_cpmtools(&folder, &held);
    }
    println!("{} disks of cpmtools read and changed", RECIPES.len());
}

#[test]
fn live_disks_of_ours() {
    if !cpmtools_is_there() {
        return;
    }
    let mut count = 0;
    for recipe in &RECIPES {
        // Made by cpmtools for its folder, and made anew by our verb.
        let folder = made_by_cpmtools(recipe);
        folder.done("new -f disk.img");
        let mut held = Vec::new();
        for file in recipe.files {
            let mut bytes = file.bytes();
            folder.write("ours", &bytes);
            let OnDisk { user, name, .. } = file;
            folder.done(&format!("put -u {user} disk.img ours {name}"));
            bytes.resize(128 * file.records(), 0x1A);
            held.push((*user, name.to_string(), bytes));
        }
        read_with_cpmtools(&folder, &held);
        // Once more, after cpmtools has changed what we wrote.
        folder.write("theirs", b"from the other side");
        if recipe.name != "full" {
            cpm(&folder, "cpmcp", &["disk.img", "theirs", "9:theirs.txt"]);
            assert_eq!(
                folder.run("get -u 9 disk.img theirs.txt -").out,
                b"from the other side"
            );
            folder.done("rm -u 9 disk.img *.*");
        }
        read_with_cpmtools(&folder, &held);
        count += 1;
    }
    println!("{count} disks of ours read by cpmtools");
}

/// Writes the kept disks anew.
#[test]
#[ignore = "writes to the repository"]
fn keep_disks() {
    assert!(cpmtools_is_there());
    for recipe in &RECIPES {
        keep(recipe.name, &made_by_cpmtools(recipe));
    }
}

/// Keeps the disk of a folder.
fn keep(name: &str, folder: &Folder) {
    let image = folder.read("disk.img");
    let text = packed::pack(&image);
    assert_eq!(packed::unpack(&text).as_ref(), Some(&image));
    println!("{name}: {} bytes in {}", image.len(), text.len());
    std::fs::write(kept(name), text).expect("the disk can be kept");
}
