//! Labels and stamps, of cpmtools and of ours. cpmtools heeds them where a disk
//! definition says `os 3`; ours is `disks/diskdefs`.
//!
//! `disks/dated.txt` and `disks/labelled.txt` are kept. Both were made by
//! `mkfs.cpm -f 8-inch-dated -L WORK`, the first with `-t`, and the files by
//! `cpmcp -p` from files of the host that had been changed when they say.

use super::common::{minutes, Folder, TO_1978};
use super::{cpm_as, cpmtools_is_there, file, keep, kept_disk, OnDisk};
use benzokamuri::Time;
use std::fs::File;
use std::time::{Duration, UNIX_EPOCH};

/// What the definition calls the diskette.
const FORMAT: [&str; 2] = ["-f", "8-inch-dated"];

/// A file, when it was changed, and how cpmtools shows that.
struct Dated {
    file: OnDisk,
    changed: &'static str,
    shown: &'static str,
}

const fn dated(file: OnDisk, changed: &'static str, shown: &'static str) -> Dated {
    Dated {
        file,
        changed,
        shown,
    }
}

const FILES: [Dated; 4] = [
    dated(
        file(0, "FIRST.DAY", 300),
        "1978-01-01 00:00",
        "01-Jan-1978 00:00",
    ),
    dated(
        file(0, "LEAP.DAT", 20_000),
        "2000-02-29 23:59",
        "29-Feb-2000 23:59",
    ),
    dated(
        file(7, "LATE.DAT", 1),
        "2026-11-15 06:00",
        "15-Nov-2026 06:00",
    ),
    dated(
        file(7, "LAST.DAY", 128),
        "2157-06-05 23:59",
        "05-Jun-2157 23:59",
    ),
];

/// What the other side puts on a disk afterwards.
const MORE: Dated = dated(
    file(3, "MORE.TXT", 1_024),
    "2012-12-31 09:08",
    "31-Dec-2012 09:08",
);

/// A file of the host that was changed at a time, of Greenwich's.
fn write_at(folder: &Folder, bytes: &[u8], time: &str) {
    folder.write("file", bytes);
    let time: Time = time.parse().expect("a time");
    let changed = Duration::from_secs(TO_1978 + 60 * minutes(time.stamp()));
    let file = File::options().append(true).open(folder.at("file"));
    let set = file.and_then(|file| file.set_modified(UNIX_EPOCH + changed));
    set.expect("the time can be set");
}

/// A folder for cpmtools, which looks for definitions in the present folder
/// first.
fn folder_with_definition() -> Folder {
    let folder = Folder::new();
    folder.write("diskdefs", include_bytes!("diskdefs"));
    folder
}

fn cpm(folder: &Folder, tool: &str, words: &[&str]) -> String {
    cpm_as(FORMAT, folder, tool, words)
}

/// Has cpmtools put files on a disk, with the times at which they were changed.
fn put_by_cpmtools(folder: &Folder, files: &[Dated]) {
    for Dated { file, changed, .. } in files {
        write_at(folder, &file.bytes(), changed);
        let words = ["-p", "disk.img", "file", &file.of_cpmtools()];
        cpm(folder, "cpmcp", &words);
    }
}

/// Puts a file on a disk by our verb, when it says, and gives the remarks.
fn put_by_ours(folder: &Folder, Dated { file, changed, .. }: &Dated) -> String {
    folder.write("file", &file.bytes());
    let line = format!("put -u {} disk.img file {}", file.user, file.name);
    let put = folder.run_words(["--time", changed].into_iter().chain(line.split(' ')));
    assert_eq!(put.status, Some(0), "{}", put.err);
    put.err
}

/// A disk that cpmtools made, with date entries or with the label alone.
fn made_by_cpmtools(dated: bool) -> Folder {
    let folder = folder_with_definition();
    let label = ["-L", "WORK", "disk.img"];
    match dated {
        true => cpm(&folder, "mkfs.cpm", &[&["-t"][..], &label].concat()),
        false => cpm(&folder, "mkfs.cpm", &label),
    };
    put_by_cpmtools(&folder, &FILES);
    folder
}

/// The line of `ls -la` for a file, which has to come off as it went on.
fn shown_by_ours(folder: &Folder, file: &OnDisk) -> String {
    let OnDisk { user, name, .. } = file;
    let listed = folder.done("ls -la disk.img");
    let begins = format!("{user:>4}  {name:<12}  ");
    let mut lines = listed.lines();
    let line = lines.find(|line| line.starts_with(&begins));
    let line = line.unwrap_or_else(|| panic!("{name}: {listed}"));
    let got = folder.run(&format!("get -u {user} disk.img {name} -"));
    assert_eq!((got.status, got.err.as_str()), (Some(0), ""), "{name}");
    assert!(got.out == file.bytes(), "{name}");
    line.to_string()
}

/// Reads a disk of cpmtools with our verbs.
fn read_with_our_verbs(folder: &Folder, dated: bool) {
    for Dated { file, changed, .. } in &FILES {
        let line = shown_by_ours(folder, file);
        assert_eq!(line.len() > 49, dated, "{line}");
        if dated {
            assert_eq!(&line[69..], *changed, "{line}");
            // When it was copied, which is another day for each disk.
            assert!(line[51..67].parse::<Time>().is_ok(), "{line}");
        }
    }
}

/// Changes a disk of cpmtools with our verbs, some of whose stamps were never
/// written.
fn change_with_our_verbs(folder: &Folder, dated: bool) {
    let before = folder.read("disk.img");
    // Two for each entry of the first three in four that is no file's, or the
    // label's own two.
    let blank = if dated { 2 * (48 - 5) } else { 2 };
    let checked = folder.run("check disk.img");
    assert_eq!(checked.status, Some(1), "the calls would refuse it");
    let checked = String::from_utf8(checked.out).expect("a text");
    assert_eq!(checked.lines().count(), 2 * blank + 1, "{checked}");
    let said = format!("\n{blank} stamps are E5H, as cpmtools leaves them: ");
    assert!(checked.contains(&said), "{checked}");
    let called = folder.run("call disk.img 13");
    assert_eq!(called.status, Some(1), "so they answer");
    let answer = b"call 13 (log in): A = 255, H = 1\n";
    assert!(called.out.starts_with(answer), "{}", called.err);
    assert!(folder.read("disk.img") == before, "neither writes anything");

    let remarks = put_by_ours(folder, &MORE);
    let said = format!("saved with zeros in {blank} stamps that were E5H");
    assert!(remarks.contains(&said), "{remarks}");
    // The label of cpmtools asks for create stamps alone.
    let line = shown_by_ours(folder, &MORE.file);
    let stamps = format!("  {}  -", MORE.changed);
    assert_eq!(line.ends_with(&stamps), dated, "{line}");
    let asks = match dated {
        true => "create stamps; 16 date",
        false => "no stamps; no date",
    };
    let checked = folder.done("check disk.img");
    let said = format!("\nlabel WORK, which asks for {asks} entries");
    assert!(checked.contains(&said), "{checked}");
    folder.done("call disk.img 13");
}

#[test]
fn kept_dated_disks() {
    for (name, dated) in [("dated", true), ("labelled", false)] {
        let folder = kept_disk(name);
        read_with_our_verbs(&folder, dated);
        change_with_our_verbs(&folder, dated);
        read_with_our_verbs(&folder, dated);
    }
}

/// Has cpmtools check a disk and read a file, and gives its line of `cpmls -D`.
fn shown_by_cpmtools(folder: &Folder, file: &OnDisk) -> String {
    let said = cpm(folder, "fsck.cpm", &["-n", "disk.img"]);
    // It warns of files that were changed before they were created, too.
    let dates = "Warning: Modification date earlier than creation date";
    let mut others = said.lines().filter(|line| !line.starts_with(dates));
    let fine = others.all(|line| !line.contains("rror") && !line.contains("arning"));
    assert!(fine, "{said}");
    cpm(folder, "cpmcp", &["disk.img", &file.of_cpmtools(), "back"]);
    let back = folder.read("back");
    assert!(back.starts_with(&file.bytes()), "{}", file.name);
    std::fs::remove_file(folder.at("back")).expect("it was just read");
    let listed = cpm(folder, "cpmls", &["-D", "disk.img"]);
    let (stem, kind) = file.name.split_once('.').expect("a type");
    let begins = format!("{stem:<8}.{kind:<3} ");
    let line = listed.lines().find(|line| line.starts_with(&begins));
    let line = line.unwrap_or_else(|| panic!("{begins}: {listed}"));
    line.trim_end().to_string()
}

#[test]
fn live_disks_dated_by_cpmtools() {
    if !cpmtools_is_there() {
        return;
    }
    for dated in [true, false] {
        let folder = made_by_cpmtools(dated);
        read_with_our_verbs(&folder, dated);
        change_with_our_verbs(&folder, dated);
        // No update stamp is the day before the first for it.
        let line = shown_by_cpmtools(&folder, &MORE.file);
        let stamps = format!("31-Dec-1977 00:00  {}", MORE.shown);
        assert_eq!(line.ends_with(&stamps), dated, "{line}");
        for Dated { file, .. } in &FILES {
            shown_by_cpmtools(&folder, file);
        }
        // What it adds to the disk that we have saved is read too.
        folder.done(&format!("rm -u 3 disk.img {}", MORE.file.name));
        put_by_cpmtools(&folder, &[MORE]);
        let line = shown_by_ours(&folder, &MORE.file);
        assert_eq!(line.ends_with(MORE.changed), dated, "{line}");
        assert!(folder.done("check disk.img").contains("consistent"));
    }
    println!("2 disks with labels of cpmtools read and changed");
}

#[test]
fn live_disks_dated_by_ours() {
    if !cpmtools_is_there() {
        return;
    }
    for asked in ["create", "access", "update"] {
        let folder = folder_with_definition();
        let line = "new --dates --label ours.dsk --stamp update";
        folder.done(&format!("{line} --stamp {asked} disk.img"));
        for dated in &FILES {
            put_by_ours(&folder, dated);
        }
        folder.done_at(MORE.changed, "get --stamp -u 7 disk.img *.* -");
        for Dated { file, shown, .. } in &FILES {
            // What it makes of the first stamp: it knows the label's bit for
            // create, and shows nothing where another is set.
            let due = match asked {
                "create" => format!(" {shown}  {shown}"),
                _ => format!(" {shown}"),
            };
            let line = shown_by_cpmtools(&folder, file);
            assert!(line.ends_with(&due) && line.len() < 70, "{asked}: {line}");
        }
        // What it adds is shown by ours, and what was there stays.
        put_by_cpmtools(&folder, &[MORE]);
        assert!(shown_by_ours(&folder, &MORE.file).ends_with(MORE.changed));
        assert!(folder.done("check disk.img").contains("consistent"));
        let late = folder.done("ls -l -u 7 disk.img late.dat");
        let first = match asked {
            "create" => "2026-11-15 06:00",
            "access" => MORE.changed,
            _ => "-",
        };
        let stamps = format!("  {first:<16}  2026-11-15 06:00\n");
        assert!(late.contains(&stamps), "{asked}: {late}");
    }
    println!("3 disks with dates of ours read and changed by cpmtools");
}

/// Writes the kept disks anew.
#[test]
#[ignore = "writes to the repository"]
fn keep_dated_disks() {
    assert!(cpmtools_is_there());
    keep("dated", &made_by_cpmtools(true));
    keep("labelled", &made_by_cpmtools(false));
}
