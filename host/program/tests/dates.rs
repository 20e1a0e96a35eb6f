//! Labels, date entries and stamps, as a user meets them.

mod common;

use benzokamuri::{BadTime, Time};
use common::{bytes, minutes, ran, Folder, Ran, TO_1978};
use program::layout::entry_place;
use program::Desk;
use std::fs::File;
use std::io::Read;
use std::os::unix::fs::symlink;
use std::process::{Command, Stdio};
use std::time::{Duration, SystemTime, UNIX_EPOCH};

/// What is handed in where a test does not say otherwise, and later.
const NOW: &str = "2026-11-15 06:00";
const LATER: &str = "2027-01-02 23:59";

/// The stamp of `NOW`.
const NOW_STAMP: [u8; 4] = [0xBB, 0x45, 0x06, 0x00];

/// A folder with an empty dated disk whose label asks for these stamps.
fn dated(stamps: &[&str]) -> Folder {
    let folder = Folder::new();
    let asked: Vec<String> = stamps
        .iter()
        .map(|kind| format!(" --stamp {kind}"))
        .collect();
    let line = format!("new --dates --label work.dsk{} disk.img", asked.concat());
    assert_eq!(folder.done_at(NOW, &line), "");
    folder.write("file", b"x");
    folder
}

/// The line of `ls -l` for a file.
fn listed(folder: &Folder, line: &str, name: &str) -> String {
    let listed = folder.done(line);
    let mut lines = listed.lines();
    let found = lines.find(|line| line[6..].starts_with(&format!("{name} ")));
    found
        .unwrap_or_else(|| panic!("{name}: {listed}"))
        .to_string()
}

/// The two stamps that `ls -l` shows for a file of user 0.
fn stamps(folder: &Folder, name: &str) -> [String; 2] {
    let line = listed(folder, "ls -l disk.img", name);
    [&line[51..67], &line[69..]].map(|stamp| stamp.trim_end().to_string())
}

// -- new ------------------------------------------------------------------

#[test]
fn a_dated_disk_byte_by_byte() {
    let folder = dated(&["create", "update"]);
    let mut expected = vec![0xE5; 256_256];
    let mut label = b" WORK    DSK\x31".to_vec();
    label.extend([0; 11]);
    label.extend([NOW_STAMP, NOW_STAMP].concat());
    expected[6_656..6_688].copy_from_slice(&label);
    for entry in (3..64).step_by(4) {
        let place = entry_place(entry);
        expected[place..place + 32].fill(0);
        expected[place] = 0x21;
    }
    assert!(folder.read("disk.img") == expected);
    assert_eq!(
        folder.done("check disk.img"),
        "\
disk.img: consistent; 0 of 64 entries are used, 0 files, 0 blocks
label WORK.DSK, which asks for create and update stamps; 16 date entries
"
    );
}

#[test]
fn what_a_label_asks_for() {
    for (options, name, bits) in [
        ("--dates --label a --stamp create", "A", Some(0x11)),
        ("--dates --label a --stamp update", "A", Some(0x21)),
        (
            "--dates --label a --stamp=access --stamp update",
            "A",
            Some(0x61),
        ),
        (
            "--stamp create --stamp create --label a --dates",
            "A",
            Some(0x11),
        ),
        ("--dates --label a --label b.c", "B       C", Some(0x01)),
        // A label without date entries names the disk; nothing is stamped.
        ("--label my%20disk", "MY DISK", Some(0x01)),
        // Who asks for stamps needs a label, whatever it is called.
        ("--dates --stamp update", "LABEL", Some(0x21)),
        ("--dates", "", None),
    ] {
        let folder = Folder::new();
        folder.done_at(NOW, &format!("new {options} disk.img"));
        let entry = folder.read("disk.img")[6_656..6_688].to_vec();
        match bits {
            Some(bits) => {
                assert_eq!((entry[0], entry[12]), (0x20, bits), "{options}");
                assert_eq!(entry[1..12], *format!("{name:<11}").as_bytes(), "{options}");
                assert_eq!(entry[24..], [NOW_STAMP, NOW_STAMP].concat());
            }
            None => assert_eq!(entry, [0xE5; 32]),
        }
        let dated = folder.read("disk.img")[entry_place(63)] == 0x21;
        assert_eq!(dated, options.contains("--dates"), "{options}");
        assert!(folder.done("check disk.img").contains(": consistent;"));
    }
}

#[test]
fn wrong_disks_are_wrong_usage_and_not_made() {
    let folder = Folder::new();
    for line in [
        "new --dates --stamp create --stamp access disk.img",
        "new --dates --stamp access --stamp update --stamp create disk.img",
        "new --stamp update disk.img",
        "new --label a --stamp create disk.img",
        "new --dates --stamp disk.img",
        "new --dates --stamp made disk.img",
        "new --dates --stamp Create disk.img",
        "new --label disk.img",
        "new --dates=yes disk.img",
    ] {
        let Ran { status, err, .. } = folder.run(line);
        assert_eq!(status, Some(2), "{line}: {err}");
        assert!(err.contains("`benzokamuri help new`"), "{line}: {err}");
        assert_eq!(folder.names(), [""; 0], "{line}");
    }
    // A name that is none is refused as it is elsewhere.
    for (name, why) in [
        ("much-too-long", "at most eight characters"),
        ("a.b.c", "one dot at most"),
        ("*", "can't stand where one file is named"),
        (".dsk", "begin with a character"),
    ] {
        let said = folder.refused(&format!("new --dates --label {name} disk.img"));
        assert!(said.contains(why), "{said}");
        assert!(!said.contains("255"), "no call is refused: {said}");
        assert_eq!(folder.names(), [""; 0], "{name}");
    }
    folder.write("disk.img", b"precious");
    folder.refused("new --dates disk.img");
    assert_eq!(folder.read("disk.img"), b"precious");
}

#[test]
fn labels_and_date_entries_are_no_room_for_files() {
    let folder = dated(&["create"]);
    assert!(folder
        .done("free disk.img")
        .contains("entries     47 of 47\n"));
    for number in 0..47 {
        folder.done_at(NOW, &format!("put disk.img file f{number}"));
    }
    assert!(folder
        .done("free disk.img")
        .contains("entries      0 of 47\n"));
    let said = folder.refused("put disk.img file more");
    assert!(said.contains(": 255, 0: The directory is full"), "{said}");
    assert!(folder
        .done("check disk.img")
        .contains("47 of 64 entries are used"));
}

// -- Stamps ---------------------------------------------------------------

#[test]
fn stamps_are_those_that_the_label_asks_for() {
    for (asked, due) in [
        (&["create", "update"][..], [NOW, NOW]),
        (&["create"], [NOW, "-"]),
        (&["update"], ["-", NOW]),
        (&["access", "update"], ["-", NOW]),
        (&[], ["-", "-"]),
    ] {
        let folder = dated(asked);
        folder.done_at(NOW, "put disk.img file a.txt");
        assert_eq!(stamps(&folder, "A.TXT"), due, "{asked:?}");
        // Neither a new name nor looking at it stamps it.
        folder.done_at(LATER, "mv disk.img a.txt b.txt");
        folder.done_at(LATER, "get disk.img b.txt -");
        assert_eq!(stamps(&folder, "B.TXT"), due, "{asked:?}");
        // What is put anew is made anew, at a time that may be earlier.
        folder.done_at("1978-01-01 00:01", "put -f disk.img file b.txt");
        let again = due.map(|stamp| stamp.replace(NOW, "1978-01-01 00:01"));
        assert_eq!(stamps(&folder, "B.TXT"), again, "{asked:?}");
    }
}

#[test]
fn a_disk_without_date_entries_is_never_stamped() {
    let folder = dated(&["create", "update"]);
    // The label asks, but one cannot be made so: --stamp needs --dates.
    let mut image = folder.read("disk.img");
    for entry in (3..64).step_by(4) {
        image[entry_place(entry)..][..32].fill(0xE5);
    }
    folder.write("disk.img", &image);
    folder.done_at(NOW, "put disk.img file");
    let expected = "\
user  name          attributes  records      size
   0  FILE                            1       128
      entry  1, extent    0: rc   1, blocks 2
1 file, 1 record; 1920 records are free
";
    assert_eq!(folder.done("ls -l disk.img"), expected);
    let said = folder.done("check disk.img");
    assert!(said.contains("\nlabel WORK.DSK, which asks for create and update stamps; no date entries, so none is stamped\n"), "{said}");
}

/// A file with four extents, one of which is changed later by calls.
#[test]
fn each_extent_has_its_own_stamps() {
    let folder = dated(&["create", "update"]);
    folder.write("long", &bytes(50_000, 3));
    folder.done_at(NOW, "put disk.img long -u 2");
    let call = |time: &str, line: &str| {
        let line = format!("call --lift --state state -u 2 disk.img {line}");
        folder.done_at(time, &line)
    };
    // Record 391 stands in the last extent's block; it makes it longer.
    let opened = call(LATER, "15 --name long");
    let fcb = opened.lines().last().unwrap().strip_prefix("FCB ").unwrap();
    let fcb = format!("{}870100", &fcb[..66]);
    call(LATER, &format!("34 {fcb}"));
    call(LATER, "16");
    assert_eq!(
        folder.done("ls -l -u 2 disk.img"),
        "\
user  name          attributes  records      size  create/access     update
   2  LONG                          392     50176  2026-11-15 06:00  2026-11-15 06:00
      entry  1, extent    0: rc 128, blocks 2-17
      entry  2, extent    1: rc 128, stamps - and 2026-11-15 06:00, blocks 18-33
      entry  4, extent    2: rc 128, stamps - and 2026-11-15 06:00, blocks 34-49
      entry  5, extent    3: rc   8, stamps - and 2027-01-02 23:59, blocks 50
1 file, 392 records; 1536 records are free
"
    );
    assert!(
        !folder.done("ls -u 2 disk.img").contains("update"),
        "only -l"
    );
}

#[test]
fn stamps_that_are_no_dates_and_columns_that_hold() {
    let folder = dated(&["create", "update"]);
    for name in ["a", "b", "%61%62%63.%64", "c"] {
        folder.done_at(NOW, &format!("put disk.img file {name}"));
    }
    let mut image = folder.read("disk.img");
    let mut put = |entry: usize, at: usize, stamp: [u8; 4]| {
        let place = entry_place(entry | 3) + 1 + 10 * (entry % 4) + at;
        image[place..place + 4].copy_from_slice(&stamp);
    };
    put(1, 0, [0, 0, 0, 0]);
    put(1, 4, [0, 0, 0x06, 0x30]);
    put(2, 0, [1, 0, 0x24, 0x00]);
    put(2, 4, [0xFF, 0xFF, 0x99, 0x99]);
    put(5, 0, [0x3D, 0x00, 0x23, 0x60]);
    for attribute in 1..=8 {
        image[entry_place(5) + attribute] |= 0x80;
    }
    folder.write("disk.img", &image);
    assert!(folder.done("check disk.img").contains("consistent"));
    let listed = folder.done("ls -l disk.img");
    let files: Vec<&str> = listed
        .lines()
        .filter(|line| !line.contains("entry"))
        .collect();
    assert_eq!(
        files,
        [
            "user  name           attributes               records      size  create/access     update",
            "   0  A                                             1       128  -                 day 0 06:30",
            "   0  B                                             1       128  1978-01-01 24:00  2157-06-05 99:99",
            "   0  C              f1 f2 f3 f4 f5 f6 f7 f8        1       128  1978-03-02 23:60  2026-11-15 06:00",
            "   0  %61%62%63.%64                                 1       128  2026-11-15 06:00  2026-11-15 06:00",
            "4 files, 4 records; 1896 records are free",
        ]
    );
}

#[test]
fn the_picture_of_the_map_is_unchanged() {
    let folder = dated(&["create", "update"]);
    folder.done("new plain.img");
    folder.write("long", &bytes(40_000, 3));
    for disk in ["disk.img", "plain.img"] {
        folder.done(&format!("put {disk} file"));
        folder.done(&format!("put -u 9 {disk} long"));
    }
    let picture = folder.done("map disk.img");
    assert_eq!(picture, folder.done("map plain.img"));
    assert!(picture.starts_with("    0  # # A B B "), "{picture}");
}

// -- get --stamp ----------------------------------------------------------

/// A folder with a disk whose label asks for access stamps, and two files.
fn with_access() -> Folder {
    let folder = dated(&["access", "update"]);
    folder.done_at(NOW, "put disk.img file a.txt");
    folder.done_at(NOW, "put disk.img file b.txt");
    folder
}

#[test]
fn looking_leaves_no_stamp_and_get_stamp_does() {
    let folder = with_access();
    let before = folder.read("disk.img");
    for line in [
        "get disk.img a.txt -",
        "get disk.img *.*",
        "ls -la disk.img",
        "check disk.img",
        "map disk.img",
        "free disk.img",
    ] {
        folder.done_at(LATER, line);
        assert!(folder.read("disk.img") == before, "{line}");
    }
    folder.done_at(LATER, "get --stamp disk.img a.txt -");
    assert_eq!(stamps(&folder, "A.TXT"), [LATER, NOW]);
    assert_eq!(stamps(&folder, "B.TXT"), ["-", NOW]);
    folder.done_at(NOW, "get --stamp -f disk.img *.*");
    assert_eq!(stamps(&folder, "A.TXT"), [NOW, NOW], "time may go back");
    assert_eq!(stamps(&folder, "B.TXT"), [NOW, NOW]);
    assert_eq!(folder.read("B.TXT").len(), 128);
    // Where nothing asks for access stamps, nothing is saved.
    let folder = dated(&["create"]);
    folder.done_at(NOW, "put disk.img file");
    let before = folder.read("disk.img");
    folder.done_at(LATER, "get --stamp disk.img file copy");
    assert!(folder.read("disk.img") == before);
}

#[test]
fn a_get_that_fails_leaves_no_stamp() {
    let folder = with_access();
    folder.write("B.TXT", b"precious");
    let before = folder.read("disk.img");
    symlink(folder.at("disk.img"), folder.at("link")).unwrap();
    std::fs::hard_link(folder.at("disk.img"), folder.at("other.img")).unwrap();
    for (line, why) in [
        ("get --stamp disk.img *.*", "B.TXT is there already"),
        ("get --stamp disk.img a.txt no/such", "can't be saved"),
        ("get --stamp disk.img c.txt -", "255, 0"),
        (
            "get --stamp -f disk.img a.txt disk.img",
            "disk.img is the image",
        ),
        ("get --stamp -f disk.img a.txt link", "link is the image"),
        (
            "get --stamp -f other.img a.txt disk.img",
            "disk.img is the image",
        ),
    ] {
        let said = folder.refused(line);
        assert!(said.contains(why), "{line}: {said}");
        assert!(folder.read("disk.img") == before, "{line}");
        assert!(!folder.at("A.TXT").exists(), "{line}");
    }
    assert_eq!(folder.read("B.TXT"), b"precious");
    // Standard output is written before the image is saved.
    let full = File::options().write(true).open("/dev/full").unwrap();
    let mut command = folder.command();
    let command = command.args(["get", "--stamp", "disk.img", "a.txt", "-"]);
    let status = command.stdout(full).stderr(Stdio::null()).status().unwrap();
    assert_eq!(status.code(), Some(1));
    assert!(folder.read("disk.img") == before);
}

/// A run that was to stamp but reached nobody.
fn assert_not_stamped(folder: &Folder, before: &[u8], ran: Ran) {
    let said = "disk.img: not stamped, for nobody got what went to standard output\n";
    assert_eq!(ran.status, Some(1), "{}", ran.err);
    assert!(ran.err.contains(said), "{}", ran.err);
    assert!(folder.read("disk.img") == before);
    assert_eq!(folder.names(), ["disk.img", "file", "long", "none"]);
}

#[test]
fn what_reaches_nobody_leaves_no_stamp() {
    let folder = with_access();
    folder.write("long", &bytes(100_000, 3));
    folder.write("none", b"");
    folder.done_at(NOW, "put disk.img long");
    folder.done_at(NOW, "put disk.img none");
    let before = folder.read("disk.img");
    let line = "get --stamp disk.img a.txt -";
    assert_not_stamped(&folder, &before, folder.run_unheard(line));
    // Rust puts /dev/null where standard output is closed, so they are one.
    assert_not_stamped(&folder, &before, folder.run_into(Stdio::null(), line));
    let mut closed = Command::new("sh");
    closed.args([
        "-c",
        "exec \"$@\" >&-",
        "sh",
        env!("CARGO_BIN_EXE_benzokamuri"),
    ]);
    closed.args(line.split(' ')).current_dir(folder.path());
    assert_not_stamped(&folder, &before, ran(&mut closed));
    // A reader who leaves in the middle, as `head` does.
    let (mut reader, writer) = std::io::pipe().unwrap();
    let leaves = std::thread::spawn(move || reader.read_exact(&mut [0]).unwrap());
    let left = folder.run_into(writer, "get --stamp disk.img long -");
    leaves.join().unwrap();
    assert_not_stamped(&folder, &before, left);
    // Who does not ask for stamps has nothing to lose.
    for line in ["get disk.img a.txt -", "get disk.img long -"] {
        assert_eq!(folder.run_unheard(line).status, Some(0), "{line}");
        assert_eq!(folder.run_into(Stdio::null(), line).status, Some(0));
    }
}

/// Where nothing is to go to standard output, nothing is lost there.
#[test]
fn what_is_not_printed_is_not_lost() {
    let folder = with_access();
    folder.write("none", b"");
    folder.done_at(NOW, "put disk.img none");
    let line = "get --stamp -f disk.img a.txt copy";
    for (file, line) in [("A.TXT", line), ("NONE", "get --stamp disk.img none -")] {
        assert_eq!(folder.run_unheard(line).status, Some(0), "{line}");
        assert_ne!(stamps(&folder, file)[0], "-");
    }
    let stamped = folder.run_into(Stdio::null(), line);
    assert_eq!(stamped.status, Some(0), "{}", stamped.err);
}

/// Ended at any step of its saves, a stamp is on the image only where the file
/// is there.
#[test]
fn a_file_is_written_before_its_stamp() {
    let folder = with_access();
    let old = folder.read("disk.img");
    let (mut neither, mut file_alone, mut both) = (0, 0, 0);
    for step in 0.. {
        folder.write("disk.img", &old);
        let _ = std::fs::remove_file(folder.at("copy"));
        let mut command = folder.command();
        command.args(["get", "--stamp", "disk.img", "a.txt", "copy"]);
        let status = command.env("BENZOKAMURI_END_SAVE_AT", step.to_string());
        let status = status.status().unwrap();
        let copied = std::fs::read(folder.at("copy")).is_ok_and(|bytes| bytes.len() == 128);
        match (copied, folder.read("disk.img") != old) {
            (false, false) => neither += 1,
            (true, false) => file_alone += 1,
            (true, true) => both += 1,
            (false, true) => panic!("step {step}: a stamp without the file"),
        }
        if status.success() {
            break;
        }
    }
    // The image is ready before the file takes its place.
    assert!(neither > 63 && file_alone >= 2 && both >= 2);
}

#[test]
fn an_image_that_may_not_be_written_to_is_not_stamped() {
    let folder = with_access();
    let before = folder.read("disk.img");
    folder.set_mode("disk.img", 0o444);
    let Some(mut command) = folder.command_by_anybody() else {
        return;
    };
    let refused = ran(command.args(["get", "--stamp", "disk.img", "a.txt"]));
    assert_eq!(refused.status, Some(1));
    let due = "disk.img can't be saved, for its file may not be written to: Permission denied";
    assert!(refused.err.contains(due), "{}", refused.err);
    assert!(folder.read("disk.img") == before);
    assert_eq!(folder.names(), ["disk.img", "file"], "no file is written");
    let Some(mut command) = folder.command_by_anybody() else {
        return;
    };
    let looked = ran(command.args(["get", "disk.img", "a.txt"]));
    assert_eq!(looked.status, Some(0), "{}", looked.err);
}

#[test]
fn get_stamp_waits_for_whoever_changes_the_image() {
    let folder = with_access();
    let held = File::open(folder.at("disk.img")).unwrap();
    held.lock().unwrap();
    folder.done_at(LATER, "get disk.img a.txt -");
    let mut command = folder.command();
    let command = command.args(["get", "--stamp", "disk.img", "a.txt", "copy"]);
    let mut child = command.spawn().unwrap();
    std::thread::sleep(Duration::from_millis(300));
    assert!(child.try_wait().unwrap().is_none(), "it waits");
    assert!(!folder.at("copy").exists());
    drop(held);
    assert!(child.wait().unwrap().success());
    assert_ne!(stamps(&folder, "A.TXT")[0], "-");
}

// -- The time -------------------------------------------------------------

#[test]
fn times_are_given_anywhere() {
    let folder = dated(&["create"]);
    for (number, words) in [
        ["--time", LATER, "put", "disk.img", "file", "f0"],
        ["put", "--time", LATER, "disk.img", "file", "f1"],
        ["put", "disk.img", "file", "f2", "--time", LATER],
    ]
    .iter()
    .enumerate()
    {
        let Ran { status, err, .. } = folder.run_words(words);
        assert_eq!(status, Some(0), "{err}");
        assert_eq!(stamps(&folder, &format!("F{number}"))[0], LATER);
    }
    // What stands behind the verb is meant, and =.
    let joined = format!("--time={NOW}");
    folder.run_words(["--time", LATER, "put", &joined, "disk.img", "file", "f3"]);
    assert_eq!(stamps(&folder, "F3")[0], NOW);
    for time in ["1978-01-01 00:00", "2157-06-05 23:59"] {
        folder.done_at(time, "put -f disk.img file edge");
        assert_eq!(stamps(&folder, "EDGE")[0], time);
    }
}

#[test]
fn times_that_are_none_are_wrong_usage() {
    let folder = dated(&["create"]);
    let before = folder.read("disk.img");
    for (time, why) in [
        ("", "a time is written as 2026-11-15 06:00"),
        ("now", "a time is written as 2026-11-15 06:00"),
        ("2026-11-15", "a time is written as 2026-11-15 06:00"),
        ("2026-02-29 06:00", "there is no such day, hour or minute"),
        ("2026-11-15 24:00", "there is no such day, hour or minute"),
        (
            "1977-12-31 23:59",
            "days are those from 1978-01-01 to 2157-06-05",
        ),
        (
            "2157-06-06 00:00",
            "days are those from 1978-01-01 to 2157-06-05",
        ),
    ] {
        for verb in ["new x", "put disk.img file x", "ls disk.img", "demo"] {
            let words = verb.split(' ').chain(["--time", time]);
            let Ran { status, out, err } = folder.run_words(words);
            assert_eq!((status, out.len()), (Some(2), 0), "{verb}, {time}: {err}");
            assert!(err.contains(why), "{verb}, {time}: {err}");
            assert!(err.contains(&format!("{time:?}")), "{verb}, {time}: {err}");
        }
    }
    assert_eq!(folder.run("ls disk.img --time").status, Some(2));
    assert!(folder.read("disk.img") == before);
}

/// Every verb knows the option, and those that make no use of it too.
#[test]
fn every_verb_takes_a_time() {
    let folder = dated(&["access"]);
    for line in [
        "new -f other.img",
        "put disk.img file a",
        "ls disk.img",
        "get disk.img a -",
        "mv disk.img a b",
        "rm disk.img b",
        "free disk.img",
        "check disk.img",
        "map disk.img",
        "call disk.img 13",
        "put disk.img file words.dat",
        "pick -q --year 2026 --day 0 disk.img",
        "demo",
    ] {
        folder.done_at(NOW, line);
    }
    assert_eq!(folder.done_at(LATER, "demo"), folder.done("demo"));
    assert!(folder.done("help").contains("--time \"2026-11-15 06:00\""));
}

/// Minutes since 1 January 1978, 00:00 UTC.
fn minutes_utc() -> u64 {
    let seconds = SystemTime::now()
        .duration_since(UNIX_EPOCH)
        .unwrap()
        .as_secs();
    (seconds - TO_1978) / 60
}

#[test]
fn the_local_time_is_handed_in() {
    for (zone, hours_east) in [("UTC0", 0), ("ABC-14", 14), ("ABC+11", -11)] {
        let folder = Folder::new();
        let before = minutes_utc();
        let mut command = folder.command();
        command
            .args(["new", "--label", "a", "disk.img"])
            .env("TZ", zone);
        assert_eq!(ran(&mut command).status, Some(0));
        let after = minutes_utc();
        let image = folder.read("disk.img");
        let stamp: [u8; 4] = std::array::from_fn(|i| image[6_656 + 24 + i]);
        let stamped = minutes(stamp);
        let [before, after] = [before, after].map(|utc| utc.checked_add_signed(60 * hours_east));
        assert!(
            (before..=after).contains(&Some(stamped)),
            "{zone}: {stamp:02X?}"
        );
    }
}

/// Runs a command line with a clock of the test's.
fn run_with_clock(clock: fn() -> Result<Time, BadTime>, words: &[&str]) -> (u8, String) {
    let words: Vec<_> = words.iter().map(Into::into).collect();
    let (mut out, mut err) = (Vec::new(), Vec::new());
    let mut desk = Desk::new(&mut out, &mut err);
    desk.clock = clock;
    let status = program::run(&words, &mut desk);
    (status, String::from_utf8(err).unwrap())
}

#[test]
fn a_clock_that_has_no_day_of_ours_is_told() {
    const WRONG: &str = "benzokamuri: the clock is wrong, so day 0, 00:00 is handed in: days are those from 1978-01-01 to 2157-06-05\n";
    let folder = dated(&["create", "update"]);
    let [disk, file] = ["disk.img", "file"].map(|name| folder.at(name));
    let [disk, file] = [&disk, &file].map(|path| path.to_str().unwrap());
    let wrong = || Err(BadTime::NoSuchDay);
    let done = |words: &[&str]| run_with_clock(wrong, words);
    assert_eq!(done(&["put", disk, file, "a"]), (0, WRONG.into()));
    assert_eq!(stamps(&folder, "A"), ["-", "-"]);
    assert_eq!(
        done(&["new", "-f", "--label", "x", disk]),
        (0, WRONG.into())
    );
    assert_eq!(folder.read("disk.img")[6_656 + 24..6_688], [0; 8]);
    for words in [
        &["ls", disk][..],
        &["check", disk],
        &["map", disk],
        &["free", disk],
        &["call", disk, "13"],
    ] {
        assert_eq!(done(words), (0, WRONG.into()), "{words:?}");
    }
    // Who says what time it is, or needs none, hears nothing of the clock.
    assert_eq!(done(&["ls", disk, "--time", NOW]), (0, String::new()));
    assert_eq!(done(&["new", "-f", "--dates", disk]), (0, String::new()));
    assert_eq!(done(&["demo"]), (0, String::new()));
    let right = || Time::new(1, 2, 3).ok_or(BadTime::NoSuchDay);
    let words = ["new", "-f", "--label", "x", disk];
    assert_eq!(run_with_clock(right, &words), (0, String::new()));
    assert_eq!(folder.read("disk.img")[6_656 + 24..][..4], [1, 0, 2, 3]);
}

// -- call and check -------------------------------------------------------

#[test]
fn a_call_that_stamps_is_saved() {
    let folder = with_access();
    let before = folder.read("disk.img");
    let opened = folder.done_at(LATER, "call --lift -n disk.img 15 --name b.txt");
    assert!(folder.read("disk.img") == before, "-n saves nothing");
    let expected = format!(
        "call 15 (open): A = 2, H = 0\nentry 3, byte {} of the image:\n  was 21",
        entry_place(3)
    );
    assert!(opened.starts_with(&expected), "{opened}");
    let opened = folder.done_at(LATER, "call disk.img 15 --name b.txt");
    assert!(!opened.contains("of the image"), "protected: {opened}");
    assert!(folder.read("disk.img") == before);
    folder.done_at(LATER, "call --lift disk.img 15 --name b.txt");
    assert_eq!(stamps(&folder, "B.TXT"), [LATER, NOW]);
    let before = folder.read("disk.img");
    folder.done_at(NOW, "call disk.img 17 --name b.txt");
    assert!(folder.read("disk.img") == before);
    let said = folder.refused("call disk.img 15 --name nosuch");
    assert!(said.contains("255, 0"), "{said}");
    assert!(folder.read("disk.img") == before);
}

#[test]
fn check_names_what_is_wrong_with_dates() {
    let folder = with_access();
    let sound = folder.read("disk.img");
    for (place, value, due) in [
        (entry_place(4), 0x21, "entry 4, byte 0 is 21H: a date entry is the fourth of four, and this is not (byte 7424 of the image)\n"),
        (entry_place(7), 0xE5, "entry 7, byte 0 is E5H: 21H is due, since entry 3 is a date entry, and all fourth entries are or none (byte 7520 of the image)\n"),
        (entry_place(4), 0x20, "entry 4, byte 0 is 20H: entry 0 is the label, and there is one at most (byte 7424 of the image)\n"),
        (entry_place(0) + 12, 0x71, "entry 0, byte 12 (label data) is 71H: bit 4 (create) or bit 6 (access), not both, is due (byte 6668 of the image)\n"),
        (entry_place(0) + 27, 0x6A, "entry 0, byte 27 (minute) is 6AH: a number in BCD is due (byte 6683 of the image)\n"),
        (entry_place(3) + 13, 0xFF, "entry 3, byte 13 (hour) is FFH: a number in BCD is due (byte 6765 of the image)\n"),
        // Beside an empty entry.
        (entry_place(63) + 28, 0x0F, "entry 63, byte 28 (minute) is 0FH: a number in BCD is due (byte 8444 of the image)\n"),
    ] {
        let mut image = sound.clone();
        if place == entry_place(4) {
            image[place..place + 32].fill(0);
        }
        image[place] = value;
        folder.write("bad.img", &image);
        let Ran { status, out, err } = folder.run("check bad.img");
        assert_eq!((status, String::from_utf8(out).unwrap()), (Some(1), due.into()));
        assert!(err.contains(": 1 fault: 255, 1: "), "{err}");
        let said = folder.refused("ls bad.img");
        assert!(said.contains(": 255, 1: "), "{said}");
        assert!(folder.read("bad.img") == image);
    }
}

/// An image with a label of E5H stamps in an entry.
fn with_blank_label(image: &[u8], entry: usize) -> Vec<u8> {
    let mut image = image.to_vec();
    let label = &mut image[entry_place(entry)..][..32];
    label.fill(0);
    label[0] = 0x20;
    label[24..].fill(0xE5);
    image
}

#[test]
fn check_speaks_of_zeros_only_where_they_are_read() {
    const SAYS: &str =
        "\n2 stamps are E5H, as cpmtools leaves them: other verbs but call read them as zeros\n";
    let folder = with_access();
    let sound = folder.read("disk.img");
    let check = |image: &[u8]| {
        folder.write("bad.img", image);
        let Ran { status, out, .. } = folder.run("check bad.img");
        assert_eq!(status, Some(1));
        String::from_utf8(out).unwrap()
    };
    let blank = with_blank_label(&sound, 0);
    let said = check(&blank);
    assert!(said.ends_with(SAYS) && said.lines().count() == 5, "{said}");
    assert!(folder.done("ls bad.img").contains("A.TXT"));
    // A disk that has another fault is refused as it is.
    let mut other_hour = blank.clone();
    other_hour[entry_place(3) + 13] = 0xFF;
    for image in [with_blank_label(&sound, 4), other_hour] {
        let said = check(&image);
        assert!(said.lines().count() == 5, "{said}");
        assert!(!said.contains("zeros"), "{said}");
        assert!(folder.refused("ls bad.img").contains(": 255, 1: "));
    }
}

/// `call` shows what the library answers to the file's bytes, whatever other
/// verbs make of them.
#[test]
fn call_lends_stamps_as_they_are() {
    let folder = with_access();
    let blank = with_blank_label(&folder.read("disk.img"), 0);
    folder.write("disk.img", &blank);
    for number in ["13", "15 --name a.txt", "17 --name a.txt", "46"] {
        let Ran { status, out, err } = folder.run(&format!("call disk.img {number}"));
        let out = String::from_utf8(out).unwrap();
        assert_eq!(status, Some(1), "{number}");
        assert!(out.contains(": A = 255, H = 1\nnothing changed\n"), "{out}");
        assert!(err.contains(": 255, 1: "), "{err}");
        assert!(folder.read("disk.img") == blank, "{number}");
    }
    // A verb that saves the image makes it one that calls take.
    folder.done_at(NOW, "mv disk.img b.txt c.txt");
    let said = folder.done("call disk.img 13");
    assert!(
        said.starts_with("call 13 (log in): A = 0, H = 0\n"),
        "{said}"
    );
    assert!(folder
        .done("help call")
        .contains("255, 1. Verbs other than this and `check`\nread them as zeros"));
}
