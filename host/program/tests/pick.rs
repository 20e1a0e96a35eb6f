//! The verb `pick`, as a job runs it.

mod common;

use benzokamuri::{BadTime, Date, Time};
use common::{ran, Folder, Ran};
use program::layout::entry_place;
use program::Desk;
use std::fs::{self, File};
use std::path::Path;
use std::sync::atomic::{AtomicBool, Ordering};
use std::time::{Duration, Instant};

/// The word of a day in the book of these tests.
fn word(day: usize) -> String {
    format!("the word of day {day}")
}

/// A book of so many days.
fn book(days: usize) -> Vec<u8> {
    let record = |day: usize| {
        let mut bytes = word(day).into_bytes();
        bytes.resize(128, 0x1A);
        bytes
    };
    (0..days).flat_map(record).collect()
}

/// A log record.
fn logged(year: u16, day: u16) -> Vec<u8> {
    let mut bytes = format!("{year:05} {day:03}\r\n").into_bytes();
    bytes.resize(128, 0x1A);
    bytes
}

/// A folder with a disk that has a book.
fn with_book() -> Folder {
    let folder = Folder::new();
    folder.done("new disk.img");
    folder.write("WORDS.DAT", &book(366));
    folder.done("put disk.img WORDS.DAT");
    folder
}

/// The log as it stands on the disk.
fn log(folder: &Folder) -> Vec<u8> {
    folder.run("get -r disk.img WORDS.LOG -").out
}

/// A run that has to come to this: status, what is printed, and what is said.
#[track_caller]
fn comes_to(ran: Ran, status: i32, out: &str, err: &str) {
    let printed = String::from_utf8_lossy(&ran.out).into_owned();
    assert_eq!(
        (ran.status, printed.as_str(), ran.err.as_str()),
        (Some(status), out, err)
    );
}

#[test]
fn the_night_the_clocks_go_back() {
    let folder = with_book();
    let night = ["--time", "2026-10-25 02:30", "pick", "disk.img"];
    let out = "the word of day 297\n";
    comes_to(
        folder.run_words(night),
        0,
        out,
        "benzokamuri: disk.img: year 2026, day 297: The word was picked, and the day is in the log now.\n",
    );
    let image = folder.read("disk.img");
    comes_to(
        folder.run_words(night),
        0,
        out,
        "benzokamuri: disk.img: year 2026, day 297: The word was picked again: the log had the day already.\n",
    );
    assert!(folder.read("disk.img") == image);
    assert_eq!(log(&folder), logged(2026, 297));
    // Another night.
    comes_to(
        folder.run_words(["pick", "-q", "--time", "2026-10-26 02:30", "disk.img"]),
        0,
        "the word of day 298\n",
        "",
    );
    let days = [logged(2026, 297), logged(2026, 298)].concat();
    assert_eq!(log(&folder), days);
}

/// Runs a line with a clock of the test's: status, what is printed and said.
fn with_clock(
    folder: &Folder,
    clock: fn() -> Result<Time, BadTime>,
    words: &[&str],
) -> (u8, String, String) {
    let disk = folder.at("disk.img");
    let words: Vec<_> = words.iter().map(Into::into).chain([disk.into()]).collect();
    let (mut out, mut err) = (Vec::new(), Vec::new());
    let mut desk = Desk::new(&mut out, &mut err);
    desk.clock = clock;
    let status = program::run(&words, &mut desk);
    let [out, err] = [out, err].map(|bytes| String::from_utf8(bytes).unwrap());
    (status, out, err)
}

/// A minute before a day ends.
fn date(year: u16, month: u8, day: u8) -> Result<Time, BadTime> {
    Time::on(Date { year, month, day }, 23, 59)
}

#[test]
fn today_is_the_clocks_day_counted_from_0() {
    let clocks: [(fn() -> _, usize); 3] = [
        (|| date(2027, 1, 1), 0),
        (|| date(2026, 12, 31), 364),
        (|| date(2028, 12, 31), 365),
    ];
    let folder = with_book();
    for (clock, day) in clocks {
        let (status, out, _) = with_clock(&folder, clock, &["pick"]);
        assert_eq!((status, out), (0, format!("{}\n", word(day))));
    }
    let days = [logged(2027, 0), logged(2026, 364), logged(2028, 365)];
    assert_eq!(log(&folder), days.concat());
    // A clock that tells no day needs somebody who does.
    let wrong = || Err(BadTime::NoSuchDay);
    let (status, out, err) = with_clock(&folder, wrong, &["pick"]);
    assert_eq!((status, out.as_str()), (1, ""));
    assert_eq!(err, "benzokamuri: the clock is wrong, so which day it is has to be said, by --year and --day: days are those from 1978-01-01 to 2157-06-05\n");
    let words = ["pick", "--year", "2026", "--day", "5"];
    let (status, out, _) = with_clock(&folder, wrong, &words);
    assert_eq!((status, out), (0, format!("{}\n", word(5))));
}

/// A job that has to wait for the image picks the day on which it was started.
#[test]
fn the_day_is_looked_at_before_the_image_is_waited_for() {
    static LOOKED: AtomicBool = AtomicBool::new(false);
    static TURNED: AtomicBool = AtomicBool::new(false);
    fn clock() -> Result<Time, BadTime> {
        let turned = TURNED.load(Ordering::SeqCst);
        LOOKED.store(true, Ordering::SeqCst);
        date(2026, 10, 25 + u8::from(turned))
    }
    let folder = with_book();
    let held = File::open(folder.at("disk.img")).expect("it is there");
    held.lock().expect("nobody else has it");
    std::thread::scope(|scope| {
        let job = scope.spawn(|| with_clock(&folder, clock, &["pick", "-q"]));
        let begun = Instant::now();
        while !LOOKED.load(Ordering::SeqCst) && begun.elapsed() < Duration::from_secs(2) {
            std::thread::sleep(Duration::from_millis(1));
        }
        TURNED.store(true, Ordering::SeqCst);
        assert!(!job.is_finished(), "the image is held");
        held.unlock().expect("it was held");
        let done = job.join().expect("it ends");
        assert_eq!(done, (0, format!("{}\n", word(297)), String::new()));
    });
    assert_eq!(log(&folder), logged(2026, 297));
}

/// The picker is handed the time: the log is stamped with it.
#[test]
fn the_log_is_stamped_with_the_time() {
    let folder = Folder::new();
    folder.done("new --dates --label work --stamp create --stamp update disk.img");
    folder.write("WORDS.DAT", &book(366));
    folder.done_at("2026-10-01 09:00", "put disk.img WORDS.DAT");
    let stamps = |name: &str| {
        let listed = folder.done("ls -l disk.img");
        let mut lines = listed.lines().filter(|line| line.contains(name));
        let line = lines.next().expect("the file is listed").to_string();
        [&line[51..67], &line[69..85]].map(str::to_string)
    };
    folder.done_at("2026-10-25 02:30", "pick disk.img");
    assert_eq!(stamps("WORDS.LOG"), ["2026-10-25 02:30"; 2]);
    // The day is another than the time's.
    folder.done_at("2026-11-02 17:45", "pick --year 2026 --day 298 disk.img");
    let later = ["2026-10-25 02:30", "2026-11-02 17:45"];
    assert_eq!(stamps("WORDS.LOG"), later);
    // Nothing is stamped where the log has the day, nor beside the book.
    folder.done_at("2026-11-03 08:00", "pick --year 2026 --day 298 disk.img");
    assert_eq!(stamps("WORDS.LOG"), later);
    assert_eq!(stamps("WORDS.DAT"), ["2026-10-01 09:00"; 2]);
}

/// The zone is the one that `TZ` names, as for stamps.
#[test]
fn today_is_the_local_day() {
    let folder = with_book();
    let days = ["UTC-14", "UTC+12"].map(|zone| {
        let mut command = folder.command();
        let ran = ran(command.args(["pick", "disk.img"]).env("TZ", zone));
        assert_eq!(ran.status, Some(0), "{}", ran.err);
        String::from_utf8(ran.out).expect("text")
    });
    assert_ne!(days[0], days[1], "26 hours apart");
    assert_eq!(log(&folder).len(), 256);
}

#[test]
fn words_are_lines_or_raw() {
    let folder = Folder::new();
    folder.done("new disk.img");
    let mut records = vec![b'x'; 3 * 128];
    records[..6].copy_from_slice(b"one\r\n\x1A");
    records[128] = 0x1A;
    folder.write("WORDS.DAT", &records);
    folder.done("put disk.img WORDS.DAT");
    let pick = |day: usize| {
        folder
            .run(&format!("pick -q --year 1 --day {day} disk.img"))
            .out
    };
    assert_eq!(pick(0), b"one\r\n");
    assert_eq!(pick(1), b"\n");
    assert_eq!(pick(2), [&[b'x'; 128][..], b"\n"].concat());
    let raw = folder.run("pick -q --raw --year 1 --day 0 disk.img").out;
    assert_eq!(raw, records[..128]);
}

#[test]
fn files_and_users_by_name() {
    let folder = Folder::new();
    folder.done("new disk.img");
    folder.write("book", &book(3));
    folder.done("put -u 7 disk.img book terms.txt");
    let line = "pick -q -u 7 --book terms.txt --log days.log --year 9 --day 2 disk.img";
    assert_eq!(folder.done(line), "the word of day 2\n");
    assert_eq!(
        folder.run("get -u 7 -r disk.img days.log -").out,
        logged(9, 2)
    );
    let said = folder.refused("pick --book a?b disk.img");
    assert!(said.contains("(255, 9)"), "{said}");
    let wrong = folder.run("pick --year 70000 --day 1 disk.img");
    assert!(wrong.status == Some(2) && wrong.err.contains("--year is a number from 0 to 65535"));
    let wrong = folder.run("pick --year 1 --day 70000 disk.img");
    assert!(wrong.status == Some(2) && wrong.err.contains("--day is a number from 0 to 365"));
}

/// A run that has to come to trouble, quiet or not, and leave the image as it is.
#[track_caller]
fn troubled(folder: &Folder, options: &str, day: usize, out: &str, err: &str) {
    let image = folder.read("disk.img");
    let err = format!("benzokamuri: disk.img: year 2026, day {day}: {err}\n");
    for quiet in ["", "-q "] {
        let line = format!("pick {quiet}{options}--year 2026 --day {day} disk.img");
        comes_to(folder.run(&line), 1, out, &err);
        assert!(folder.read("disk.img") == image, "{line}");
    }
}

const DAY_5: &str = "the word of day 5\n";

#[test]
fn troubles_say_what_to_do() {
    let folder = with_book();
    let days: Vec<u8> = (0..1_024).flat_map(|day| logged(day, 0)).collect();
    folder.write("full", &days);
    folder.done("put disk.img full full.log");
    folder.write("short", &book(5));
    folder.done("put disk.img short short.dat");
    for (options, day, out, err) in [
        ("", 366, "", "The day is over 365. Count days from 0: 1 January is day 0."),
        (
            "--book other.dat ",
            5,
            "",
            "There is no book: this user has no such file, or one without its first extent. Put the book onto the disk, as the user that the job runs as.",
        ),
        (
            "--book short.dat ",
            5,
            "",
            "The book has no record for this day. Write a book of 366 records, 128 bytes each.",
        ),
        (
            "--log words.dat ",
            5,
            DAY_5,
            "Book and log are one file, so the day was not logged. Name another file as the log.",
        ),
        (
            "--log full.log ",
            5,
            DAY_5,
            "The log is full: it has 1,024 records or more, none of this day. Rename the log; the next run makes a new one.",
        ),
    ] {
        troubled(&folder, options, day, out, err);
    }
    // A full log still knows its days.
    let image = folder.read("disk.img");
    folder.done("pick --log full.log --year 1023 --day 0 disk.img");
    assert!(folder.read("disk.img") == image);
}

/// Changes a byte of the log's only entry on the disk.
fn with_log_changed(folder: &Folder, at: usize, change: fn(u8) -> u8) {
    let mut image = folder.read("disk.img");
    let mut places = (0..64).map(entry_place);
    let log = places.find(|&place| image[place..][..12] == *b"\0WORDS   LOG");
    let place = log.expect("the log is there") + at;
    image[place] = change(image[place]);
    folder.write("disk.img", &image);
}

#[test]
fn troubles_of_a_log_that_is_there() {
    let folder = with_book();
    folder.done("pick --year 2026 --day 4 disk.img");
    let whole = folder.read("disk.img");
    with_log_changed(&folder, 12, |extent| extent + 1);
    troubled(
        &folder,
        "",
        5,
        DAY_5,
        "The log lacks its first extent, so the day was not logged. Keep what is left of the log elsewhere and delete it here; the next run makes a new one.",
    );
    folder.write("disk.img", &whole);
    with_log_changed(&folder, 9, |letter| letter | 0x80);
    troubled(
        &folder,
        "",
        5,
        DAY_5,
        "The log is read-only, so the day was not logged. Take the read-only attribute from the log, or name another log.",
    );
    folder.done("pick --log other.log --year 2026 --day 5 disk.img");
}

#[test]
fn a_full_directory_and_a_full_disk() {
    let folder = with_book();
    let whole = folder.read("disk.img");
    let mut image = whole.clone();
    for entry in (0..64).map(entry_place) {
        if image[entry] == 0xE5 {
            image[entry..][..32].fill(0);
            let name = format!("F{entry:<10}");
            image[entry + 1..][..11].copy_from_slice(name.as_bytes());
        }
    }
    folder.write("disk.img", &image);
    troubled(
        &folder,
        "",
        5,
        DAY_5,
        "The directory is full: the log needs an entry, and none is empty. Delete a file that is no longer needed.",
    );
    // The book has 46 of 241 blocks.
    folder.write("disk.img", &whole);
    folder.write("LARGE", &vec![1; 1_024 * (241 - 46)]);
    folder.done("put disk.img LARGE");
    troubled(
        &folder,
        "",
        5,
        DAY_5,
        "The disk is full: the log needs a block, and none is free. Delete a file that is no longer needed.",
    );
    folder.done("rm disk.img LARGE");
    folder.done("pick --year 2026 --day 5 disk.img");
}

#[test]
fn a_damaged_disk_has_no_word() {
    let folder = with_book();
    let mut image = folder.read("disk.img");
    image[6_656] = 0x10;
    folder.write("disk.img", &image);
    comes_to(
        folder.run("pick --year 2026 --day 5 disk.img"),
        1,
        "",
        "benzokamuri: disk.img: 255, 1: The directory of the image is not consistent, or the map does not fit it (13 takes any map, and makes it fit). Check the disk: `benzokamuri check` says what is wrong; if it finds nothing, the map is not this image's: log in.\n",
    );
}

/// What a save says of a file that was short, or had stamps that were never
/// written, is nothing that a job has to know.
#[test]
fn the_quiet_hear_nothing_of_what_was_filled_up() {
    let folder = Folder::new();
    folder.done("new --dates disk.img");
    folder.write("WORDS.DAT", &book(3));
    folder.done("put disk.img WORDS.DAT");
    let mut image = folder.read("disk.img");
    image.truncate(128 * 400);
    image[entry_place(3) + 1..][..4].fill(0xE5);
    let said = |words: &str| {
        folder.write("disk.img", &image);
        folder.run(&format!("pick {words}--year 1 --day 2 disk.img"))
    };
    comes_to(said("-q "), 0, "the word of day 2\n", "");
    assert_eq!(folder.read("disk.img").len(), 256_256);
    let loud = said("").err;
    assert_eq!(loud.lines().count(), 3, "{loud}");
    assert!(loud.contains("full length") && loud.contains("in 1 stamps"));
}

/// The paragraph of code in the workshop's page that has some words.
fn shown(words: &str) -> String {
    let page = Path::new(env!("CARGO_MANIFEST_DIR")).join("../../docs/PICKER.md");
    let page = fs::read_to_string(page).expect("the page is there");
    let mut code = page.lines().filter_map(|line| line.strip_prefix("    "));
    let line = code.find(|line| line.contains(words));
    line.unwrap_or_else(|| panic!("no {words}")).to_string()
}

/// The page's command for a book, and its line for cron, as cron runs it.
#[test]
fn the_workshops_lines() {
    let folder = Folder::new();
    let lines: String = (0..366).map(|day| format!("{}\n", word(day))).collect();
    folder.write("words.txt", lines.as_bytes());
    let shell = |line: &str| {
        let mut command = std::process::Command::new("/bin/sh");
        command.args(["-c", line]).current_dir(folder.path());
        ran(command.env("PATH", "/usr/bin:/bin"))
    };
    comes_to(shell(&shown("words.txt >")), 0, "", "");
    assert!(folder.read("WORDS.DAT") == book(366));
    folder.done("new words.img");
    folder.done("put words.img WORDS.DAT");
    let program = env!("CARGO_BIN_EXE_benzokamuri");
    let cron = shown("* * *").replace("/usr/local/bin/benzokamuri", program);
    let (_, line) = cron.split_once("* * *").expect("when it is started");
    let line = line.replace("/var/studio", folder.path().to_str().expect("text"));
    let text = |name: &str| String::from_utf8(folder.read(name)).expect("text");
    let days: Vec<String> = (0..366).map(|day| format!("{}\n", word(day))).collect();
    for _ in 0..2 {
        comes_to(shell(&line), 0, "", "");
        assert!(days.contains(&text("word.txt")));
    }
    // Trouble is told, and the word of before stays where there is none.
    folder.write("word.txt", b"yesterday's");
    folder.done("rm words.img WORDS.DAT");
    let ran = shell(&line);
    assert_eq!(ran.status, Some(1));
    assert!(ran.err.contains("There is no book"), "{}", ran.err);
    assert_eq!(text("word.txt"), "yesterday's");
    let elsewhere = line.replace(folder.path().to_str().expect("text"), "/no/such/folder");
    assert!(shell(&elsewhere).status != Some(0));
}

const NOT_SAVED: &str = "year 2026, day 5: the day could not be logged: disk.img can't be saved";

/// The studio has its word also where the image can't be saved.
#[test]
fn an_image_that_can_not_be_saved() {
    let folder = with_book();
    let image = folder.read("disk.img");
    let words = ["pick", "--year", "2026", "--day", "5", "disk.img"];
    let unsaved = |ran: Ran| {
        assert_eq!(ran.status, Some(1), "{}", ran.err);
        assert_eq!(ran.out, b"the word of day 5\n");
        assert!(ran.err.contains(NOT_SAVED), "{}", ran.err);
        assert!(folder.read("disk.img") == image);
    };
    unsaved(ran(folder.command_with_little_room().args(words)));
    folder.set_mode("disk.img", 0o444);
    if let Some(mut command) = folder.command_by_anybody() {
        unsaved(ran(command.args(words)));
    }
    // A day that is logged needs no save.
    folder.set_mode("disk.img", 0o644);
    folder.done("pick --year 2026 --day 5 disk.img");
    folder.set_mode("disk.img", 0o444);
    if let Some(mut command) = folder.command_by_anybody() {
        let again = ran(command.args(words));
        assert_eq!(again.status, Some(0), "{}", again.err);
    }
}

/// A run that is ended while it saves has printed nothing, and the next one hands
/// out the word, whether the log has the day by then or not.
#[test]
fn ended_at_any_step_of_the_save() {
    let folder = with_book();
    let old = folder.read("disk.img");
    let words = ["pick", "-q", "--year", "2026", "--day", "5", "disk.img"];
    // The last is the one between the save and the word.
    for step in [0, 1, 30, 64, 65, 66, 67, 68] {
        folder.write("disk.img", &old);
        let mut command = folder.command();
        let ended = ran(command
            .args(words)
            .env("BENZOKAMURI_END_SAVE_AT", step.to_string()));
        assert!(ended.status == Some(99) && ended.out.is_empty(), "{step}");
        let saved = folder.read("disk.img") != old;
        assert_eq!(saved, step > 66, "{step}");
        let next = folder.run_words(words);
        comes_to(next, 0, "the word of day 5\n", "");
        assert_eq!(log(&folder), logged(2026, 5), "{step}");
    }
    folder.write("disk.img", &old);
    let mut command = folder.command();
    let whole = ran(command.args(words).env("BENZOKAMURI_END_SAVE_AT", "69"));
    comes_to(whole, 0, "the word of day 5\n", "");
}

/// Two jobs at the same time wait for each other.
#[test]
fn jobs_at_the_same_time_log_the_day_once() {
    let folder = with_book();
    let jobs: Vec<_> = (0..8)
        .map(|_| {
            let mut command = folder.command();
            command.args(["pick", "--year", "2026", "--day", "5", "disk.img"]);
            command.stdout(std::process::Stdio::piped());
            command.stderr(std::process::Stdio::piped());
            command.spawn().expect("it can be started")
        })
        .collect();
    let mut logs = 0;
    for job in jobs {
        let output = job.wait_with_output().expect("it ends");
        assert!(output.status.success());
        assert_eq!(output.stdout, b"the word of day 5\n");
        let said = String::from_utf8_lossy(&output.stderr);
        logs += usize::from(said.contains("is in the log now"));
    }
    assert_eq!(logs, 1);
    assert_eq!(log(&folder), logged(2026, 5));
}

/// Nobody reads the word: it is logged all the same, and the next run has it.
#[test]
fn a_word_that_nobody_reads() {
    let folder = with_book();
    let line = "pick -q --year 2026 --day 5 disk.img";
    let unheard = folder.run_unheard(line);
    assert_eq!((unheard.status, unheard.err.as_str()), (Some(0), ""));
    assert_eq!(folder.done(line), "the word of day 5\n");
    assert_eq!(log(&folder), logged(2026, 5));
    let full = std::fs::OpenOptions::new().write(true).open("/dev/full");
    if let Ok(full) = full {
        let ran = folder.run_into(full, line);
        assert_eq!(ran.status, Some(1));
        assert!(ran.err.contains("standard output"), "{}", ran.err);
    }
}
