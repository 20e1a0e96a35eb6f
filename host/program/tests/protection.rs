//! Write protection: verbs that look never lift it, verbs that change a disk do
//! so once, `demo` once for each of its three, the picker lifts for its log alone,
//! and `call` keeps it from one run to the next.

mod common;

use common::Folder;
use program::Desk;
use std::ffi::OsString;
use std::fs;
use std::path::Path;

/// A disk whose label asks for access and update stamps, with a file that
/// fills more than an extent and a small one.
fn with_files() -> Folder {
    let folder = Folder::new();
    folder.done("new --dates --label work --stamp access --stamp update disk.img");
    folder.write("LONG.DAT", &[7; 20_000]);
    folder.write("NOTE.TXT", b"a note");
    for name in ["LONG.DAT", "NOTE.TXT"] {
        folder.done_at("2026-11-15 06:00", &format!("put disk.img {name}"));
    }
    folder
}

/// Runs a line in a folder by the program's own function. Gives the exit status
/// and how often the protection was lifted.
fn lifts(folder: &Folder, line: &str) -> (u8, usize) {
    let words: Vec<OsString> = line
        .split(' ')
        .map(|word| match word.strip_prefix('@') {
            Some(name) => folder.at(name).into(),
            None => word.into(),
        })
        .collect();
    let (mut out, mut err) = (Vec::new(), Vec::new());
    let mut desk = Desk::new(&mut out, &mut err);
    let status = program::run(&words, &mut desk);
    (status, desk.lifts)
}

#[test]
fn verbs_that_look_never_lift() {
    let folder = with_files();
    folder.done("call --lift --state kept disk.img 13");
    assert_eq!(kept(&folder), "1", "a state that is lifted");
    let before = folder.read("disk.img");
    let state = folder.read("kept");
    for line in [
        "ls @disk.img",
        "ls -l -a @disk.img *.txt",
        "get @disk.img long.dat @copy",
        "get -f -r @disk.img *.* @.",
        "get @disk.img nosuch @none",
        "free @disk.img",
        "check @disk.img",
        "check --state @kept @disk.img",
        "map @disk.img",
        "map --svg @map.svg @disk.img",
        "map --state @kept @disk.img",
        "call @disk.img 13",
        "call @disk.img 15 --name note.txt",
        "call -n @disk.img 22 --name new",
        "help codes",
        "new @other.img",
    ] {
        let refused = line.contains("nosuch") || line.contains(" 22 ");
        assert_eq!(lifts(&folder, line), (u8::from(refused), 0), "{line}");
        assert!(folder.read("disk.img") == before, "{line}");
        assert!(folder.read("kept") == state, "{line}");
    }
    assert_eq!(folder.read("copy")[..20_000], [7; 20_000]);
}

/// `demo` has three disks of its own, and no other.
#[test]
fn the_demo_lifts_each_of_its_disks_once() {
    let folder = Folder::new();
    assert_eq!(lifts(&folder, "demo"), (0, 3));
    let said = folder.done("demo");
    assert_eq!(said.matches("The write protection is lifted").count(), 3);
    assert!(folder.names().is_empty());
}

#[test]
fn verbs_that_change_a_disk_lift_it_once() {
    let folder = with_files();
    for line in [
        "put @disk.img @NOTE.TXT new.txt",
        "put -f @disk.img @LONG.DAT new.txt",
        "mv @disk.img new.txt newer.txt",
        "rm @disk.img newer.txt",
        "get --stamp -f @disk.img *.* @.",
        "call --lift @disk.img 22 --name made",
    ] {
        let before = folder.read("disk.img");
        assert_eq!(lifts(&folder, line), (0, 1), "{line}");
        assert!(folder.read("disk.img") != before, "{line}");
    }
    // Nothing is lifted for what is refused before it would write.
    for line in [
        "put @disk.img @NOTE.TXT note.txt",
        "put @disk.img @nosuch some.txt",
        "get --stamp @disk.img note.txt @NOTE.TXT",
        "mv @disk.img note.txt bad?.txt",
        "rm @disk.img",
    ] {
        let before = folder.read("disk.img");
        let (status, lifts) = lifts(&folder, line);
        assert!(status > 0, "{line}");
        assert_eq!(lifts, 0, "{line}");
        assert!(folder.read("disk.img") == before, "{line}");
    }
}

/// The lines of code under a folder of sources, each with its file's name,
/// without comments and without what modules' own tests do.
fn code(folder: &Path) -> Vec<(String, String)> {
    let entries = fs::read_dir(folder).expect("the folder can be read");
    let paths = entries.map(|entry| entry.expect("an entry").path());
    paths
        .flat_map(|path| {
            if path.is_dir() {
                return code(&path);
            }
            let source = fs::read_to_string(&path).expect("a source can be read");
            let code = source.split("#[cfg(test)]").next().unwrap_or_default();
            let name = path.file_name().expect("a name").to_string_lossy();
            let lines = code.lines().map(str::trim);
            lines
                .filter(|line| !line.starts_with("//"))
                .map(|line| (name.to_string(), line.to_string()))
                .collect()
        })
        .collect()
}

/// The lines of the program's code that have one of some words, in the order of
/// files and lines.
fn code_with(words: &[&str]) -> Vec<String> {
    let mut code = code(&Path::new(env!("CARGO_MANIFEST_DIR")).join("src"));
    code.sort_by(|one, other| one.0.cmp(&other.0));
    code.into_iter()
        .filter(|(_, line)| words.iter().any(|word| line.contains(word)))
        .map(|(name, line)| format!("{name}: {line}"))
        .collect()
}

/// All lifts of the program go through the one that counts them, and no session
/// is made lifted. Whoever adds a line here says why it may lift.
#[test]
fn there_is_one_way_to_lift() {
    let lifts = ["lift(", "::lift", "lifted(", "lifted:", "lifted ="];
    assert_eq!(
        code_with(&lifts),
        [
            // As the command line says.
            "call.rs: (true, false) => desk.lift(disk),",
            // On disks of its own, in memory.
            "demo.rs: fn lift(disk: &mut Disk, desk: &mut Desk) -> Result<(), Trouble> {",
            "demo.rs: desk.lift(disk);",
            r#"demo.rs: "    The write protection is lifted: from here on calls may change the disk.\n""#,
            "demo.rs: lift(&mut disk, desk)?;",
            "demo.rs: lift(&mut disk, desk)?;",
            "demo.rs: lift(&mut disk, desk)?;",
            // For --stamp alone, when all was read.
            "get.rs: let mut disk = disk.lifted(desk);",
            // The one way.
            "lib.rs: fn lift(&mut self, disk: &mut Disk) {",
            "lib.rs: disk.lift();",
            "looking.rs: pub fn lifted(mut self, desk: &mut Desk) -> Disk {",
            "looking.rs: desk.lift(&mut self.0);",
            // Verbs that change the disk.
            "mv.rs: let mut disk = logged_in(&image, &words, desk)?.lifted(desk);",
            "put.rs: let mut disk = disk.lifted(desk);",
            "rm.rs: let mut disk = logged_in(&image, &words, desk)?.lifted(desk);",
            // As it was kept.
            "state.rs: lifted: lifted.parse().ok()?,",
        ]
    );
}

/// A disk that can be lifted is made where it is worked on by calls of the
/// user's or the demo's; all others are looked at, and are protected so.
#[test]
fn few_make_a_disk_that_can_be_lifted() {
    let makes = code_with(&["Disk::erased", "Disk::new", "Disk::resumed", "lend("]);
    assert_eq!(
        makes,
        [
            "call.rs: let mut disk = Disk::resumed(bytes, kept.map, session);",
            "call.rs: let mut disk = Disk::resumed(bytes, map, session);",
            "demo.rs: let mut image = Box::new(*Disk::erased().image());",
            "demo.rs: let disk = Disk::new(image.to_vec());",
            "demo.rs: let mut disk = Disk::erased();",
            "demo.rs: let mut disk = Disk::erased();",
            "looking.rs: let mut disk = Disk::resumed(image, map, session);",
            // For its bytes alone.
            "new.rs: let mut image = Box::new(*Disk::erased().image());",
            "store.rs: let mut disk = Disk::new(self.image.to_vec()).map_err(|no_disk| match no_disk {",
        ]
    );
}

/// The library's picker lifts the protection for its log by itself, so it is run
/// on what a verb lets go of, and on the demo's disk.
#[test]
fn there_is_one_way_to_pick() {
    let picks = code_with(&[".pick(", "::pick(", ".picked("]);
    assert_eq!(
        picks,
        [
            "demo.rs: let picked = disk.pick(DAY.0, DAY.1, book, log);",
            "looking.rs: let picked = self.0.pick(year, day, book, log);",
            "pick.rs: let (disk, picked) = log_in(&image, &words, time)?.picked(wanted, files);",
        ]
    );
}

/// No access stamp is left: the program lifts nothing for a run of the picker.
#[test]
fn the_picker_lifts_for_its_log_alone() {
    let folder = with_files();
    folder.done("put disk.img LONG.DAT words.dat");
    let before = folder.read("disk.img");
    let line = "pick --year 2026 --day 3 @disk.img";
    assert_eq!(lifts(&folder, line), (0, 0));
    let logged = folder.read("disk.img");
    assert!(logged != before, "the log is there");
    assert_eq!(lifts(&folder, line), (0, 0));
    assert!(
        folder.read("disk.img") == logged,
        "no stamp, and no other byte"
    );
}

#[test]
fn a_call_is_refused_until_it_is_lifted() {
    let folder = with_files();
    let before = folder.read("disk.img");
    let said = folder.refused("call disk.img 22 --name new");
    assert_eq!(
        said,
        "benzokamuri: call 22 (make): 255, 2: The session is write-protected (20 and 33 answer so only where they would else succeed, by a move that changes an entry). --lift lifts the protection.\n"
    );
    for number in [16, 19, 21, 22, 23, 34] {
        let ran = folder.run(&format!("call disk.img {number} --name note.txt"));
        let out = String::from_utf8(ran.out).expect("text");
        assert!(out.contains(": A = 255, H = 2\nnothing changed\n"), "{out}");
    }
    assert!(folder.read("disk.img") == before);
    folder.done("call --lift disk.img 22 --name new");
    assert!(folder.read("disk.img") != before);
    // Without a state nothing stays lifted.
    assert!(folder
        .refused("call disk.img 22 --name newer")
        .contains("255, 2"));
}

/// The last word of the session's line in a state.
fn kept(folder: &Folder) -> String {
    let state = String::from_utf8(folder.read("kept")).expect("text");
    let mut lines = state.lines().filter(|line| line.starts_with("session "));
    let line = lines.next().expect("a session");
    line.rsplit(' ').next().expect("a word").to_string()
}

#[test]
fn a_state_keeps_the_protection_and_a_search() {
    let folder = with_files();
    folder.done("put disk.img NOTE.TXT third.txt");
    folder.done("call --state kept disk.img 17 --name *.*");
    assert_eq!(kept(&folder), "0");
    // Neither option ends the search.
    let found = folder.done("call --lift --state kept disk.img 18");
    assert!(found.starts_with("call 18 (search for the next): A = 0, H = 0\n"));
    assert!(found.contains("\nsession, protection: was 0 (set), is 1 (lifted)\n"));
    assert_eq!(kept(&folder), "1");
    let found = folder.done("call --protect --state kept disk.img 18");
    assert!(found.starts_with("call 18 (search for the next): A = 1, H = 0\n"));
    assert_eq!(kept(&folder), "0");
    folder.done("call --lift --state kept disk.img 22 --name new");
    folder.done("call --state kept disk.img 21");
    folder.done("call --state kept disk.img 13");
    assert_eq!(kept(&folder), "1", "a log-in leaves it");
    assert!(folder
        .refused("call --protect --state kept disk.img 21")
        .contains("255, 2"));
    assert_eq!(kept(&folder), "0", "a refusal leaves it");
    // -n keeps nothing.
    folder.done("call --lift -n --state kept disk.img 46");
    assert_eq!(kept(&folder), "0");
}

/// The lift is an operation by itself: it stays, and is told, whatever becomes
/// of the call. The same goes for setting the protection.
#[test]
fn what_is_done_to_the_protection_is_told_of_a_refused_call_too() {
    let folder = with_files();
    folder.done("call --state kept disk.img 13");
    for (option, told, byte) in [
        ("--lift ", "protection: was 0 (set), is 1 (lifted)", "1"),
        ("--lift ", "nothing changed", "1"),
        ("", "nothing changed", "1"),
        ("--protect ", "protection: was 1 (lifted), is 0 (set)", "0"),
        ("--protect ", "nothing changed", "0"),
    ] {
        let line = format!("call {option}--state kept disk.img 22 --name note.txt");
        let ran = folder.run(&line);
        assert_eq!(ran.status, Some(1), "{line}");
        let out = String::from_utf8(ran.out).expect("text");
        let lines: Vec<&str> = out.lines().collect();
        let code = if byte == "1" { "8" } else { "2" };
        assert_eq!(lines[0], format!("call 22 (make): A = 255, H = {code}"));
        assert_eq!(lines[1].trim_start_matches("session, "), told, "{line}");
        assert_eq!(lines.len(), 3, "the FCB, and no more: {out}");
        assert_eq!(kept(&folder), byte, "{line}");
    }
}

/// Any byte but 0 is lifted, and comes back as it is.
#[test]
fn a_state_keeps_any_byte() {
    let folder = with_files();
    folder.done("call --lift --state kept disk.img 13");
    let state = String::from_utf8(folder.read("kept")).expect("text");
    for byte in [2, 255] {
        let state = state.replace(" 1\nfcb", &format!(" {byte}\nfcb"));
        folder.write("kept", state.as_bytes());
        folder.done(&format!("call --state kept disk.img 22 --name by{byte}"));
        assert_eq!(kept(&folder), byte.to_string());
    }
}

/// A state from before there was a protection is read as protected.
#[test]
fn an_older_state_is_protected() {
    let folder = with_files();
    folder.done("call --lift --state kept disk.img 15 --name note.txt");
    let state = String::from_utf8(folder.read("kept")).expect("text");
    assert!(state.starts_with("benzokamuri state 2\n"), "{state}");
    let older = state
        .replace("state 2", "state 1")
        .replace(" 1\nfcb", "\nfcb");
    folder.write("kept", older.as_bytes());
    assert!(folder
        .refused("call --state kept disk.img 16")
        .contains("255, 2"));
    let newer = String::from_utf8(folder.read("kept")).expect("text");
    assert_eq!(newer, state.replace(" 1\nfcb", " 0\nfcb"));
    folder.write("kept", older.as_bytes());
    folder.done("check --state kept disk.img");
    folder.done("map --state kept disk.img");
    folder.done("call --lift --state kept disk.img 16");
    assert_eq!(kept(&folder), "1");
}

/// What was written and not closed can be read where no move is needed, and is
/// refused where one would record it.
#[test]
fn a_read_whose_move_would_record_a_block() {
    let folder = with_files();
    folder.done("call --lift --state kept disk.img 15 --name long.dat");
    let fcb = |record: &str| -> String {
        let state = String::from_utf8(folder.read("kept")).expect("text");
        let line = state.lines().find(|line| line.starts_with("fcb "));
        let fcb = line.and_then(|line| line.strip_prefix("fcb ")).expect("it");
        format!("{}{record}", &fcb[..66])
    };
    // Record 200 is in the second extent and has no block yet.
    let line = format!("call --state kept disk.img 34 {}", fcb("C80000"));
    folder.done(&line);
    let image = folder.read("disk.img");
    let read = |record: &str| {
        folder.run(&format!(
            "call --protect --state kept disk.img 33 {}",
            fcb(record)
        ))
    };
    assert_eq!(read("C80000").status, Some(0), "it stays");
    let refused = read("000000");
    assert_eq!(refused.status, Some(1));
    assert!(refused.err.contains("255, 2"), "{}", refused.err);
    assert!(read("FF7F00").err.contains("4, 0"), "what fails anyway");
    assert!(folder.read("disk.img") == image);
    folder.done("call --lift --state kept disk.img 16");
    assert_eq!(read("000000").status, Some(0));
}
