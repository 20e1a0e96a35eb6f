//! A save that is ended at any point leaves the old image or the new one, what
//! may not be written to is left alone, and saves at the same time are not lost.

mod common;

use common::{bytes, ran, ran_soon, Folder};
use std::fs;
use std::os::unix::fs::{chown, symlink, MetadataExt, PermissionsExt};
use std::process::Command;

/// The word for the step at which a save is to end.
const END_AT: &str = "BENZOKAMURI_END_SAVE_AT";

/// The exit status of a program that ended there.
const ENDED: i32 = 99;

#[test]
fn ended_at_every_step() {
    let folder = Folder::new();
    folder.write("file", &bytes(50_000, 3));
    folder.done("new disk.img");
    folder.done("put disk.img file kept");
    let old = folder.read("disk.img");
    folder.done("put disk.img file added");
    let new = folder.read("disk.img");
    assert_ne!(old, new);

    let (mut olds, mut news) = (0, 0);
    for step in 0.. {
        folder.write("disk.img", &old);
        let mut command = folder.command();
        command.args(["put", "disk.img", "file", "added"]);
        let status = command.env(END_AT, step.to_string()).status().unwrap();
        let found = folder.read("disk.img");
        match found {
            _ if found == old => {
                olds += 1;
                assert_eq!(news, 0, "step {step}: the old image came back");
            }
            _ if found == new => news += 1,
            _ => panic!("step {step}: neither the old image nor the new one"),
        }
        if status.success() {
            break;
        }
        assert_eq!(status.code(), Some(ENDED), "step {step}");
    }
    // 256,256 bytes in pieces of 4,096, and the steps around them.
    assert!(olds > 63, "{olds} steps before the rename");
    assert!(news >= 3, "{news} steps after it, the last one to the end");

    // What the ended ones left behind is in nobody's way.
    let left = folder.names().len();
    assert!(left > 2, "ended saves leave their temporary files");
    folder.write("disk.img", &old);
    folder.done("put disk.img file added");
    assert_eq!(folder.read("disk.img"), new);
    assert_eq!(folder.names().len(), left, "a whole save leaves none");
}

#[test]
fn a_refused_verb_and_one_that_changes_nothing_save_nothing() {
    let folder = Folder::new();
    folder.done("new disk.img");
    for line in [
        "ls disk.img",
        "free disk.img",
        "check disk.img",
        "map disk.img",
    ] {
        let mut command = folder.command();
        let status = command
            .args(line.split(' '))
            .env(END_AT, "0")
            .stdout(std::process::Stdio::null())
            .status();
        assert!(status.unwrap().success(), "{line} saves");
    }
    let mut command = folder.command();
    let ran = ran(command.args(["rm", "disk.img", "x"]).env(END_AT, "0"));
    assert_eq!(ran.status, Some(1), "refused, and not saved");
}

#[test]
fn a_save_keeps_the_mode_and_follows_a_link() {
    let folder = Folder::new();
    fs::create_dir(folder.at("elsewhere")).unwrap();
    folder.done("new elsewhere/disk.img");
    let disk = folder.at("elsewhere/disk.img");
    fs::set_permissions(&disk, fs::Permissions::from_mode(0o600)).unwrap();
    symlink("elsewhere/disk.img", folder.at("link.img")).unwrap();
    folder.write("file", b"x");
    folder.done("put link.img file");
    assert!(folder
        .at("link.img")
        .symlink_metadata()
        .unwrap()
        .is_symlink());
    let mode = fs::metadata(&disk).unwrap().permissions().mode();
    assert_eq!(mode & 0o777, 0o600);
    assert!(folder.done("ls elsewhere/disk.img").contains("FILE"));
}

#[test]
fn a_save_keeps_the_owner_where_that_is_allowed() {
    let folder = Folder::new();
    folder.done("new disk.img");
    folder.write("file", b"x");
    let disk = folder.at("disk.img");
    if chown(&disk, Some(12_345), Some(23_456)).is_err() {
        println!("skipped: the superuser alone can give files away");
        return;
    }
    folder.set_mode("disk.img", 0o664);
    folder.done("put disk.img file");
    let saved = fs::metadata(&disk).unwrap();
    assert_eq!((saved.uid(), saved.gid()), (12_345, 23_456));
    assert_eq!(saved.mode() & 0o7777, 0o664);
}

/// Somebody without rights of their own can't save into a folder of this
/// mode.
fn a_folder_of_mode_leaves_the_image_as_it_was(mode: u32) {
    let folder = Folder::new();
    folder.done("new disk.img");
    folder.write("file", b"x");
    let old = folder.read("disk.img");
    let Some(mut command) = folder.command_by_anybody() else {
        return;
    };
    folder.set_mode("", mode);
    // By its own name; a path with links in it could not be followed.
    let ran = ran(command.args(["put", "disk.img", "file"]));
    folder.set_mode("", 0o755);
    assert_eq!(ran.status, Some(1));
    assert!(ran.err.contains("disk.img can't be saved"), "{}", ran.err);
    assert_eq!(folder.read("disk.img"), old);
    assert_eq!(folder.names(), ["disk.img", "file"]);
}

#[test]
fn a_folder_that_can_not_be_written_to_leaves_the_image_as_it_was() {
    a_folder_of_mode_leaves_the_image_as_it_was(0o555);
}

/// It can't be made to last, which is found out before the rename.
#[test]
fn a_folder_that_can_not_be_read_leaves_the_image_as_it_was() {
    a_folder_of_mode_leaves_the_image_as_it_was(0o333);
}

#[test]
fn files_that_may_not_be_written_to_stay_as_they_were() {
    let folder = Folder::new();
    folder.done("new disk.img");
    folder.write("file", b"x");
    folder.done("put disk.img file there");
    let old = folder.read("disk.img");
    folder.write("file", b"y");
    folder.write("there", b"of the host");
    folder.set_mode("disk.img", 0o444);
    folder.set_mode("there", 0o400);
    for line in [
        "put disk.img file",
        "put -f disk.img file there",
        "rm disk.img there",
        "mv disk.img there here",
        "call --lift disk.img 22 --name new",
        "new -f disk.img",
        "get -f disk.img there there",
        "map -f --svg there disk.img",
        "call --state there disk.img 13",
    ] {
        let Some(mut command) = folder.command_by_anybody() else {
            return;
        };
        let ran = ran(command.args(line.split(' ')));
        assert_eq!(ran.status, Some(1), "{line}");
        let due = match line.ends_with("disk.img 13") {
            true => "not what `call` keeps",
            false => "can't be saved, for its file may not be written to: Permission denied",
        };
        assert!(ran.err.contains(due), "{line}: {}", ran.err);
        assert_eq!(folder.read("disk.img"), old, "{line}");
        assert_eq!(folder.read("there"), b"of the host", "{line}");
        assert_eq!(folder.names(), ["disk.img", "file", "there"], "{line}");
    }
    // What changes nothing is no save.
    for line in ["ls disk.img", "call disk.img 46", "get disk.img there copy"] {
        let Some(mut command) = folder.command_by_anybody() else {
            return;
        };
        let ran = ran(command.args(line.split(' ')));
        assert_eq!(ran.status, Some(0), "{line}: {}", ran.err);
    }
}

#[test]
fn pipes_and_devices_are_neither_read_nor_replaced() {
    let folder = Folder::new();
    folder.done("new disk.img");
    folder.write("file", b"x");
    folder.done("put disk.img file");
    let made = Command::new("mkfifo").arg(folder.at("pipe")).status();
    assert!(made.expect("mkfifo can be run").success());
    symlink("/dev/zero", folder.at("zeros")).unwrap();
    let disk = folder.read("disk.img");
    for line in [
        "ls IT",
        "get IT file -",
        "put IT file",
        "rm IT file",
        "mv IT file other",
        "free IT",
        "check IT",
        "map IT",
        "call IT 13",
        "call -n IT 13",
        "new -f IT",
        "get -f disk.img file IT",
        "map -f --svg IT disk.img",
        "check --state IT disk.img",
        "call --state IT disk.img 13",
    ] {
        for it in ["pipe", "zeros", "/dev/zero"] {
            let line = line.replace("IT", it);
            let ran = ran_soon(folder.command().args(line.split(' ')));
            assert_eq!(ran.status, Some(1), "{line}: {}", ran.err);
            assert!(
                ran.err.contains("this is not a regular file"),
                "{line}: {}",
                ran.err
            );
        }
        assert_eq!(folder.names(), ["disk.img", "file", "pipe", "zeros"]);
        assert_eq!(folder.read("disk.img"), disk, "{line}");
    }
    // What is put may be anything, and may go on for ever.
    let ran = ran_soon(folder.command().args(["put", "disk.img", "zeros"]));
    assert_eq!(ran.status, Some(1));
    assert!(ran.err.contains("ZEROS: 2, 0: "), "{}", ran.err);
}

/// As on a full disk of the host.
#[test]
fn a_write_that_fails_leaves_everything_as_it_was() {
    let folder = Folder::new();
    folder.done("new disk.img");
    folder.write("big", &bytes(50_000, 1));
    folder.write("small", b"x");
    folder.done("put disk.img big");
    folder.done("put disk.img small a");
    fs::create_dir(folder.at("out")).unwrap();
    folder.write("out/BIG", b"old");
    let (disk, names) = (folder.read("disk.img"), folder.names());
    for line in [
        "put disk.img small b",
        "new -f disk.img",
        "new other.img",
        "get disk.img big copy",
        "get -f disk.img big out/BIG",
        "get -f disk.img *.* out",
        "map --svg map.svg disk.img",
    ] {
        let mut command = folder.command_with_little_room();
        let ran = ran(command.args(line.split(' ')));
        assert_eq!(ran.status, Some(1), "{line}");
        assert!(ran.err.contains("can't be saved: "), "{line}: {}", ran.err);
        assert_eq!(folder.read("disk.img"), disk, "{line}");
        assert_eq!(folder.read("out/BIG"), b"old", "{line}");
        assert_eq!(folder.names(), names, "{line}");
        let out = fs::read_dir(folder.at("out")).unwrap().count();
        assert_eq!(out, 1, "{line}");
    }
}

#[test]
fn a_state_that_can_not_be_saved_leaves_the_image_as_it_was() {
    let folder = Folder::new();
    folder.done("new disk.img");
    let old = folder.read("disk.img");
    let said = folder.refused("call --lift --state no/state disk.img 22 --name new");
    assert!(said.contains("no/state can't be saved: "), "{said}");
    assert_eq!(folder.read("disk.img"), old);
    assert_eq!(folder.names(), ["disk.img"]);
}

#[test]
fn an_image_and_its_state_ended_at_every_step() {
    let folder = Folder::new();
    let line = "call --lift --state state disk.img 22 --name new";
    let both = || (folder.read("disk.img"), folder.read("state"));
    folder.done("new disk.img");
    folder.done("call --state state disk.img 13");
    let old = both();
    folder.done(line);
    let new = both();
    assert!(old.0 != new.0 && old.1 != new.1);
    let mut seen = Vec::new();
    for step in 0.. {
        folder.write("disk.img", &old.0);
        folder.write("state", &old.1);
        let mut command = folder.command();
        let ran = ran(command.args(line.split(' ')).env(END_AT, step.to_string()));
        let (image, state) = both();
        assert!(image == old.0 || image == new.0, "step {step}");
        assert!(state == old.1 || state == new.1, "step {step}");
        let found = (image == new.0, state == new.1);
        if seen.last() != Some(&found) {
            seen.push(found);
        }
        if ran.status == Some(0) {
            break;
        }
        assert_eq!(ran.status, Some(ENDED), "step {step}");
    }
    // Between the two renames, and there alone, one is new and one is old.
    assert_eq!(seen, [(false, false), (true, false), (true, true)]);
}

#[test]
fn changes_at_the_same_time_are_not_lost() {
    let folder = Folder::new();
    folder.done("new disk.img");
    folder.write("file", b"x");
    symlink("disk.img", folder.at("link.img")).unwrap();
    let begin = |number: usize| {
        let image = ["disk.img", "link.img"][number % 2];
        let mut command = folder.command();
        command.args(["put", image, "file", &format!("f{number}")]);
        command.spawn().expect("the program can be run")
    };
    let runs: Vec<_> = (0..24).map(begin).collect();
    for mut run in runs {
        assert!(run.wait().unwrap().success());
    }
    let listed = folder.done("ls disk.img");
    for number in 0..24 {
        assert!(listed.contains(&format!("  F{number} ")), "{listed}");
    }
    assert_eq!(folder.names(), ["disk.img", "file", "link.img"]);
}

#[test]
fn an_image_made_twice_at_the_same_time_is_made_once() {
    let folder = Folder::new();
    for number in 0..10 {
        let name = format!("{number}.img");
        let begin = |_| {
            let mut command = folder.command();
            command.args(["new", &name]);
            let command = command.stderr(std::process::Stdio::null());
            command.spawn().expect("the program can be run")
        };
        let runs: Vec<_> = (0..4).map(begin).collect();
        let done = runs.into_iter().filter_map(|mut run| run.wait().ok());
        assert_eq!(done.filter(|status| status.success()).count(), 1);
        assert_eq!(folder.read(&name), vec![0xE5; 256_256]);
    }
}

#[test]
fn two_files_that_are_one_by_links_do_not_wait_for_each_other() {
    let folder = Folder::new();
    folder.done("new disk.img");
    folder.write("file", b"1");
    folder.done("put disk.img file one");
    folder.done("put disk.img file two");
    symlink("file", folder.at("ONE")).unwrap();
    symlink("file", folder.at("TWO")).unwrap();
    let ran = ran_soon(folder.command().args(["get", "-f", "disk.img", "*.*"]));
    assert_eq!((ran.status, ran.err.as_str()), (Some(0), ""));
    assert_eq!(folder.read("file").len(), 128);
    assert_eq!(folder.names(), ["ONE", "TWO", "disk.img", "file"]);
}

/// What is put may come from a program that changes the image itself.
#[test]
fn an_image_is_not_held_while_standard_input_is_read() {
    let folder = Folder::new();
    folder.done("new disk.img");
    folder.write("file", b"x");
    let line = "{ \"$0\" put disk.img file inner; echo text; } | \"$0\" put disk.img - outer";
    let mut shell = Command::new("sh");
    shell.args(["-c", line, env!("CARGO_BIN_EXE_benzokamuri")]);
    let ran = ran_soon(shell.current_dir(folder.path()));
    assert_eq!((ran.status, ran.err.as_str()), (Some(0), ""));
    assert!(folder.done("ls disk.img").contains("2 files, 2 records"));
}
