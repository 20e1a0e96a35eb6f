//! The verbs, as a user runs them.

mod common;

use benzokamuri::{Code, Pick};
use common::{bytes, Folder, Ran};
use program::layout::entry_place;
use std::io::Write;
use std::process::Stdio;

/// A folder with an empty disk in it.
fn with_disk() -> Folder {
    let folder = Folder::new();
    assert_eq!(folder.done("new disk.img"), "");
    folder
}

/// A folder with a disk of three files.
fn with_files() -> Folder {
    let folder = with_disk();
    folder.write("one.txt", b"first\nfile\n");
    folder.write("two.dat", &bytes(20_000, 7));
    folder.write("empty", b"");
    folder.done("put disk.img one.txt");
    folder.done("put disk.img -u 5 two.dat");
    folder.done("-u 5 put disk.img empty nothing");
    folder
}

#[test]
fn a_new_image_is_erased_and_replaces_nothing() {
    let folder = with_disk();
    assert_eq!(folder.read("disk.img"), vec![0xE5; 256_256]);
    folder.write("disk.img", b"precious");
    let said = folder.refused("new disk.img");
    assert_eq!(
        said,
        "benzokamuri: disk.img is there already; -f replaces it\n"
    );
    assert_eq!(folder.read("disk.img"), b"precious");
    folder.done("new -f disk.img");
    assert_eq!(folder.read("disk.img").len(), 256_256);
    assert_eq!(folder.names(), ["disk.img"]);
}

#[test]
fn files_go_on_and_come_off() {
    let folder = with_files();
    folder.done("get disk.img one.txt back");
    let mut filled = b"first\nfile\n".to_vec();
    filled.resize(128, 0x1A);
    assert_eq!(folder.read("back"), filled);
    folder.done("get -f -t disk.img ONE.TXT back");
    assert_eq!(folder.read("back"), b"first\nfile\n");
    folder.done("get -u5 disk.img two.dat");
    let mut filled = bytes(20_000, 7);
    filled.resize(20_096, 0x1A);
    assert_eq!(folder.read("TWO.DAT"), filled);
    assert_eq!(folder.run("get -u 5 disk.img nothing -").out, b"");
    assert_eq!(
        folder.run("get disk.img one.txt - -t").out,
        b"first\nfile\n"
    );
    let said = folder.refused("get disk.img two.dat");
    assert_eq!(
        said,
        "benzokamuri: disk.img: TWO.DAT: 255, 0: This user has no such file.\n"
    );
    let said = folder.refused("get disk.img one.txt back");
    assert_eq!(said, "benzokamuri: back is there already; -f replaces it\n");
}

#[test]
fn several_files_come_off_into_a_folder() {
    let folder = with_files();
    std::fs::create_dir(folder.at("out")).unwrap();
    folder.done("get -u 5 disk.img *.* out");
    assert_eq!(folder.read("out/NOTHING"), b"");
    assert_eq!(folder.read("out/TWO.DAT").len(), 20_096);
    let said = folder.refused("get -u 5 disk.img *.* elsewhere");
    assert!(said.contains("elsewhere is no folder"), "{said}");
    folder.done("get disk.img one.txt out");
    assert_eq!(folder.read("out/ONE.TXT").len(), 128);
}

/// The name of a file on the disk names no folder of the host.
#[test]
fn names_with_a_slash_stay_in_the_folder() {
    let folder = with_disk();
    folder.write("x", b"x");
    let names = ["%2FX", "I%2FO.ASM", "%2E%2E", "%2E%2E%2FX", "-", "A.%2FB"];
    for name in names {
        folder.done(&format!("put disk.img x -- {name}"));
    }
    let listed = folder.done("ls disk.img");
    for name in names {
        assert!(listed.contains(&format!("  {name} ")), "{name}: {listed}");
    }
    std::fs::create_dir(folder.at("out")).unwrap();
    folder.done("get disk.img *.* out");
    assert_eq!(folder.names(), ["disk.img", "out", "x"]);
    let mut there: Vec<String> = std::fs::read_dir(folder.at("out"))
        .unwrap()
        .map(|entry| entry.unwrap().file_name().into_string().unwrap())
        .collect();
    there.sort();
    let mut due = names;
    due.sort();
    assert_eq!(there, due);
    // What came off goes on again under the same name.
    folder.done("rm disk.img %2f*.* ?%2f?.asm");
    assert!(folder.done("ls disk.img").contains("4 files"));
    folder.done("put disk.img out/%2FX");
    folder.done("put disk.img out/I%2FO.ASM");
    assert_eq!(folder.done("ls disk.img"), listed);
    folder.done("get disk.img %2fx");
    assert_eq!(folder.read("%2FX").len(), 128);
    let said = folder.refused("put disk.img x i/o.asm");
    assert!(said.contains("'/' may not stand in a name"), "{said}");
}

#[test]
fn of_several_files_none_is_written_where_one_is_there() {
    let folder = with_files();
    std::fs::create_dir(folder.at("out")).unwrap();
    folder.write("out/TWO.DAT", b"old");
    let said = folder.refused("get -u 5 disk.img *.* out");
    assert_eq!(
        said,
        "benzokamuri: out/TWO.DAT is there already; -f replaces it\n"
    );
    assert!(!folder.at("out/NOTHING").exists());
    assert_eq!(folder.read("out/TWO.DAT"), b"old");
    folder.done("get -fr -u 5 disk.img *.* out");
    assert!(folder.at("out/NOTHING").exists());
    assert_eq!(folder.read("out/TWO.DAT").len(), 20_096);
}

#[test]
fn lists() {
    let folder = with_files();
    assert_eq!(
        folder.done("ls disk.img"),
        "\
user  name          attributes  records      size
   0  ONE.TXT                         1       128
1 file, 1 record; 1760 records are free
"
    );
    assert_eq!(
        folder.done("ls -a -l disk.img"),
        "\
user  name          attributes  records      size
   0  ONE.TXT                         1       128
      entry  0, extent    0: rc   1, blocks 2
   5  NOTHING                         0         0
      entry  3, extent    0: rc   0, no blocks
   5  TWO.DAT                       157     20096
      entry  1, extent    0: rc 128, blocks 3-18
      entry  2, extent    1: rc  29, blocks 19-22
3 files, 158 records; 1760 records are free
"
    );
    assert_eq!(
        folder.done("ls -la disk.img"),
        folder.done("ls -a -l disk.img")
    );
    let some = folder.done("ls -u 5 disk.img *.DAT t*.* two.dat");
    assert_eq!(some.lines().count(), 3, "each file once: {some}");
    let said = folder.refused("ls disk.img *.com");
    assert!(said.ends_with("255, 0: This user has no such file.\n"));
    assert!(folder.done("ls -u 9 disk.img").contains("0 files"));
}

/// A folder with a disk of three files, of which the last has rc 200 and 255 in
/// its two entries, 1 and 2, as old disks do; and the disk as it was before.
fn with_counts_over_128() -> (Folder, Vec<u8>) {
    let folder = with_files();
    let whole = folder.read("disk.img");
    let mut image = whole.clone();
    image[entry_place(1) + 15] = 200;
    image[entry_place(2) + 15] = 255;
    folder.write("disk.img", &image);
    (folder, whole)
}

#[test]
fn record_counts_over_128_are_read_as_128() {
    let (folder, _) = with_counts_over_128();
    assert_eq!(
        folder.done("check disk.img"),
        "disk.img: consistent; 4 of 64 entries are used, 3 files, 21 blocks\n"
    );
    let expected = "\
user  name          attributes  records      size
   5  TWO.DAT                       256     32768
      entry  1, extent    0: rc 200, which counts as 128, blocks 3-18
      entry  2, extent    1: rc 255, which counts as 128, blocks 19-22
1 file, 256 records; 1760 records are free
";
    assert_eq!(folder.done("ls -u 5 -l disk.img two.dat"), expected);

    // 157 records were written, three more stand in the last block, and the
    // rest of the second extent has no blocks.
    let got = folder.run("get -u 5 disk.img two.dat -");
    assert_eq!(got.status, Some(0));
    assert_eq!(got.out[..20_000], bytes(20_000, 7));
    assert_eq!(got.out.len(), 32_768);
    assert!(got.out[160 * 128..].iter().all(|&byte| byte == 0));
    assert!(got.err.contains("96 of 256 records"), "{}", got.err);
}

#[test]
fn record_counts_over_128_are_left_as_they_are() {
    let (folder, whole) = with_counts_over_128();
    folder.done("mv -u 5 disk.img two.dat three.dat");
    let opened = folder.done("call -u 5 --state now disk.img 15 --name three.dat");
    assert!(
        opened.contains("FCB byte 15 (rc): was 00H, is C8H"),
        "{opened}"
    );
    folder.done("call --lift --state now disk.img 16");
    let after = folder.read("disk.img");
    assert_eq!([1, 2].map(|e| after[entry_place(e) + 15]), [200, 255]);

    // Deleted and put again, the file is what it was.
    folder.done("rm -u 5 disk.img three.dat");
    folder.done("put -u 5 disk.img two.dat");
    assert!(folder.read("disk.img") == whole);
}

#[test]
fn names_are_checked_and_made_capitals() {
    let folder = with_disk();
    for (name, why) in [
        ("much-too-long", "at most eight characters"),
        ("a.html", "at most three characters"),
        ("a.b.c", "one dot at most"),
        ("a:b", "':' may not stand in a name"),
        (".pro", "has to begin with a character"),
        ("a b", "' ' may not stand in a name"),
    ] {
        folder.write(name, b"x");
        let said = folder.run_words(["put", "disk.img", name]);
        assert_eq!(said.status, Some(1), "{name}");
        assert!(said.err.contains(why), "{name}: {}", said.err);
        assert!(said.err.contains("(255, 9)"), "{name}: {}", said.err);
    }
    assert_eq!(folder.read("disk.img"), vec![0xE5; 256_256]);
    folder.write("mixed.Case", b"x");
    let said = folder.refused("put disk.img mixed.Case");
    assert!(said.contains("at most three"), "{said}");
    folder.done("put disk.img mixed.Case Mixed.Cas");
    folder.done("put disk.img mixed.Case %61%20b.%2e");
    let listed = folder.done("ls disk.img");
    assert!(listed.contains("  MIXED.CAS "), "{listed}");
    assert!(listed.contains("  %61%20B.%2E "), "{listed}");
    folder.done("rm disk.img %61%20B.%2E");
    assert!(!folder.done("ls disk.img").contains('%'));
}

#[test]
fn a_file_that_is_there_is_replaced_on_request_only() {
    let folder = with_files();
    folder.write("one.txt", b"other\n");
    let before = folder.read("disk.img");
    let said = folder.refused("put disk.img one.txt");
    assert_eq!(
        said,
        "benzokamuri: disk.img: ONE.TXT: 255, 8: The file is there already. -f replaces it.\n"
    );
    assert_eq!(folder.read("disk.img"), before);
    folder.done("put -f disk.img one.txt");
    assert_eq!(folder.run("get -t disk.img one.txt -").out, b"other\n");
}

#[test]
fn standard_input_can_be_put() {
    let folder = with_disk();
    let mut child = folder
        .command()
        .args(["put", "disk.img", "-", "piped"])
        .stdin(Stdio::piped())
        .spawn()
        .unwrap();
    child
        .stdin
        .take()
        .unwrap()
        .write_all(b"from a pipe")
        .unwrap();
    assert!(child.wait().unwrap().success());
    assert_eq!(folder.run("get -t disk.img piped -").out, b"from a pipe");
    assert_eq!(folder.run("put disk.img -").status, Some(2));
}

#[test]
fn deletes_by_name_and_pattern() {
    let folder = with_files();
    for name in ["a.txt", "b.txt", "c.doc"] {
        folder.write(name, b"x");
        folder.done(&format!("put disk.img {name}"));
    }
    let before = folder.read("disk.img");
    let said = folder.refused("rm disk.img a.txt nosuch");
    assert!(said.contains("NOSUCH: 255, 0: "), "{said}");
    assert_eq!(folder.read("disk.img"), before, "all or none");
    folder.done("rm disk.img ?.txt");
    let listed = folder.done("ls disk.img");
    assert!(listed.contains("ONE.TXT") && listed.contains("C.DOC"));
    assert!(!listed.contains("A.TXT") && !listed.contains("B.TXT"));
    folder.done("rm disk.img *.*");
    assert!(
        folder.done("ls -a disk.img").contains("2 files"),
        "user 5's"
    );
    assert_eq!(folder.run("rm disk.img").status, Some(2));
}

#[test]
fn renames() {
    let folder = with_files();
    folder.done("mv -u 5 disk.img two.dat three.dat");
    assert!(folder.done("ls -u 5 disk.img").contains("THREE.DAT"));
    let said = folder.refused("mv disk.img one.txt one.txt");
    assert_eq!(
        said,
        "benzokamuri: disk.img: ONE.TXT to ONE.TXT: 255, 8: A file of the new name is there already.\n"
    );
    let said = folder.refused("mv disk.img nosuch other");
    assert!(said.ends_with("255, 0: This user has no such file.\n"));
    assert!(folder.refused("mv disk.img *.* a").contains("(255, 9)"));
}

#[test]
fn free_space() {
    let folder = with_files();
    assert_eq!(
        folder.done("free disk.img"),
        "\
records   1760 of 1928
blocks     220 of 241
bytes   225280 of 246784
entries     60 of 64
"
    );
}

#[test]
fn a_full_disk_leaves_the_image_as_it_was() {
    let folder = with_disk();
    folder.write("big", &bytes(241 * 1_024, 1));
    folder.write("bigger", &bytes(241 * 1_024 + 1, 1));
    let empty = folder.read("disk.img");
    let said = folder.refused("put disk.img bigger");
    assert_eq!(
        said,
        "benzokamuri: disk.img: BIGGER: 2, 0: The disk is full: no block is free.\n"
    );
    assert_eq!(folder.read("disk.img"), empty);
    folder.done("put disk.img big");
    assert_eq!(folder.run("get disk.img big -").out, bytes(241 * 1_024, 1));
    let full = folder.read("disk.img");
    folder.write("small", b"x");
    assert!(folder.refused("put disk.img small").contains(": 2, 0: "));
    assert_eq!(folder.read("disk.img"), full);
    // What a replaced file held is free for the one that replaces it.
    folder.done("put -f disk.img big");
    assert_eq!(folder.names(), ["big", "bigger", "disk.img", "small"]);
}

#[test]
fn a_full_directory_leaves_the_image_as_it_was() {
    let folder = with_disk();
    folder.write("small", b"x");
    for number in 0..63 {
        folder.done(&format!("put disk.img small f{number} -u {}", number % 16));
    }
    let nearly = folder.read("disk.img");
    folder.write("two", &bytes(16_385, 2));
    let said = folder.refused("put disk.img two");
    assert!(
        said.contains(": 1, 0: The next extent has no entry"),
        "{said}"
    );
    assert_eq!(folder.read("disk.img"), nearly);
    folder.done("put disk.img small last");
    let full = folder.read("disk.img");
    let said = folder.refused("put disk.img small onemore");
    assert!(said.contains(": 255, 0: The directory is full"), "{said}");
    assert_eq!(folder.read("disk.img"), full);
    assert!(folder
        .done("free disk.img")
        .contains("entries      0 of 64"));
}

#[test]
fn wrong_lengths_are_refused_with_both_named() {
    let folder = with_files();
    let image = folder.read("disk.img");
    for length in [0, 1, 1_000, 9_983, 128_000, 256_255, 256_257, 256_384] {
        let mut wrong = image.clone();
        wrong.resize(length, 0xE5);
        folder.write("wrong.img", &wrong);
        for verb in [
            "ls IMAGE",
            "get IMAGE one.txt -",
            "put IMAGE one.txt x",
            "rm IMAGE one.txt",
            "mv IMAGE one.txt x",
            "free IMAGE",
            "check IMAGE",
            "map IMAGE",
            "call IMAGE 13",
        ] {
            if length == 128_000 {
                // Whole sectors, and nothing listed lies behind the end.
                continue;
            }
            let said = folder.refused(&verb.replace("IMAGE", "wrong.img"));
            let named = format!("{length} bytes long and has to be 256256");
            assert!(said.contains(&named), "{verb}, {length}: {said}");
            assert!(said.contains("255, 4"), "{verb}, {length}: {said}");
        }
        assert_eq!(folder.read("wrong.img").len(), length);
    }
}

#[test]
fn an_image_without_its_last_sectors_is_filled_up() {
    let folder = with_files();
    let image = folder.read("disk.img");
    folder.write("short.img", &image[..128_000]);
    assert_eq!(
        folder.run("get -t short.img one.txt -").out,
        b"first\nfile\n"
    );
    assert_eq!(
        folder.read("short.img").len(),
        128_000,
        "reading writes nothing"
    );
    let said = folder.done("check short.img");
    assert!(said.contains("the file ends 128256 bytes early"), "{said}");
    let ran = folder.run("rm short.img one.txt");
    assert_eq!(ran.status, Some(0));
    assert!(ran.err.contains("128256 bytes more"), "{}", ran.err);
    assert_eq!(folder.read("short.img").len(), 256_256);
    // One sector less than the last that is counted is too short.
    let said = |length: usize| {
        folder.write("cut.img", &image[..length]);
        folder.run("ls cut.img").status
    };
    let needed = (0..=256_256)
        .step_by(128)
        .find(|&length| said(length) == Some(0));
    let needed = needed.expect("some length is enough");
    // TWO.DAT ends at record 4 of block 22.
    assert_eq!(
        needed,
        128 * (26 * 8 + 26),
        "track 8 has block 22's record 4"
    );
}

#[test]
fn files_that_can_not_be_read() {
    let folder = with_disk();
    for line in [
        "ls nosuch.img",
        "ls .",
        "put disk.img nosuch",
        "map --svg no/x.svg disk.img",
    ] {
        let said = folder.refused(line);
        assert!(said.starts_with("benzokamuri: "), "{said}");
    }
    assert_eq!(folder.read("disk.img"), vec![0xE5; 256_256]);
}

#[test]
fn wrong_usage_has_status_2_and_says_what_is_right() {
    let folder = with_disk();
    for line in [
        "nosuch disk.img",
        "ls",
        "ls -x disk.img",
        "ls -u 16 disk.img",
        "ls -u",
        "get disk.img",
        "get disk.img a b c",
        "get -t -r disk.img a",
        "put disk.img",
        "mv disk.img a",
        "mv disk.img a b c",
        "free",
        "free disk.img more",
        "check",
        "map --colour sometimes disk.img",
        "call disk.img",
        "call disk.img 256",
        "call disk.img 15 0",
        "call disk.img 15 zz",
        "call disk.img 15 -a 256",
        "call disk.img 15 00 --name a",
        "call disk.img 15 --lift --protect",
        "pick",
        "pick disk.img more",
        "pick --year 2026 disk.img",
        "pick --day 1 disk.img",
        "pick --year 65536 --day 1 disk.img",
        "pick --year 2026 --day -1 disk.img",
        "pick --year 2026 --day +1 disk.img",
        "pick --year 2026 --day one disk.img",
        "demo more",
        "demo --time now",
        "help nosuch",
        "-x",
    ] {
        let Ran { status, out, err } = folder.run(line);
        assert_eq!(status, Some(2), "{line}: {err}");
        assert_eq!(out, b"", "{line}");
        assert!(err.contains("help"), "{line}: {err}");
    }
    let nothing: [&str; 0] = [];
    assert_eq!(folder.run_words(nothing).status, Some(2));
    // The verb that was found is the one that is told about, not a word that
    // happens to be another's name.
    for (line, verb) in [
        ("put ls", "put"),
        ("-u 3 get -x new", "get"),
        ("rm --ls mv", "rm"),
    ] {
        let err = folder.run(line).err;
        let usage = format!("\nusage: benzokamuri {verb} ");
        assert!(err.contains(&usage), "{line}: {err}");
    }
    assert!(!folder.run("nosuch ls").err.contains("usage:"));
}

#[test]
fn help_for_everything() {
    let folder = Folder::new();
    let all = folder.done("help");
    assert_eq!(folder.done("--help"), all);
    assert_eq!(folder.done("-h"), all);
    for verb in [
        "new", "ls", "get", "put", "rm", "mv", "free", "check", "map", "pick", "call", "demo",
    ] {
        let help = folder.done(&format!("help {verb}"));
        assert!(help.starts_with(&format!("usage: benzokamuri {verb} ")));
        assert!(help.lines().count() > 4, "{help}");
        assert!(help.lines().skip(1).all(|line| line.len() <= 80), "{help}");
        assert!(all.contains(&format!("benzokamuri {verb} ")));
        assert_eq!(folder.done(&format!("{verb} --help")), help);
        assert_eq!(folder.done(&format!("{verb} some.img -h")), help);
    }
    let names = folder.done("help names");
    assert!(names.contains("%25") && names.contains("%2F"), "{names}");
    assert!(names.lines().all(|line| line.len() <= 80), "{names}");
    let codes = folder.done("help codes");
    let (cases, below) = codes.split_once("\n\n").unwrap();
    assert_eq!(cases.lines().count(), 1 + 22, "a heading and the cases");
    let (remarks, picker) = below.split_once(Pick::ABOUT).unwrap();
    assert_eq!(remarks, format!("{}\n", Code::REMARKS.join("\n")));
    assert!(remarks.lines().all(|line| line.len() <= 80), "{remarks}");
    assert_eq!(
        picker.lines().count(),
        1 + 1 + 12,
        "a heading and the answers"
    );
    for pick in Pick::NAMED {
        let number = format!("\n{:>6}  ", pick.number());
        assert!(picker.contains(&number) && picker.contains(pick.sentence()));
    }
    assert!(folder.done("--version").contains("interface 4"));
}

#[test]
fn check_says_what_is_wrong_and_where() {
    let folder = with_files();
    let consistent = folder.done("check disk.img");
    assert_eq!(
        consistent,
        "disk.img: consistent; 4 of 64 entries are used, 3 files, 21 blocks\n"
    );
    let mut image = folder.read("disk.img");
    // Entry 1, slot 3 becomes block 2, which is entry 0's; entry 2's ex breaks.
    image[6_656 + 32 + 19] = 2;
    image[6_656 + 64 + 12] = 40;
    folder.write("bad.img", &image);
    let ran = folder.run("check bad.img");
    assert_eq!(ran.status, Some(1));
    assert_eq!(
        String::from_utf8(ran.out).unwrap(),
        "\
block 2 stands twice: entry 0, byte 16 (slot 0), and entry 1, byte 19 (slot 3)
entry 2, byte 12 (ex) is 28H: 0 to 31 is due (byte 6732 of the image)
"
    );
    assert_eq!(
        ran.err,
        "benzokamuri: bad.img: 2 faults: 255, 1: The directory of the image is not consistent, or the map does not fit it (13 takes any map, and makes it fit).\n"
    );
    let said = folder.refused("ls bad.img");
    assert!(said.contains("255, 1"), "{said}");
    assert_eq!(folder.read("bad.img"), image);
}

#[test]
fn the_map_as_a_picture() {
    let folder = with_files();
    let picture = folder.done("map disk.img");
    assert_eq!(picture.lines().count(), 9 + 1 + 3 + 2);
    let first = format!("    0  # # A{} . . . .\n", " C".repeat(20));
    assert!(picture.starts_with(&first), "{picture}");
    assert!(picture.contains("\n    B NOTHING, user 5: 0 blocks\n"));
    assert!(!picture.contains('\x1B'), "no colours into a pipe");
    assert!(folder.done("map --colour=always disk.img").contains('\x1B'));
    folder.done("map --svg map.svg disk.img");
    let svg = String::from_utf8(folder.read("map.svg")).unwrap();
    assert_eq!(svg.matches("<title>block ").count(), 243);
    assert_eq!(folder.done("map --svg - disk.img"), svg);
    folder.write("map.svg", b"precious");
    let said = folder.refused("map --svg map.svg disk.img");
    assert_eq!(
        said,
        "benzokamuri: map.svg is there already; -f replaces it\n"
    );
    assert_eq!(folder.read("map.svg"), b"precious");
    folder.done("map -f --svg map.svg disk.img");
    assert_eq!(folder.read("map.svg"), svg.as_bytes());
}

/// The double job again, this time by `call` alone.
#[test]
fn calls_one_by_one() {
    let folder = with_disk();
    let call = |line: &str| folder.run(&format!("call --state job disk.img {line}"));
    let fcb = |ran: &Ran| {
        let out = String::from_utf8_lossy(&ran.out).into_owned();
        let line = out.lines().last().unwrap_or("").to_string();
        line.strip_prefix("FCB ").expect("the FCB").to_string()
    };
    let first = fcb(&call("--lift 22 --name job.dat"));
    let second = fcb(&call("15 --name job.dat"));
    let first = fcb(&call(&format!("21 {first} --buffer 31")));
    let wrote = call(&format!("21 {second}"));
    let second = fcb(&wrote);
    let out = String::from_utf8(wrote.out).unwrap();
    let expected = "\
call 21 (sequential write): A = 0, H = 0
record 0 of block 3, byte 8576 of the image: 128 bytes differ
note of block 3: was 0 (free), is 16 (pending for slot 0 of entry 0)
FCB byte 15 (rc): was 00H, is 01H
FCB byte 16 (slot): was 00H, is 03H
FCB byte 32 (cr): was 00H, is 01H
";
    assert!(out.starts_with(expected), "{out}");
    assert_eq!((&first[32..34], &second[32..34]), ("02", "03"));
    assert!(folder.done("map --state job disk.img").contains(" #~A~A ."));
    assert!(folder
        .done("check --state job disk.img")
        .contains("consistent"));
    assert_eq!(call(&format!("16 {first}")).status, Some(0));
    let refused = call(&format!("16 {second}"));
    assert_eq!(refused.status, Some(1));
    assert!(String::from_utf8(refused.out)
        .unwrap()
        .starts_with("call 16 (close): A = 255, H = 0\nnothing changed\n"));
    assert_eq!(
        refused.err,
        "benzokamuri: call 16 (close): 255, 0: The FCB is not current, so there is nothing that it can close.\n"
    );
    assert!(call(&format!("21 {second}")).err.contains(": 9, 0: "));
    let space = |ran: Ran| String::from_utf8(ran.out).unwrap();
    assert!(space(call("46")).contains("\n  00  78 07 00 "));
    assert_eq!(call("98").status, Some(0));
    assert!(space(call("46")).contains("\n  00  80 07 00 "));
    let picture = folder.done("map disk.img");
    assert!(picture.starts_with("    0  # # A . . "), "{picture}");
}

#[test]
fn a_state_that_is_none_and_one_with_a_wrong_map() {
    let folder = with_files();
    let disk = folder.read("disk.img");
    folder.done("call --state state disk.img 13");
    let state = String::from_utf8(folder.read("state")).unwrap();
    let long = state.replace("\nfcb", &format!("\n{}fcb", " ".repeat(5_000)));
    let without_the_protection = state.replace(" 0\nfcb", "\nfcb");
    let texts: [&[u8]; 6] = [
        b"",
        b"notes of mine\n",
        b"\xFF\xFE",
        &state.as_bytes()[..state.len() - 9],
        long.as_bytes(),
        without_the_protection.as_bytes(),
    ];
    for text in texts {
        folder.write("none", text);
        for line in [
            "call --lift --state none disk.img 22 --name new",
            "call -n --state none disk.img 13",
            "check --state none disk.img",
            "map --state none disk.img",
        ] {
            let said = folder.refused(line);
            assert_eq!(said, "benzokamuri: none: not what `call` keeps\n", "{line}");
        }
        assert_eq!(folder.read("none"), text);
        assert_eq!(folder.read("disk.img"), disk);
    }
    assert!(folder
        .refused("check --state nosuch disk.img")
        .contains("nosuch: "));

    // Block 2 is ONE.TXT's, and block 242 is nobody's.
    let wrong = state.replace("map 1 1 2 ", "map 1 1 0 ");
    let wrong = wrong.replace(" 0\nsession", " 2\nsession");
    assert_eq!(wrong.len(), state.len());
    folder.write("wrong", wrong.as_bytes());
    let ran = folder.run("check --state wrong disk.img");
    assert_eq!(ran.status, Some(1));
    let out = String::from_utf8(ran.out).unwrap();
    assert_eq!(out.lines().count(), 2, "{out}");
    assert!(
        out.contains("block 2") && out.contains("block 242"),
        "{out}"
    );
    assert!(
        ran.err.contains("disk.img: 2 faults: 255, 1: "),
        "{}",
        ran.err
    );
    assert!(folder
        .refused("call --state wrong disk.img 46")
        .contains("255, 1"));
    // A log-in makes it right.
    folder.done("call --state wrong disk.img 13");
    assert_eq!(folder.read("wrong"), state.as_bytes());
}

#[test]
fn calls_without_a_state() {
    let folder = with_files();
    let image = folder.read("disk.img");
    let made = folder.done("call --lift -n disk.img 22 --name x");
    assert!(made.contains("entry 4, byte 7424 of the image"), "{made}");
    assert_eq!(folder.read("disk.img"), image, "-n saves nothing");
    folder.done("call --lift disk.img 22 --name x");
    assert_ne!(folder.read("disk.img"), image);
    assert!(folder
        .refused("call disk.img 99")
        .contains("255, 255: There is no call"));
    assert!(folder
        .refused("call disk.img 18")
        .contains("255, 0: No search is on."));
    let user = folder.done("call -u 7 -a 255 disk.img 32");
    assert!(
        user.starts_with("call 32 (user number): A = 7, H = 0\n"),
        "{user}"
    );
    let found = folder.done("call disk.img 17 --name *.*");
    assert!(found.contains("session, search on: was 0, is 1"), "{found}");
    assert!(found.contains("ONE     TXT"), "{found}");
}

#[test]
fn calls_on_an_image_that_is_not_consistent() {
    let folder = with_disk();
    let mut image = folder.read("disk.img");
    image[6_656] = 0x10;
    folder.write("disk.img", &image);
    assert!(folder.refused("call disk.img 13").contains("255, 1"));
    assert!(folder.refused("call disk.img 46").contains("255, 1"));
    assert!(folder.refused("call disk.img 99").contains("255, 255"));
}

#[test]
fn the_demo_is_as_it_was_kept() {
    let folder = Folder::new();
    let demo = folder.done("demo");
    let expected = include_str!("expected/demo.txt");
    assert!(demo == expected, "the demo changed:\n{demo}");
    assert!(folder
        .done("demo -u 3")
        .contains("A JOB.DAT, user 3: 1 block"));
    assert!(folder.done("demo --colour always").contains('\x1B'));
    // It ends with the job that is started twice: one log record.
    let last: Vec<&str> = demo.lines().rev().take(8).collect();
    let logs = last.iter().filter(|line| line.contains("WORDS.LOG: "));
    let one_record = logs.filter(|line| line.contains("1 record, 02026 297"));
    assert_eq!(one_record.count(), 2, "{last:#?}");
    // The README shows the end of it.
    let readme = include_str!("../../../README.md");
    let shown: Vec<&str> = demo
        .lines()
        .filter(|line| line.contains("pick at"))
        .collect();
    assert!(shown.len() == 2 && shown.iter().all(|line| readme.contains(line)));
    assert_eq!(folder.names(), [""; 0], "nothing is written");
}

#[test]
fn nobody_listening_is_no_reason_to_complain() {
    let folder = with_files();
    for line in [
        "help",
        "demo",
        "ls -l disk.img",
        "get -u 5 disk.img two.dat -",
        "free disk.img",
        "check disk.img",
        "map disk.img",
        "map --svg - disk.img",
        "call disk.img 13",
    ] {
        let Ran { status, err, .. } = folder.run_unheard(line);
        assert_eq!((status, err.as_str()), (Some(0), ""), "{line}");
    }
}

#[test]
fn nobody_listening_changes_no_verdict() {
    let folder = with_files();
    let mut image = folder.read("disk.img");
    // The whole directory's track breaks, so that there is more to print than
    // is kept before it is printed.
    image[6_656..9_984].fill(0);
    folder.write("bad.img", &image);
    for line in ["check bad.img", "call bad.img 13", "call disk.img 18"] {
        let unheard = folder.run_unheard(line);
        let heard = folder.run(line);
        assert_eq!(heard.status, Some(1), "{line}");
        assert!(line != "check bad.img" || heard.out.len() > 30_000);
        let same = (unheard.status, unheard.err) == (heard.status, heard.err);
        assert!(same, "{line}");
    }
    // The image is saved first, and what was done is done.
    let unheard = folder.run_unheard("call --lift disk.img 22 --name new");
    assert_eq!(unheard.status, Some(0));
    assert!(folder.done("ls disk.img").contains("  NEW "));
}
