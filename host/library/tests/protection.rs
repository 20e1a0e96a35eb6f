//! Write protection, as `Disk` has it.

mod common;

use benzokamuri::{Call, Code, Disk, Fcb, Pattern, Session, Time};

fn named(name: &str) -> Fcb {
    Fcb::named(name.parse().expect(name))
}

/// A disk with a file of one record, protected again.
fn with_a_file() -> Disk {
    let mut disk = Disk::erased();
    disk.lift();
    let mut fcb = named("A");
    disk.make(&mut fcb).expect("made");
    disk.buffer.fill(7);
    disk.write_next(&mut fcb).expect("written");
    disk.close(&mut fcb).expect("closed");
    disk.protect();
    disk
}

#[test]
fn a_disk_begins_protected() {
    assert!(Disk::erased().is_protected());
    let image = Disk::erased().into_image();
    assert!(Disk::new(image).expect("a disk").is_protected());
    assert_eq!(Session::default().lifted, 0);
}

/// A session that was kept may have any byte there: 0 alone is protected.
#[test]
fn any_byte_but_0_is_lifted() {
    for lifted in [0, 1, 2, 255] {
        let disk = Disk::erased();
        let session = Session {
            lifted,
            ..disk.session()
        };
        let (image, map) = (Box::new(*disk.image()), Box::new(*disk.map()));
        let mut disk = Disk::resumed(image, map, session);
        assert_eq!(disk.is_protected(), lifted == 0, "{lifted}");
        let made = disk.make(&mut named("A"));
        assert_eq!(made == Err(Code::Protected), lifted == 0, "{lifted}");
    }
}

#[test]
fn what_would_change_a_protected_disk_is_refused() {
    let mut disk = with_a_file();
    let before = (disk.image().to_vec(), *disk.map());
    let mut open = named("A");
    disk.open(&mut open).expect("opened");
    for call in Call::ALL {
        let mut fcb = open;
        let answer = disk.call(*call, &mut fcb);
        let writes = matches!(call.number(), 16 | 19 | 21 | 22 | 23 | 34);
        assert_eq!(answer == Err(Code::Protected), writes, "call {call}");
    }
    assert!(disk.is_protected());
    assert_eq!((disk.image().to_vec(), *disk.map()), before);
}

#[test]
fn lifting_and_protecting_keep_a_search() {
    let mut disk = with_a_file();
    disk.lift();
    for name in ["B", "C"] {
        disk.make(&mut named(name)).expect("made");
    }
    disk.protect();
    let mut all = Fcb::matching(Pattern::EVERY);
    assert_eq!(disk.search_first(&mut all).expect("found").number, 0);
    disk.lift();
    assert!(!disk.is_protected());
    assert_eq!(disk.search_next().expect("found").number, 1);
    disk.protect();
    assert_eq!(disk.search_next().expect("found").number, 2);
    assert_eq!(disk.search_next(), Err(Code::NoMore));
}

/// What was written before the protection was set is not lost by it.
#[test]
fn a_file_is_closed_once_the_protection_is_lifted_again() {
    let mut disk = with_a_file();
    disk.lift();
    let mut fcb = named("B");
    disk.make(&mut fcb).expect("made");
    disk.write_next(&mut fcb).expect("written");
    disk.protect();
    assert_eq!(disk.close(&mut fcb), Err(Code::Protected));
    disk.lift();
    disk.close(&mut fcb).expect("closed");
    assert_eq!(disk.space(), Ok(1_912));
}

#[test]
fn a_protected_open_stamps_no_access() {
    let mut disk = Disk::new(common::dated_image(0x40)).expect("a disk");
    disk.set_time("2026-11-15 06:00".parse::<Time>().expect("a time"));
    disk.lift();
    disk.make(&mut named("A")).expect("made");
    disk.protect();
    let image = disk.image().to_vec();
    disk.open(&mut named("A")).expect("opened");
    assert!(disk.image()[..] == image[..]);
    disk.lift();
    disk.open(&mut named("A")).expect("opened");
    assert!(disk.image()[..] != image[..]);
}
