//! Stamps as `Disk` makes and tells them.

mod common;

use benzokamuri::{Asked, Call, Disk, Fcb, Found, Stamps, Time};

const CREATE: u8 = 0x10;
const UPDATE: u8 = 0x20;
const ACCESS: u8 = 0x40;

fn time(text: &str) -> Time {
    text.parse().expect(text)
}

fn named(name: &str) -> Fcb {
    Fcb::named(name.parse().expect(name))
}

fn found(disk: &mut Disk, name: &str) -> Found {
    disk.search_first(&mut named(name)).expect(name)
}

fn stamps(first: &str, update: &str) -> Option<Stamps> {
    let [first, update] = [first, update].map(|text| match text {
        "never" => Time::ZERO,
        _ => time(text),
    });
    Some(Stamps { first, update })
}

#[test]
fn create_and_update_are_told_by_a_search() {
    let mut disk = Disk::new(common::dated_image(CREATE | UPDATE)).expect("a disk");
    disk.lift();
    assert_eq!(disk.time(), Time::ZERO);
    for (name, at) in [("A", "2026-11-15 06:00"), ("B", "2026-11-15 06:01")] {
        disk.set_time(time(at));
        let mut fcb = named(name);
        disk.make(&mut fcb).expect("made");
        disk.set_time(time("1978-01-01 00:00"));
        disk.write_next(&mut fcb).expect("written");
        assert_eq!(found(&mut disk, name).stamps, stamps(at, "never"));
        disk.close(&mut fcb).expect("closed");
        let told = found(&mut disk, name);
        assert_eq!(told.stamps, stamps(at, "1978-01-01 00:00"));
    }
    // Entries 1 and 2: the label is entry 0.
    assert_eq!(
        [found(&mut disk, "A").number, found(&mut disk, "B").number],
        [1, 2]
    );
}

#[test]
fn a_disk_stands_still_until_it_is_told_another_time() {
    let mut disk = Disk::new(common::dated_image(ACCESS)).expect("a disk");
    disk.lift();
    disk.make(&mut named("A")).expect("made");
    disk.open(&mut named("A")).expect("opened");
    assert_eq!(found(&mut disk, "A").stamps, stamps("never", "never"));
    let last = time("2157-06-05 23:59");
    disk.set_time(last);
    assert_eq!(disk.clone().time(), last);
    disk.open(&mut named("A")).expect("opened");
    assert_eq!(
        found(&mut disk, "A").stamps,
        stamps("2157-06-05 23:59", "never")
    );
    // A call by its number brings its own time, and leaves the disk's.
    let asked = Asked::new(Call::Open.number(), 0, time("1980-02-29 12:30"));
    disk.ask(asked, &mut named("A")).expect("opened");
    assert_eq!(
        found(&mut disk, "A").stamps,
        stamps("1980-02-29 12:30", "never")
    );
    assert_eq!(disk.time(), last);
}

/// The fourth entry of a record is a file's where there are no date entries.
#[test]
fn an_undated_disk_tells_no_stamps() {
    let mut disk = Disk::erased();
    disk.lift();
    disk.set_time(time("2026-11-15 06:00"));
    for name in ["A", "B", "C", "D"] {
        disk.make(&mut named(name)).expect("made");
        assert_eq!(found(&mut disk, name).stamps, None, "{name}");
    }
    let mut other = Disk::erased();
    other.lift();
    for name in ["A", "B", "C", "D"] {
        other.make(&mut named(name)).expect("made");
    }
    assert_eq!(disk.image(), other.image());
}
