//! What a call changed, in words.

use crate::hex;
use crate::layout::{entry_place, record_at, Note, Row, AREA};
use benzokamuri::{Disk, Fcb, Session, BUFFER_LEN, ENTRIES};

/// Everything a call works on, as it was or is.
#[derive(Clone)]
pub struct Moment {
    /// Image, map, session and buffer.
    pub disk: Disk,
    /// The FCB.
    pub fcb: Fcb,
}

/// What differs between two moments, a line each and the buffer as a table.
pub fn between(before: &Moment, after: &Moment) -> Vec<String> {
    let mut lines = entries(before, after);
    lines.extend(records(before, after));
    lines.extend(notes(before, after));
    lines.extend(fcb_bytes(&before.fcb, &after.fcb));
    lines.extend(session(before.disk.session(), after.disk.session()));
    if before.disk.buffer != after.disk.buffer {
        let table = hex::table(&after.disk.buffer, "  ");
        lines.push(format!("buffer, now:\n{}", table.trim_end()));
    }
    lines
}

fn entries(before: &Moment, after: &Moment) -> Vec<String> {
    let rows = |entry| [before, after].map(|moment| Row::of(moment.disk.image(), entry).0);
    let differing = (0..ENTRIES).map(|entry| (entry, rows(entry)));
    differing
        .filter(|(_, [was, is])| was != is)
        .map(|(entry, rows)| {
            let [was, is] = rows.map(hex::written);
            let place = entry_place(entry);
            format!("entry {entry}, byte {place} of the image:\n  was {was}\n  is  {is}")
        })
        .collect()
}

fn records(before: &Moment, after: &Moment) -> Vec<String> {
    let [was, is] = [before, after].map(|moment| moment.disk.image().chunks(BUFFER_LEN));
    let mut lines = Vec::new();
    for (sector, (was, is)) in was.zip(is).enumerate() {
        let bytes = was.iter().zip(is).filter(|(was, is)| was != is).count();
        let at = BUFFER_LEN * sector;
        match record_at(at) {
            _ if bytes == 0 => {}
            // Entries are told one by one.
            Some((block, _)) if block < AREA => {}
            Some((block, record)) => lines.push(format!(
                "record {record} of block {block}, byte {at} of the image: {bytes} bytes differ"
            )),
            None => lines.push(format!(
                "byte {at} of the image, in no block: {bytes} bytes differ"
            )),
        }
    }
    lines
}

fn notes(before: &Moment, after: &Moment) -> Vec<String> {
    let pairs = before.disk.map().iter().zip(after.disk.map());
    let differing = pairs.enumerate().filter(|(_, (was, is))| was != is);
    differing
        .map(|(block, (&was, &is))| {
            let [read_was, read_is] = [was, is].map(Note::read);
            format!("note of block {block}: was {was} ({read_was}), is {is} ({read_is})")
        })
        .collect()
}

fn fcb_bytes(was: &Fcb, is: &Fcb) -> Vec<String> {
    let pairs = was.bytes().iter().zip(is.bytes()).enumerate();
    let differing = pairs.filter(|(_, (was, is))| was != is);
    differing
        .map(|(byte, (was, is))| {
            let what = match byte {
                0 => "drive",
                1..=11 => "name",
                12 => "ex",
                13 => "s1",
                14 => "s2",
                15 => "rc",
                16..=31 => "slot",
                32 => "cr",
                _ => "random record",
            };
            format!("FCB byte {byte} ({what}): was {was:02X}H, is {is:02X}H")
        })
        .collect()
}

fn session(was: Session, is: Session) -> Vec<String> {
    let mut lines = Vec::new();
    let mut differs = |what: &str, was: String, is: String| {
        if was != is {
            lines.push(format!("session, {what}: was {was}, is {is}"));
        }
    };
    differs("user", was.user.to_string(), is.user.to_string());
    differs(
        "pattern",
        hex::written(&was.pattern),
        hex::written(&is.pattern),
    );
    differs("search place", was.place.to_string(), is.place.to_string());
    differs("search on", was.on.to_string(), is.on.to_string());
    differs("protection", protection(was), protection(is));
    lines
}

/// The byte of the write protection, and what it means.
fn protection(session: Session) -> String {
    match session.lifted {
        0 => "0 (set)".into(),
        byte => format!("{byte} (lifted)"),
    }
}

#[cfg(test)]
mod tests {
    use super::*;

    #[test]
    fn a_lift_told() {
        let before = Moment {
            disk: Disk::erased(),
            fcb: Fcb::ZERO,
        };
        let mut after = before.clone();
        after.disk.lift();
        let told = |was, is| between(was, is).concat();
        let lifted = "session, protection: was 0 (set), is 1 (lifted)";
        let set = "session, protection: was 1 (lifted), is 0 (set)";
        assert_eq!(told(&before, &after), lifted);
        assert_eq!(told(&after, &before), set);
    }

    #[test]
    fn a_make_a_write_and_a_search_told() {
        let mut moment = Moment {
            disk: Disk::erased(),
            fcb: Fcb::named("A.B".parse().unwrap()),
        };
        moment.disk.lift();
        let mut then = |change: &dyn Fn(&mut Moment)| {
            let before = moment.clone();
            change(&mut moment);
            between(&before, &moment)
        };
        let empty = "E5".repeat(32);
        let made = format!(
            "0041{}42{}{}",
            "20".repeat(7),
            "20".repeat(2),
            "00".repeat(20)
        );
        assert_eq!(
            then(&|m| assert_eq!(m.disk.make(&mut m.fcb), Ok(0))),
            [format!(
                "entry 0, byte 6656 of the image:\n  was {empty}\n  is  {made}"
            )]
        );
        assert_eq!(
            then(&|m| m.disk.write_next(&mut m.fcb).unwrap()),
            [
                "record 0 of block 2, byte 9088 of the image: 128 bytes differ",
                "note of block 2: was 0 (free), is 16 (pending for slot 0 of entry 0)",
                "FCB byte 15 (rc): was 00H, is 01H",
                "FCB byte 16 (slot): was 00H, is 02H",
                "FCB byte 32 (cr): was 00H, is 01H",
            ]
        );
        let searched = then(&|m| assert!(m.disk.search_first(&mut m.fcb).is_ok()));
        assert_eq!(
            searched[..3],
            [
                "session, pattern: was 000000000000000000000000, is 412020202020202042202000",
                "session, search place: was 0, is 1",
                "session, search on: was 0, is 1",
            ]
        );
        assert!(searched[3].starts_with("buffer, now:\n  00  00 41 20"));
        assert_eq!(
            then(&|m| assert!(m.disk.search_first(&mut m.fcb).is_ok())),
            [""; 0]
        );
    }
}
