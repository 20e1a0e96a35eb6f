//! What is wrong with a directory or a map, and where: the rules for a
//! consistent image and a right map, read plainly and one by one.

use crate::layout::{entry_place, Note, Row, Stamp, AREA, BLOCKS};
use benzokamuri::{Image, Map, Name, ENTRIES};
use std::fmt;

/// What a byte of an entry has to be.
#[derive(Clone, Copy, Debug, PartialEq, Eq)]
pub enum Rule {
    /// E5H, a user, a label or a date entry.
    User,
    /// A character of a name.
    Name,
    /// A character of a name, and the first of it.
    NameBegins,
    /// ex.
    Ex,
    /// s2.
    S2,
    /// A slot.
    Slot,
    /// What a label asks for.
    Asks,
    /// The hour of a stamp.
    Hour,
    /// The minute of a stamp.
    Minute,
}

impl Rule {
    /// What is due, and what the byte is called.
    fn words(self) -> (&'static str, &'static str) {
        match self {
            Rule::User => ("user", "E5H, a user from 0 to 15, 20H or 21H"),
            Rule::Name => ("name", "20H to 7EH without 3FH, the high bit aside,"),
            Rule::NameBegins => ("name", "21H to 7EH without 3FH, the high bit aside,"),
            Rule::Ex => ("ex", "0 to 31"),
            Rule::S2 => ("s2", "0 to 63"),
            Rule::Slot => ("slot", "0 or a block from 2 to 242"),
            Rule::Asks => ("label data", "bit 4 (create) or bit 6 (access), not both,"),
            Rule::Hour => ("hour", "a number in BCD"),
            Rule::Minute => ("minute", "a number in BCD"),
        }
    }
}

/// Where a block is listed.
#[derive(Clone, Copy, Debug, PartialEq, Eq)]
pub struct Listed {
    /// The entry.
    pub entry: usize,
    /// The slot, 0 to 15.
    pub slot: usize,
}

impl fmt::Display for Listed {
    fn fmt(&self, f: &mut fmt::Formatter) -> fmt::Result {
        let Listed { entry, slot } = *self;
        write!(f, "entry {entry}, byte {} (slot {slot})", 16 + slot)
    }
}

/// Why an entry of its kind may not stand where it does.
#[derive(Clone, Copy, Debug, PartialEq, Eq)]
pub enum Misplaced {
    /// A date entry that is not the fourth of four.
    NotFourth,
    /// A fourth entry that is no date entry, though another is.
    NotDated {
        /// The first that is one.
        dated: usize,
    },
    /// A label behind another.
    SecondLabel {
        /// The first.
        first: usize,
    },
}

impl fmt::Display for Misplaced {
    fn fmt(&self, f: &mut fmt::Formatter) -> fmt::Result {
        match self {
            Misplaced::NotFourth => f.write_str("a date entry is the fourth of four, and this is not"),
            Misplaced::NotDated { dated } => write!(
                f,
                "21H is due, since entry {dated} is a date entry, and all fourth entries are or none"
            ),
            Misplaced::SecondLabel { first } => {
                write!(f, "entry {first} is the label, and there is one at most")
            }
        }
    }
}

/// What is wrong.
#[derive(Clone, Debug, PartialEq, Eq)]
pub enum Fault {
    /// A byte of an entry has a value that it may not have.
    Byte {
        /// The entry.
        entry: usize,
        /// The byte, 0 to 31.
        byte: usize,
        /// What it is.
        value: u8,
        /// What it has to be.
        rule: Rule,
    },
    /// A block stands twice.
    BlockTwice {
        /// The block.
        block: u8,
        /// Where it stands first.
        first: Listed,
        /// Where it stands again.
        again: Listed,
    },
    /// Two entries have one user, name and extent.
    Alike {
        /// The lower-numbered one.
        first: usize,
        /// The other.
        again: usize,
        /// User, name and extent.
        what: String,
    },
    /// A label or a date entry stands where it may not, or a date entry lacks.
    Place {
        /// The entry.
        entry: usize,
        /// Its byte 0.
        value: u8,
        /// What is wrong with that.
        wrong: Misplaced,
    },
    /// A note of the map is not what it has to be.
    Note {
        /// The block.
        block: usize,
        /// Its note.
        note: u16,
        /// What is wrong with it.
        wrong: &'static str,
    },
}

impl fmt::Display for Fault {
    fn fmt(&self, f: &mut fmt::Formatter) -> fmt::Result {
        match self {
            Fault::Byte {
                entry,
                byte,
                value,
                rule,
            } => {
                let (name, due) = rule.words();
                let place = entry_place(*entry) + byte;
                write!(
                    f,
                    "entry {entry}, byte {byte} ({name}) is {value:02X}H: {due} is due (byte {place} of the image)"
                )
            }
            Fault::BlockTwice {
                block,
                first,
                again,
            } => write!(f, "block {block} stands twice: {first}, and {again}"),
            Fault::Alike { first, again, what } => {
                write!(f, "entries {first} and {again} are alike: both are {what}")
            }
            Fault::Place {
                entry,
                value,
                wrong,
            } => {
                let place = entry_place(*entry);
                write!(
                    f,
                    "entry {entry}, byte 0 is {value:02X}H: {wrong} (byte {place} of the image)"
                )
            }
            Fault::Note { block, note, wrong } => {
                let read = Note::read(*note);
                write!(f, "block {block} is noted {note} ({read}): {wrong}")
            }
        }
    }
}

/// Everything that is wrong with a directory, entry by entry.
pub fn image_faults(image: &Image) -> Vec<Fault> {
    let mut faults = Vec::new();
    let mut seen: [Option<Listed>; 256] = [None; 256];
    for entry in 0..ENTRIES {
        let row = Row::of(image, entry);
        faults.extend(place_faults(image, entry));
        faults.extend(byte_faults(row, entry));
        if row.is_used() {
            faults.extend(blocks_twice(row, entry, &mut seen));
            faults.extend(alike(image, entry));
        }
    }
    faults
}

/// The bytes of an entry that are not allowed.
fn byte_faults(row: Row, entry: usize) -> Vec<Fault> {
    let wrong = match row {
        _ if row.is_empty() => Vec::new(),
        _ if row.is_used() => wrong_in_file(row),
        _ if row.is_label() || row.is_dates() => wrong_aside(row),
        // What else it holds is not known.
        _ => vec![(0, Rule::User)],
    };
    let fault = |(byte, rule): (usize, Rule)| Fault::Byte {
        entry,
        byte,
        value: row.0[byte],
        rule,
    };
    wrong.into_iter().map(fault).collect()
}

/// The wrong bytes of a file's entry.
fn wrong_in_file(row: Row) -> Vec<(usize, Rule)> {
    let mut wrong = Vec::new();
    for byte in 1..=11 {
        let character = row.0[byte] & 0x7F;
        let allowed = (0x20..=0x7E).contains(&character) && character != 0x3F;
        if byte == 1 && (character == 0x20 || !allowed) {
            wrong.push((byte, Rule::NameBegins));
        } else if !allowed {
            wrong.push((byte, Rule::Name));
        }
    }
    for (byte, highest, rule) in [(12, 31, Rule::Ex), (14, 63, Rule::S2)] {
        if row.0[byte] > highest {
            wrong.push((byte, rule));
        }
    }
    for byte in 16..=31 {
        let block = usize::from(row.0[byte]);
        if block != 0 && !(AREA..BLOCKS).contains(&block) {
            wrong.push((byte, Rule::Slot));
        }
    }
    wrong
}

/// The wrong bytes of a label or of a date entry, where nothing but what the
/// label asks for and the times of stamps is looked at.
fn wrong_aside(row: Row) -> Vec<(usize, Rule)> {
    let mut wrong = Vec::new();
    let both = row.asks_for(Stamp::Create) && row.asks_for(Stamp::Access);
    if row.is_label() && both {
        wrong.push((Stamp::BYTE, Rule::Asks));
    }
    for stamp in row.stamps() {
        for (byte, rule) in [(stamp + 2, Rule::Hour), (stamp + 3, Rule::Minute)] {
            let digits = [row.0[byte] >> 4, row.0[byte] & 0x0F];
            if digits.iter().any(|&digit| digit > 9) {
                wrong.push((byte, rule));
            }
        }
    }
    wrong
}

/// A label or a date entry that may not stand where it does, and the lack of a
/// date entry.
fn place_faults(image: &Image, entry: usize) -> Vec<Fault> {
    let row = Row::of(image, entry);
    let is_fourth = |&entry: &usize| entry % 4 == 3;
    let dated = || {
        let mut fourths = (0..ENTRIES).filter(is_fourth);
        fourths.find(|&fourth| Row::of(image, fourth).is_dates())
    };
    let by_dates = match (is_fourth(&entry), row.is_dates()) {
        (false, true) => Some(Misplaced::NotFourth),
        (true, false) => dated().map(|dated| Misplaced::NotDated { dated }),
        _ => None,
    };
    let mut labels = (0..entry).filter(|&first| Row::of(image, first).is_label());
    let before = labels.next().filter(|_| row.is_label());
    let by_label = before.map(|first| Misplaced::SecondLabel { first });
    let fault = |wrong| Fault::Place {
        entry,
        value: row.user(),
        wrong,
    };
    by_dates.into_iter().chain(by_label).map(fault).collect()
}

/// The blocks of a file's entry that were seen before.
fn blocks_twice(row: Row, entry: usize, seen: &mut [Option<Listed>; 256]) -> Vec<Fault> {
    let mut faults = Vec::new();
    for (slot, &block) in row.slots().iter().enumerate() {
        if block == 0 {
            continue;
        }
        let again = Listed { entry, slot };
        match seen[usize::from(block)] {
            Some(first) => faults.push(Fault::BlockTwice {
                block,
                first,
                again,
            }),
            None => seen[usize::from(block)] = Some(again),
        }
    }
    faults
}

/// An earlier entry of the same user, name and extent.
fn alike(image: &Image, entry: usize) -> Option<Fault> {
    let row = Row::of(image, entry);
    let alike = |&first: &usize| {
        let other = Row::of(image, first);
        other.is_used() && identity(other) == identity(row)
    };
    let first = (0..entry).find(alike)?;
    Some(Fault::Alike {
        first,
        again: entry,
        what: described(row),
    })
}

/// What tells an entry apart: user, seven-bit name and extent.
fn identity(row: Row) -> (u8, [u8; 11], u16) {
    (row.user(), row.name().map(|byte| byte & 0x7F), row.extent())
}

/// The same in words.
fn described(row: Row) -> String {
    let (user, _, extent) = identity(row);
    format!("extent {extent} of {}, user {user}", spelled(row))
}

/// An entry's name, or the bytes that are none.
pub fn spelled(row: Row) -> String {
    match Name::of(&row.name()) {
        Some(name) => name.to_string(),
        None => {
            let bytes = row.name().map(|byte| format!("{:02X}", byte & 0x7F));
            bytes.join(" ")
        }
    }
}

/// Everything that is wrong with the map of a consistent image, block by
/// block.
pub fn map_faults(image: &Image, map: &Map) -> Vec<Fault> {
    let mut listed = [false; 256];
    for entry in 0..ENTRIES {
        let row = Row::of(image, entry);
        if row.is_used() {
            for block in row.blocks() {
                listed[usize::from(block)] = true;
            }
        }
    }
    let mut faults = Vec::new();
    for (block, &note) in map.iter().enumerate() {
        let wrong = match (Note::read(note), listed[block]) {
            (Note::Directory, _) if block < AREA => continue,
            _ if block < AREA => "it belongs to the directory, so 1 is due",
            (Note::Recorded, true) | (Note::Free, false) => continue,
            (_, true) => "an entry lists it, so 2 is due",
            (Note::Recorded, false) => "no entry lists it",
            (Note::Directory, false) => "it does not belong to the directory",
            (Note::Meaningless, false) => "no note is that number",
            (Note::Pending { entry, .. }, false) => match Row::of(image, entry).is_used() {
                true => continue,
                false => "that entry is empty",
            },
        };
        faults.push(Fault::Note { block, note, wrong });
    }
    faults
}

#[cfg(test)]
mod tests {
    use super::*;
    use crate::layout::{DATES, ERASED, LABEL};
    use benzokamuri::IMAGE_LEN;

    fn image() -> Box<Image> {
        let bytes = vec![ERASED; IMAGE_LEN].into_boxed_slice();
        bytes.try_into().expect("as long as an image")
    }

    /// An image with these entries, the rest empty.
    fn with(rows: &[(usize, [u8; 32])]) -> Box<Image> {
        let mut image = image();
        for (entry, row) in rows {
            image[entry_place(*entry)..][..32].copy_from_slice(row);
        }
        image
    }

    fn row(name: &[u8; 11], slots: &[u8]) -> [u8; 32] {
        let mut row = [0; 32];
        row[1..12].copy_from_slice(name);
        row[16..16 + slots.len()].copy_from_slice(slots);
        row
    }

    fn said(image: &Image) -> Vec<String> {
        image_faults(image).iter().map(Fault::to_string).collect()
    }

    #[test]
    fn nothing_is_wrong_with_an_erased_disk() {
        assert_eq!(image_faults(&image()), []);
        let mut map = [0; BLOCKS];
        map[..2].fill(1);
        assert_eq!(map_faults(&image(), &map), []);
    }

    #[test]
    fn bytes_are_named_with_their_place() {
        let mut bad = row(b"A\x1F?      TX", &[1, 243]);
        (bad[12], bad[14], bad[15]) = (32, 64, 255);
        bad[1] = 0xA0;
        let said = said(&with(&[(5, bad)]));
        let expected = [
            "entry 5, byte 1 (name) is A0H: 21H to 7EH without 3FH, the high bit aside, is due (byte 7457 of the image)",
            "entry 5, byte 2 (name) is 1FH: 20H to 7EH without 3FH, the high bit aside, is due (byte 7458 of the image)",
            "entry 5, byte 3 (name) is 3FH: 20H to 7EH without 3FH, the high bit aside, is due (byte 7459 of the image)",
            "entry 5, byte 12 (ex) is 20H: 0 to 31 is due (byte 7468 of the image)",
            "entry 5, byte 14 (s2) is 40H: 0 to 63 is due (byte 7470 of the image)",
            "entry 5, byte 16 (slot) is 01H: 0 or a block from 2 to 242 is due (byte 7472 of the image)",
            "entry 5, byte 17 (slot) is F3H: 0 or a block from 2 to 242 is due (byte 7473 of the image)",
        ];
        assert_eq!(said, expected);
    }

    #[test]
    fn a_strange_user_is_named_and_the_rest_left_alone() {
        for user in [0x10, 0x1F, 0x22, 0xE4, 0xFF] {
            let mut strange = [0x7F; 32];
            strange[0] = user;
            let expected = format!("entry 1, byte 0 (user) is {user:02X}H: E5H, a user from 0 to 15, 20H or 21H is due (byte 6688 of the image)");
            assert_eq!(said(&with(&[(1, strange)])), [expected]);
        }
    }

    /// A label or a date entry, all else 0.
    fn aside(kind: u8, bytes: &[(usize, u8)]) -> [u8; 32] {
        let mut row = [0; 32];
        row[0] = kind;
        for &(byte, value) in bytes {
            row[byte] = value;
        }
        row
    }

    /// An image with date entries in all fourth positions, and these entries.
    fn dated_with(rows: &[(usize, [u8; 32])]) -> Box<Image> {
        let dates = |entry| (entry, aside(DATES, &[]));
        let fourths = (3..ENTRIES).step_by(4).map(dates);
        with(&fourths.chain(rows.iter().copied()).collect::<Vec<_>>())
    }

    #[test]
    fn labels_and_date_entries_may_stand_in_a_directory() {
        let label = aside(LABEL, &[(1, 0xFF), (12, 0x31), (26, 0x99), (27, 0x99)]);
        let stamps = [(3, 0x23), (4, 0x59), (7, 0x99), (9, 0xFF), (10, 0xFF)];
        let dates = aside(DATES, &stamps);
        assert_eq!(image_faults(&dated_with(&[])), []);
        assert_eq!(image_faults(&dated_with(&[(0, label), (7, dates)])), []);
        for entry in [0, 1, 62, 63] {
            assert_eq!(image_faults(&with(&[(entry, label)])), [], "{entry}");
        }
    }

    #[test]
    fn date_entries_and_labels_in_wrong_places() {
        let label = aside(LABEL, &[]);
        let dates = aside(DATES, &[]);
        let astray = "entry 5, byte 0 is 21H: a date entry is the fourth of four, and this is not (byte 7456 of the image)";
        assert_eq!(said(&with(&[(5, dates)])), [astray]);
        assert_eq!(said(&dated_with(&[(5, dates)])), [astray]);
        let second = "entry 9, byte 0 is 20H: entry 2 is the label, and there is one at most (byte 8224 of the image)";
        assert_eq!(said(&with(&[(2, label), (9, label)])), [second]);
        assert_eq!(said(&with(&[(2, label), (9, label), (10, label)])).len(), 2);
        let missing = "entry 7, byte 0 is 00H: 21H is due, since entry 3 is a date entry, and all fourth entries are or none (byte 7520 of the image)";
        let file = row(b"A       TXT", &[]);
        assert_eq!(said(&dated_with(&[(7, file)])), [missing]);
        assert_eq!(said(&with(&[(63, dates)])).len(), 15);
        // One entry may be wrong in two ways.
        let both = said(&dated_with(&[(0, label), (63, label)]));
        assert_eq!(both.len(), 2, "{both:?}");
        assert!(both
            .iter()
            .all(|said| said.starts_with("entry 63, byte 0 is 20H: ")));
    }

    #[test]
    fn what_a_label_asks_for_and_every_hour_and_minute() {
        let label = aside(LABEL, &[(12, 0x51), (26, 0x0A), (31, 0xA0)]);
        let expected = [
            "entry 1, byte 12 (label data) is 51H: bit 4 (create) or bit 6 (access), not both, is due (byte 6700 of the image)",
            "entry 1, byte 26 (hour) is 0AH: a number in BCD is due (byte 6714 of the image)",
            "entry 1, byte 31 (minute) is A0H: a number in BCD is due (byte 6719 of the image)",
        ];
        assert_eq!(said(&with(&[(1, label)])), expected);
        // Bytes 12 and 26 of a date entry are no label's.
        assert_eq!(
            image_faults(&dated_with(&[(3, aside(DATES, &[(12, 0x51)]))])),
            []
        );
        let times = [3, 4, 7, 8, 13, 14, 17, 18, 23, 24, 27, 28];
        for byte in 1..32 {
            let faults = image_faults(&dated_with(&[(63, aside(DATES, &[(byte, 0xE5)]))]));
            let due = times.iter().filter(|&&time| time == byte).count();
            assert_eq!(faults.len(), due, "byte {byte}: {faults:?}");
        }
    }

    #[test]
    fn blocks_and_entries_that_stand_twice() {
        let mut alike = row(b"A       TXT", &[9]);
        alike[3] |= 0x80;
        let image = with(&[
            (1, row(b"A       TXT", &[7, 0, 7])),
            (8, row(b"B       TXT", &[9])),
            (63, alike),
        ]);
        let expected = [
            "block 7 stands twice: entry 1, byte 16 (slot 0), and entry 1, byte 18 (slot 2)",
            "block 9 stands twice: entry 8, byte 16 (slot 0), and entry 63, byte 16 (slot 0)",
            "entries 1 and 63 are alike: both are extent 0 of A.TXT, user 0",
        ];
        assert_eq!(said(&image), expected);
    }

    #[test]
    fn notes_that_are_wrong() {
        let image = with(&[(3, row(b"A       TXT", &[7, 8]))]);
        let mut map = [0; BLOCKS];
        map[..2].fill(1);
        map[7] = 2;
        map[8] = 2;
        map[20] = 16 + 16 * 3 + 5;
        assert_eq!(map_faults(&image, &map), []);
        map[0] = 0;
        map[7] = 16 + 16 * 3;
        map[9] = 2;
        map[10] = 1;
        map[11] = 5;
        map[12] = 1_040;
        map[13] = 16 + 16 * 4;
        let said: Vec<_> = map_faults(&image, &map)
            .iter()
            .map(Fault::to_string)
            .collect();
        let expected = [
            "block 0 is noted 0 (free): it belongs to the directory, so 1 is due",
            "block 7 is noted 64 (pending for slot 0 of entry 3): an entry lists it, so 2 is due",
            "block 9 is noted 2 (recorded): no entry lists it",
            "block 10 is noted 1 (directory): it does not belong to the directory",
            "block 11 is noted 5 (of no meaning): no note is that number",
            "block 12 is noted 1040 (of no meaning): no note is that number",
            "block 13 is noted 80 (pending for slot 0 of entry 4): that entry is empty",
        ];
        assert_eq!(said, expected);
    }
}
