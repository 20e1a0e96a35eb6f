//! Labels and date entries: what `new` puts on a disk, and what others leave
//! out of theirs.

use crate::layout::{entry_place, Row, Stamp, DATES, ERASED, LABEL, LABEL_STAMPS, STAMP_LEN};
use benzokamuri::{Entry, Image, Name, Time, ENTRIES, ENTRY_LEN};

/// A label's bit that says that there is one.
const EXISTS: u8 = 1;

/// A label.
pub struct Label {
    /// What the disk is called.
    pub name: Name,
    /// The stamps that it asks for, of which create and access do not go
    /// together.
    pub asks: Vec<Stamp>,
    /// When it is made.
    pub time: Time,
}

impl Label {
    /// The label's entry. It has no password.
    fn entry(&self) -> Entry {
        let mut entry = [0; ENTRY_LEN];
        entry[0] = LABEL;
        entry[1..12].copy_from_slice(self.name.bytes());
        entry[Stamp::BYTE] = self
            .asks
            .iter()
            .fold(EXISTS, |bits, stamp| bits | stamp.bit());
        for at in LABEL_STAMPS {
            entry[at..at + STAMP_LEN].copy_from_slice(&self.time.stamp());
        }
        entry
    }
}

/// Puts a label on an erased disk, as its first entry.
pub fn put_label(image: &mut Image, label: &Label) {
    put(image, 0, &label.entry());
}

/// Puts date entries on an erased disk, as the fourth of every four entries.
/// Their stamps are zeros.
pub fn put_dates(image: &mut Image) {
    let mut dates = [0; ENTRY_LEN];
    dates[0] = DATES;
    for fourth in (3..ENTRIES).step_by(4) {
        put(image, fourth, &dates);
    }
}

fn put(image: &mut Image, entry: usize, bytes: &Entry) {
    image[entry_place(entry)..][..ENTRY_LEN].copy_from_slice(bytes);
}

/// Makes stamps zeros that were never written, and says how many there are.
/// cpmtools leaves them E5H throughout, which is no time in BCD, so that the
/// calls would refuse every dated disk that it made.
pub fn fill_blank_stamps(image: &mut Image) -> usize {
    let mut filled = 0;
    for entry in 0..ENTRIES {
        for &at in Row::of(image, entry).stamps() {
            let stamp = &mut image[entry_place(entry) + at..][..STAMP_LEN];
            if stamp.iter().all(|&byte| byte == ERASED) {
                stamp.fill(0);
                filled += 1;
            }
        }
    }
    filled
}

#[cfg(test)]
mod tests {
    use super::*;
    use crate::check::image_faults;
    use benzokamuri::Disk;

    fn erased() -> Box<Image> {
        Box::new(*Disk::erased().image())
    }

    fn label(asks: &[Stamp]) -> Label {
        Label {
            name: "WORK.DSK".parse().expect("a name"),
            asks: asks.to_vec(),
            time: "2026-11-15 06:07".parse().expect("a time"),
        }
    }

    #[test]
    fn a_label_is_laid_out_as_the_manual_has_it() {
        let mut image = erased();
        put_label(&mut image, &label(&[Stamp::Create, Stamp::Update]));
        let stamp = [0xBB, 0x45, 0x06, 0x07];
        let mut expected = b" WORK    DSK\x31".to_vec();
        expected.extend([0; 11]);
        expected.extend([stamp, stamp].concat());
        assert_eq!(Row::of(&image, 0).0, expected);
        let erased_yet = |&byte: &u8| byte == ERASED;
        assert!(image[..6_656].iter().all(erased_yet));
        assert!(image[6_656 + 32..].iter().all(erased_yet));
        for (asks, bits) in [
            (&[][..], 0x01),
            (&[Stamp::Access], 0x41),
            (&[Stamp::Update, Stamp::Access, Stamp::Update], 0x61),
        ] {
            put_label(&mut image, &label(asks));
            assert_eq!(Row::of(&image, 0).0[12], bits);
        }
    }

    #[test]
    fn every_fourth_entry_is_a_date_entry() {
        let mut image = erased();
        put_dates(&mut image);
        for entry in 0..ENTRIES {
            let row = Row::of(&image, entry);
            assert_eq!(row.is_dates(), entry % 4 == 3, "{entry}");
            assert!(row.is_empty() || row.0[1..] == [0; 31]);
        }
        assert_eq!(image_faults(&image), []);
        assert_eq!(fill_blank_stamps(&mut image), 0);
    }

    #[test]
    fn stamps_that_were_never_written_are_made_zeros() {
        let mut whole = erased();
        put_dates(&mut whole);
        put_label(&mut whole, &label(&[]));
        let mut image = whole.clone();
        // Stamps of entries 0 and 2, and one of which three bytes are E5H.
        let dates = entry_place(3);
        for at in [dates + 1, dates + 5, dates + 25, entry_place(0) + 28] {
            image[at..at + STAMP_LEN].fill(ERASED);
        }
        image[dates + 21..dates + 24].fill(ERASED);
        assert_eq!(fill_blank_stamps(&mut image), 4);
        assert_eq!(image_faults(&image).len(), 1, "an hour");
        image[dates + 21..dates + 24].fill(0);
        image[entry_place(0) + 28..][..STAMP_LEN].copy_from_slice(&label(&[]).time.stamp());
        assert!(image == whole);
    }
}
