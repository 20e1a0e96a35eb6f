//! What is wrong with a disk, told plainly: the rules for a consistent image
//! and a right map, written down once more without a thought for speed.

use crate::world::{asks, World, DATES, EMPTY, LABEL};
use std::fmt;

/// Writes the faults down as an enum with a list of all.
macro_rules! faults {
    ($($(#[$doc:meta])* $fault:ident;)*) => {
        /// What can be wrong with a disk.
        #[derive(Clone, Copy, Debug, PartialEq, Eq)]
        pub enum Fault {
            $($(#[$doc])* $fault,)*
        }

        impl Fault {
            /// Every fault; `fault as usize` is its place here.
            pub const ALL: &'static [Fault] = &[$(Fault::$fault),*];
        }
    };
}

faults! {
    /// A byte 0 that is neither a user, 0 to 15, nor E5H, 20H or 21H.
    User;
    /// A name that starts with 20H.
    NameStartsWithSpace;
    /// A name byte below 20H.
    NameByteLow;
    /// A name byte 7FH.
    NameByte7F;
    /// A name byte 3FH.
    NameByte3F;
    /// An ex over 31.
    Ex;
    /// An s2 over 63.
    S2;
    /// A slot of 1.
    SlotOf1;
    /// A slot over 242.
    SlotOver242;
    /// A block that stands twice in one entry.
    BlockTwiceInEntry;
    /// A block that stands in two entries.
    BlockInTwoEntries;
    /// Two entries of one user, name and extent.
    TwoAlike;
    /// A date entry that is not the fourth of its record.
    DatesElsewhere;
    /// Date entries in some fourth positions, but not in all.
    DatesMissing;
    /// Two labels.
    TwoLabels;
    /// A label that asks for create and access stamps.
    AsksForBoth;
    /// Bad BCD in a date entry.
    BadDates;
    /// Bad BCD in a label.
    BadLabel;
    /// A note of block 0 or 1 that is not 1.
    AreaNotNoted;
    /// A note of 1 for another block.
    AreaElsewhere;
    /// A note other than 2 for a block that is listed.
    ListedNotNoted;
    /// A note of 2 for a block that is not listed.
    NotedNotListed;
    /// A note from 3 to 15.
    NoteOfNoMeaning;
    /// A note over 1,039.
    NoteTooHigh;
    /// A block pending for an entry that is not used.
    PendingForEmpty;
}

/// The bytes of a date entry that have to be in BCD: hour and minute of create
/// or access and of update, for each of the three entries before it.
pub const DIGITS_OF_DATES: [usize; 12] = [3, 4, 7, 8, 13, 14, 17, 18, 23, 24, 27, 28];

/// The same of a label: hour and minute of its own two stamps.
pub const DIGITS_OF_LABEL: [usize; 4] = [26, 27, 30, 31];

/// Bad BCD: a digit over 9.
pub fn is_bad_bcd(byte: u8) -> bool {
    byte / 16 > 9 || byte % 16 > 9
}

/// A place for bad BCD.
#[derive(Clone, Copy, Debug, PartialEq, Eq)]
pub enum BadBcd {
    /// This byte of a label.
    Label(usize),
    /// This byte of a date entry, where it stands for a file's entry.
    BesideUsed(usize),
    /// This byte of a date entry, where it stands for an empty entry.
    BesideEmpty(usize),
}

impl BadBcd {
    /// Every place.
    pub const ALL: [BadBcd; 28] = {
        let mut all = [BadBcd::Label(0); 28];
        let mut i = 0;
        while i < 12 {
            all[i] = BadBcd::BesideUsed(DIGITS_OF_DATES[i]);
            all[12 + i] = BadBcd::BesideEmpty(DIGITS_OF_DATES[i]);
            i += 1;
        }
        while i < 16 {
            all[12 + i] = BadBcd::Label(DIGITS_OF_LABEL[i - 12]);
            i += 1;
        }
        all
    };

    /// Whether there is bad BCD in this place.
    pub fn is_in(self, world: &World) -> bool {
        let bad = |entry: usize, at: usize| is_bad_bcd(world.entry(entry)[at]);
        // The entry that a byte of a date entry stands for.
        let beside = |dates: usize, at: usize| dates - 3 + (at - 1) / 10;
        match self {
            BadBcd::Label(at) => world.of_kind(LABEL).any(|entry| bad(entry, at)),
            BadBcd::BesideUsed(at) => world
                .of_kind(DATES)
                .any(|entry| bad(entry, at) && world.is_used(beside(entry, at))),
            BadBcd::BesideEmpty(at) => world
                .of_kind(DATES)
                .any(|entry| bad(entry, at) && world.entry(beside(entry, at))[0] == EMPTY),
        }
    }
}

impl fmt::Display for BadBcd {
    fn fmt(&self, f: &mut fmt::Formatter) -> fmt::Result {
        match self {
            BadBcd::Label(at) => write!(f, "label, {at}"),
            BadBcd::BesideUsed(at) => write!(f, "dates, {at}, used"),
            BadBcd::BesideEmpty(at) => write!(f, "dates, {at}, empty"),
        }
    }
}

/// What is wrong with the image, if anything is: the first fault in the order
/// of [`Fault::ALL`].
pub fn in_image(world: &World) -> Option<Fault> {
    in_files(world).or_else(|| in_dates(world))
}

/// What is wrong with labels and date entries.
fn in_dates(world: &World) -> Option<Fault> {
    let dates: Vec<usize> = world.of_kind(DATES).collect();
    let labels: Vec<usize> = world.of_kind(LABEL).collect();
    let asks_for_both = labels.iter().any(|&entry| {
        let asked = world.entry(entry)[12];
        asked & asks::CREATE != 0 && asked & asks::ACCESS != 0
    });
    let bad = |entries: &[usize], digits: &[usize]| {
        let mut rows = entries.iter().map(|&entry| world.entry(entry));
        rows.any(|row| digits.iter().any(|&at| is_bad_bcd(row[at])))
    };
    let tests = [
        (
            dates.iter().any(|entry| entry % 4 != 3),
            Fault::DatesElsewhere,
        ),
        (!dates.is_empty() && dates.len() != 16, Fault::DatesMissing),
        (labels.len() > 1, Fault::TwoLabels),
        (asks_for_both, Fault::AsksForBoth),
        (bad(&dates, &DIGITS_OF_DATES), Fault::BadDates),
        (bad(&labels, &DIGITS_OF_LABEL), Fault::BadLabel),
    ];
    first_of(&tests)
}

/// The first fault that is there.
fn first_of(tests: &[(bool, Fault)]) -> Option<Fault> {
    let there = tests.iter().find(|(is, _)| *is);
    there.map(|&(_, fault)| fault)
}

/// What is wrong with the used entries.
fn in_files(world: &World) -> Option<Fault> {
    let rows: Vec<&[u8]> = world.used().map(|entry| world.entry(entry)).collect();
    in_each(&rows)
        .or_else(|| in_listings(&rows))
        .or_else(|| two_alike(&rows).then_some(Fault::TwoAlike))
}

/// What is wrong with an entry by itself.
fn in_each(rows: &[&[u8]]) -> Option<Fault> {
    let any = |wrong: &dyn Fn(&[u8]) -> bool| rows.iter().any(|row| wrong(row));
    let name_byte =
        |wrong: &dyn Fn(u8) -> bool| any(&|row| row[1..12].iter().any(|b| wrong(b & 0x7F)));
    let slot = |wrong: &dyn Fn(u8) -> bool| any(&|row| row[16..].iter().any(|&b| wrong(b)));
    let starts_with_space = any(&|row| row[1] & 0x7F == 0x20);
    first_of(&[
        (any(&|row| row[0] > 15), Fault::User),
        (starts_with_space, Fault::NameStartsWithSpace),
        (name_byte(&|byte| byte < 0x20), Fault::NameByteLow),
        (name_byte(&|byte| byte == 0x7F), Fault::NameByte7F),
        (name_byte(&|byte| byte == 0x3F), Fault::NameByte3F),
        (any(&|row| row[12] > 31), Fault::Ex),
        (any(&|row| row[14] > 63), Fault::S2),
        (slot(&|block| block == 1), Fault::SlotOf1),
        (slot(&|block| block > 242), Fault::SlotOver242),
    ])
}

/// Blocks that stand twice.
fn in_listings(rows: &[&[u8]]) -> Option<Fault> {
    let slots = |row: usize| rows[row][16..].iter().map(move |&block| (row, block));
    let listed = (0..rows.len()).flat_map(slots);
    let mut owner = [None; 256];
    let (mut twice_in_entry, mut in_two_entries) = (false, false);
    for (row, block) in listed.filter(|&(_, block)| block != 0) {
        match owner[usize::from(block)].replace(row) {
            Some(other) if other == row => twice_in_entry = true,
            Some(_) => in_two_entries = true,
            None => {}
        }
    }
    first_of(&[
        (twice_in_entry, Fault::BlockTwiceInEntry),
        (in_two_entries, Fault::BlockInTwoEntries),
    ])
}

/// Whether two entries agree in user, seven-bit name and extent.
fn two_alike(rows: &[&[u8]]) -> bool {
    let identity = |row: &[u8]| -> [u8; 14] {
        std::array::from_fn(|i| match i {
            0 => row[0],
            1..=11 => row[i] & 0x7F,
            12 => row[12],
            _ => row[14],
        })
    };
    let mut identities: Vec<_> = rows.iter().map(|row| identity(row)).collect();
    identities.sort_unstable();
    identities.windows(2).any(|two| two[0] == two[1])
}

/// What is wrong with the map of a consistent image, if anything is: the fault
/// of the first block that has one.
pub fn in_map(world: &World) -> Option<Fault> {
    let mut listed = [false; 256];
    for entry in world.used() {
        for &block in &world.entry(entry)[16..] {
            listed[usize::from(block)] |= block != 0;
        }
    }
    let fault = |(block, &note): (usize, &u16)| match note {
        _ if block < 2 => (note != 1).then_some(Fault::AreaNotNoted),
        1 => Some(Fault::AreaElsewhere),
        2 => (!listed[block]).then_some(Fault::NotedNotListed),
        _ if listed[block] => Some(Fault::ListedNotNoted),
        0 => None,
        3..=15 => Some(Fault::NoteOfNoMeaning),
        1_040.. => Some(Fault::NoteTooHigh),
        16..=1_039 => {
            let entry = usize::from(note - 16) / 16;
            (!world.is_used(entry)).then_some(Fault::PendingForEmpty)
        }
    };
    world.map.cells().iter().enumerate().find_map(fault)
}

#[cfg(test)]
mod tests {
    use super::*;

    #[test]
    fn faults_are_numbered_in_order() {
        for (i, &fault) in Fault::ALL.iter().enumerate() {
            assert_eq!(fault as usize, i);
        }
    }

    #[test]
    fn every_place_for_bad_bcd_is_there_once() {
        for (i, place) in BadBcd::ALL.iter().enumerate() {
            assert!(!BadBcd::ALL[..i].contains(place), "{place}");
        }
    }

    #[test]
    fn a_new_world_has_none() {
        let world = World::new(5);
        assert_eq!(in_image(&world), None);
        assert_eq!(in_map(&world), None);
        assert!(world.is_sound());
    }
}
