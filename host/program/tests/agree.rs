//! The plain check and the calls' 255, 1 agree, image by image and map by map.

use benzokamuri::{Code, Disk, Image, Map, NoDisk, Session};
use generator::disks::world_with_disk;
use generator::random::Random;
use program::check::{image_faults, map_faults, Fault, Misplaced, Rule};
use program::layout::{entry_place, Row};

/// Disks to start from, and damages tried on each.
const DISKS: u64 = 400;
const DAMAGES: usize = 60;

/// Bytes at the borders of what is allowed somewhere.
const BORDERS: [u8; 22] = [
    0, 1, 2, 15, 16, 0x1F, 0x20, 0x21, 0x3F, 0x40, 31, 32, 63, 64, 0x7E, 0x7F, 128, 129, 0xBF,
    0xE5, 242, 243,
];

/// The image and map of a sound disk.
fn sound_disk(seed: u64) -> (Box<Image>, Box<Map>) {
    let world = world_with_disk(seed);
    let image = world.image.cells().to_vec().into_boxed_slice();
    let map = world.map.cells().to_vec().into_boxed_slice();
    (image.try_into().unwrap(), map.try_into().unwrap())
}

/// What the calls say of an image.
fn image_refused(image: &Image) -> bool {
    match Disk::new(image.to_vec()) {
        Ok(_) => false,
        Err(NoDisk::Refused(Code::BadDisk)) => true,
        Err(other) => panic!("{other:?}"),
    }
}

/// What the calls say of a map.
fn map_refused(image: &Image, map: &Map) -> bool {
    let session = Session::default();
    match Disk::resumed(Box::new(*image), Box::new(*map), session).space() {
        Ok(_) => false,
        Err(Code::BadDisk) => true,
        Err(other) => panic!("{other:?}"),
    }
}

/// Bytes at the borders of BCD.
const BORDERS_OF_BCD: [u8; 10] = [0, 0x09, 0x0A, 0x0F, 0x23, 0x59, 0x90, 0x99, 0x9A, 0xA0];

/// Hours and minutes of a date entry, and of a label.
const TIMES_OF_DATES: [usize; 12] = [3, 4, 7, 8, 13, 14, 17, 18, 23, 24, 27, 28];
const TIMES_OF_LABEL: [usize; 4] = [26, 27, 30, 31];

fn copy_entry(image: &mut Image, from: usize, to: usize) {
    let (from, to) = (entry_place(from), entry_place(to));
    image.copy_within(from..from + 32, to);
}

/// Changes a byte of an entry, or makes two entries alike in part.
fn damage(random: &mut Random, image: &mut Image) {
    let entry = random.below(64);
    let place = entry_place(entry);
    match random.below(12) {
        0 => copy_entry(image, random.below(64), entry),
        1 => {
            let other = entry_place(random.below(64));
            let slot = 16 + random.below(16);
            image[place + slot] = image[other + 16 + random.below(16)];
        }
        2 => image[place] = random.one_of(&[0xE5, 0, 1, 15, 16, 0x20, 0x21, 255]),
        3 => image[place + random.from_to(1, 11)] ^= 0x80,
        4 => image[place + random.from_to(16, 31)] = random.byte(),
        5..=8 => damage_dates(random, image),
        _ => image[place + random.below(32)] = random.one_of(&BORDERS),
    }
}

/// Changes labels or date entries, or makes some.
fn damage_dates(random: &mut Random, image: &mut Image) {
    let entry = random.below(64);
    let fourth = 4 * random.below(16) + 3;
    let label = (0..64).find(|&entry| Row::of(image, entry).is_label());
    let label = entry_place(label.unwrap_or(entry));
    let [hours, of_label] = [
        random.one_of(&TIMES_OF_DATES),
        random.one_of(&TIMES_OF_LABEL),
    ];
    match random.below(8) {
        0 | 1 => image[entry_place(fourth) + hours] = random.one_of(&BORDERS_OF_BCD),
        2 => image[label + of_label] = random.one_of(&BORDERS_OF_BCD),
        3 => image[label + 12] = random.byte(),
        4 => copy_entry(image, fourth, entry),
        5 => copy_entry(image, entry, fourth),
        // A whole disk becomes a dated one.
        6 => (3..64).step_by(4).for_each(|fourth| {
            image[entry_place(fourth)..][..32].fill(0);
            image[entry_place(fourth)] = 0x21;
        }),
        _ => {
            image[label..label + 32].fill(0);
            image[label] = 0x20;
        }
    }
}

/// What was found on images.
#[derive(Debug, Default)]
struct Tally {
    sound: usize,
    /// Of these, those with date entries.
    dated: usize,
    bad: usize,
    rules: [usize; 9],
    not_fourth: usize,
    not_dated: usize,
    second_label: usize,
    twice: usize,
    alike: usize,
}

impl Tally {
    fn take(&mut self, image: &Image, faults: &[Fault]) {
        for fault in faults {
            *match fault {
                Fault::Byte { rule, .. } => &mut self.rules[*rule as usize],
                Fault::BlockTwice { .. } => &mut self.twice,
                Fault::Alike { .. } => &mut self.alike,
                Fault::Place { wrong, .. } => match wrong {
                    Misplaced::NotFourth => &mut self.not_fourth,
                    Misplaced::NotDated { .. } => &mut self.not_dated,
                    Misplaced::SecondLabel { .. } => &mut self.second_label,
                },
                Fault::Note { .. } => panic!("a fault of the map: {fault}"),
            } += 1;
        }
        match faults.is_empty() {
            true => {
                self.sound += 1;
                self.dated += usize::from(Row::of(image, 3).is_dates());
            }
            false => self.bad += 1,
        }
    }
}

#[test]
fn on_images() {
    let mut random = Random::new(1);
    let mut tally = Tally::default();
    for seed in 0..DISKS {
        let (whole, _) = sound_disk(seed);
        assert_eq!(image_faults(&whole), []);
        let mut image = whole.clone();
        for _ in 0..DAMAGES {
            damage(&mut random, &mut image);
            let faults = image_faults(&image);
            assert_eq!(
                image_refused(&image),
                !faults.is_empty(),
                "disk {seed}: {faults:#?}"
            );
            tally.take(&image, &faults);
            // One damage after the other, but seldom more than two.
            if !faults.is_empty() && random.chance(60) {
                image.clone_from(&whole);
            }
        }
    }
    println!("{tally:?}");
    let Tally {
        sound, dated, bad, ..
    } = tally;
    assert!(sound > 3_000 && dated > 1_000 && bad > 8_000, "{tally:?}");
    let counts = [
        tally.twice,
        tally.alike,
        tally.not_fourth,
        tally.not_dated,
        tally.second_label,
    ];
    assert!(
        counts.iter().chain(&tally.rules).all(|&count| count > 100),
        "{tally:?}"
    );
    assert_eq!(Rule::Minute as usize, tally.rules.len() - 1);
}

/// Labels and date entries that hold anything but for right times, and then one
/// or two times that may be wrong.
#[test]
fn on_noise_in_dates() {
    let mut random = Random::new(4);
    let (mut image, _) = sound_disk(1);
    let (mut sound, mut bad) = (0, 0);
    for _ in 0..2_000 {
        let label = random.below(64);
        for entry in 0..64 {
            let row = &mut image[entry_place(entry)..][..32];
            let times = match entry % 4 {
                3 => &TIMES_OF_DATES[..],
                _ => &TIMES_OF_LABEL,
            };
            row.fill_with(|| random.byte());
            row[0] = match entry {
                _ if entry % 4 == 3 => 0x21,
                _ if entry == label => 0x20,
                _ => 0xE5,
            };
            for &byte in times {
                row[byte] = 16 * random.below(10) as u8 + random.below(10) as u8;
            }
        }
        for _ in 0..random.below(3) {
            let fourth = 4 * random.below(16) + 3;
            image[entry_place(fourth) + random.one_of(&TIMES_OF_DATES)] = random.byte();
            image[entry_place(label) + random.one_of(&TIMES_OF_LABEL)] = random.byte();
        }
        let faults = image_faults(&image);
        assert_eq!(image_refused(&image), !faults.is_empty(), "{faults:#?}");
        match faults.is_empty() {
            true => sound += 1,
            false => bad += 1,
        }
    }
    println!("{sound} images sound, {bad} not");
    assert!(sound > 400 && bad > 400, "{sound}, {bad}");
}

#[test]
fn on_maps() {
    let mut random = Random::new(2);
    let (mut right, mut wrong) = (0, 0);
    for seed in 0..DISKS {
        let (image, whole) = sound_disk(seed);
        assert_eq!(map_faults(&image, &whole), []);
        let mut map = whole.clone();
        for _ in 0..DAMAGES {
            let block = match random.chance(10) {
                true => random.below(2),
                false => random.below(243),
            };
            map[block] = match random.below(8) {
                0 => 0,
                1 => 1,
                2 => 2,
                3 => random.from_to(3, 15) as u16,
                4 => random.from_to(1_040, 65_535) as u16,
                _ => random.from_to(16, 1_039) as u16,
            };
            let faults = map_faults(&image, &map);
            assert_eq!(
                map_refused(&image, &map),
                !faults.is_empty(),
                "disk {seed}: {faults:#?}"
            );
            match faults.is_empty() {
                true => right += 1,
                false => {
                    wrong += 1;
                    map.clone_from(&whole);
                }
            }
        }
    }
    println!("{right} maps right, {wrong} wrong");
    assert!(right > 2_000 && wrong > 8_000);
}

/// Directories of nothing but noise are refused alike too.
#[test]
fn on_noise() {
    let mut random = Random::new(3);
    let (image, _) = sound_disk(1);
    let mut image = image;
    for round in 0..300 {
        for entry in 0..64 {
            for byte in 0..32 {
                image[entry_place(entry) + byte] = random.byte();
            }
            if random.chance(round / 3) {
                image[entry_place(entry)] = 0xE5;
            }
        }
        assert_eq!(image_refused(&image), !image_faults(&image).is_empty());
    }
}
