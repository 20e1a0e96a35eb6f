//! The check every call makes, against the rules written down plainly.

mod common;
use common::*;
use reference::Cause;

/// Neither empty nor a label or a date entry.
fn used(desk: &Desk, entry: usize) -> bool {
    entry < 64 && !matches!(desk.entry(entry)[0], 0xE5 | 0x20 | 0x21)
}

/// "Bad BCD" in hour or minute of the stamp at `at`.
fn bad_stamp(row: &[u8], at: usize) -> bool {
    let digits = [at + 2, at + 3].map(|at| [row[at] / 16, row[at] % 16]);
    digits.as_flattened().iter().any(|&digit| digit > 9)
}

/// Labels and date entries: "a disk has date entries in all fourth positions or
/// none, and there is at most one label".
fn aside_is_right(desk: &Desk) -> bool {
    let of_kind = |byte: u8| -> Vec<usize> {
        (0..64)
            .filter(|&entry| desk.entry(entry)[0] == byte)
            .collect()
    };
    let (labels, dates) = (of_kind(0x20), of_kind(0x21));
    let fourths: Vec<usize> = (0..16).map(|record| 4 * record + 3).collect();
    let label_is_right = |&entry: &usize| {
        let row = desk.entry(entry);
        let both = row[12] & 0x10 != 0 && row[12] & 0x40 != 0;
        !both && !bad_stamp(row, 24) && !bad_stamp(row, 28)
    };
    let dates_are_right = |&entry: &usize| {
        let row = desk.entry(entry);
        ![1, 5, 11, 15, 21, 25].iter().any(|&at| bad_stamp(row, at))
    };
    (dates.is_empty() || dates == fourths)
        && labels.len() <= 1
        && labels.iter().all(label_is_right)
        && dates.iter().all(dates_are_right)
}

/// "An image is consistent when ...", word by word, entry by entry.
fn consistent(desk: &Desk) -> bool {
    let used: Vec<&[u8]> = (0..64)
        .filter(|&entry| used(desk, entry))
        .map(|entry| desk.entry(entry))
        .collect();
    let alone_is_fine = |row: &&[u8]| {
        let name = || row[1..12].iter().map(|byte| byte & 0x7F);
        row[0] <= 15
            && name().all(|byte| (0x20..=0x7E).contains(&byte) && byte != 0x3F)
            && name().next() != Some(0x20)
            && row[12] <= 31
            && row[14] <= 63
            && row[16..].iter().all(|&b| b == 0 || (2..=242).contains(&b))
    };
    let identity = |row: &[u8]| {
        let name: Vec<u8> = row[1..12].iter().map(|byte| byte & 0x7F).collect();
        (row[0], name, 32 * u32::from(row[14]) + u32::from(row[12]))
    };
    let mut blocks: Vec<u8> = used.iter().flat_map(|row| row[16..].to_vec()).collect();
    blocks.retain(|&block| block != 0);
    let stand = blocks.len();
    blocks.sort_unstable();
    blocks.dedup();
    let alike = (0..used.len()).any(|i| (0..i).any(|j| identity(used[i]) == identity(used[j])));
    used.iter().all(alone_is_fine) && blocks.len() == stand && !alike && aside_is_right(desk)
}

/// "The map is right when ...", note by note.
fn right(desk: &Desk) -> bool {
    let used = |entry: usize| used(desk, entry);
    let listed = |block: usize| {
        (0..64).any(|entry| used(entry) && desk.entry(entry)[16..].contains(&(block as u8)))
    };
    (0..243).all(|block| {
        let note = usize::from(desk.map[block]);
        if block < 2 {
            note == 1
        } else if listed(block) {
            note == 2
        } else {
            note == 0 || (note >= 16 && used((note - 16) / 16))
        }
    })
}

/// A small generator of numbers; any will do here.
struct Dice(u64);

impl Dice {
    fn below(&mut self, limit: u64) -> u64 {
        self.0 = self
            .0
            .wrapping_mul(6_364_136_223_846_793_005)
            .wrapping_add(1);
        (self.0 >> 33) % limit
    }

    /// Bytes near the borders of what is allowed.
    fn byte(&mut self) -> u8 {
        const BORDERS: [u8; 28] = [
            0, 1, 2, 9, 10, 15, 16, 31, 32, 33, 34, 62, 63, 64, 126, 127, 128, 129, 0x99, 0xA0,
            0xBF, 229, 241, 242, 243, 244, 254, 255,
        ];
        match self.below(3) {
            0 => self.below(256) as u8,
            _ => BORDERS[self.below(28) as usize],
        }
    }
}

/// A label or a date entry whose digits are all digits.
fn aside_row(dice: &mut Dice, byte: u8) -> [u8; 32] {
    let mut row = [0; 32];
    for place in &mut row {
        *place = (16 * dice.below(10) + dice.below(10)) as u8;
    }
    row[0] = byte;
    row[12] &= 0xBF;
    row
}

/// A file's entry, with blocks from `block` on.
fn file_row(dice: &mut Dice, entry: usize, block: &mut u8) -> [u8; 32] {
    let name = ["A", "B.A", "AA", "A.A"][dice.below(4) as usize];
    let user = [0, 1, 15][dice.below(3) as usize];
    let mut row = row(user, name, entry as u16, dice.below(256) as u8, &[]);
    for slot in &mut row[16..] {
        if dice.below(4) == 0 && *block < 243 {
            *slot = *block;
            *block += 1;
        }
    }
    for byte in &mut row[1..12] {
        *byte |= (dice.below(2) as u8) << 7;
    }
    row
}

/// A disk of any fullness with few names, so that identities nearly collide.
/// Half of them are dated, and half have a label.
fn some_disk(dice: &mut Dice) -> Desk {
    let mut rows = Vec::new();
    let chance = dice.below(101);
    let mut block = 2u8;
    let dated = dice.below(2) == 0;
    let label = dice.below(128) as usize;
    for entry in 0..64usize {
        if dated && entry % 4 == 3 {
            rows.push((entry, aside_row(dice, 0x21)));
            continue;
        }
        if entry == label {
            rows.push((entry, aside_row(dice, 0x20)));
            continue;
        }
        if dice.below(100) < chance {
            rows.push((entry, file_row(dice, entry, &mut block)));
        }
    }
    let mut desk = Desk::with(&rows);
    rows.retain(|(_, row)| row[0] < 16);
    for note in &mut desk.map {
        if *note == 0 && dice.below(8) == 0 && !rows.is_empty() {
            let (entry, _) = rows[dice.below(rows.len() as u64) as usize];
            *note = (16 + 16 * entry) as u16 + dice.below(16) as u16;
        }
    }
    desk
}

/// Changes a note or an entry, which may do no harm.
fn damage(dice: &mut Dice, desk: &mut Desk) {
    let entry = dice.below(64) as usize;
    let other = desk.entry(dice.below(64) as usize).to_vec();
    match dice.below(8) {
        0 => desk.map[dice.below(243) as usize] = dice.below(1_100) as u16,
        1 => desk.map[dice.below(243) as usize] = dice.below(4) as u16,
        2 => desk.entry_mut(entry)[..16].copy_from_slice(&other[..16]),
        3 => {
            let from = dice.below(16) as usize;
            let to = dice.below(16) as usize;
            desk.entry_mut(entry)[16 + to] = other[16 + from];
        }
        _ => {
            let at = dice.below(32) as usize;
            desk.entry_mut(entry)[at] = dice.byte();
        }
    }
}

#[test]
fn the_quick_check_and_the_plain_rules_agree() {
    let mut dice = Dice(1);
    let mut told = [0; 3];
    for _ in 0..3_000 {
        let mut desk = some_disk(&mut dice);
        for damages in 0..8 {
            // The first look is at the sound disk.
            if damages > 0 {
                damage(&mut dice, &mut desk);
            }
            let asked = desk.asked(46, 0);
            let cause = desk.cause(asked, &[0; 36]);
            let expected = match (consistent(&desk), right(&desk)) {
                (false, _) => Some(Cause::Inconsistent),
                (true, false) => Some(Cause::MapWrong),
                (true, true) => None,
            };
            assert_eq!(cause, expected);
            assert!(damages > 0 || cause.is_none());
            told[expected.map_or(0, |cause| 1 + usize::from(cause == Cause::MapWrong))] += 1;
        }
    }
    assert!(told.iter().all(|&times| times > 1_000), "{told:?}");
}

#[test]
fn logging_in_takes_any_map_and_makes_the_fresh_one() {
    let mut dice = Dice(2);
    for _ in 0..200 {
        let mut desk = some_disk(&mut dice);
        for _ in 0..20 {
            desk.map[dice.below(243) as usize] = dice.below(65_536) as u16;
        }
        desk.log_in();
        assert!(right(&desk));
        assert!(desk.map.iter().all(|&note| note <= 2), "none is pending");
    }
}

#[test]
fn free_blocks_takes_pending_notes_only() {
    let mut dice = Dice(3);
    for _ in 0..200 {
        let mut desk = some_disk(&mut dice);
        let before = desk.map.clone();
        assert_eq!(desk.ask(98, &mut [0xFF; 36]), DONE);
        let freed = before.iter().map(|&n| if n >= 16 { 0 } else { n });
        assert!(desk.map.iter().copied().eq(freed));
    }
}

/// Any bytes and any lengths are legal: nothing panics.
#[test]
fn noise_is_answered() {
    let mut dice = Dice(4);
    let mut desk = some_disk(&mut dice);
    for _ in 0..20_000 {
        if dice.below(50) == 0 {
            desk = some_disk(&mut dice);
        }
        let number = match dice.below(8) {
            0 => dice.below(256) as u8,
            _ => reference::LISTED[dice.below(17) as usize],
        };
        let mut fcb = [0; 36];
        for byte in &mut fcb {
            *byte = dice.byte();
        }
        fcb[0] = dice.below(3) as u8;
        if dice.below(2) == 0 {
            let row = desk.entry(dice.below(64) as usize).to_vec();
            fcb[1..32].copy_from_slice(&row[1..]);
        }
        desk.time = (dice.below(65_536) as u16, dice.byte(), dice.byte() & 0x3F);
        desk.session.user = dice.below(17) as u8;
        desk.session.place = dice.below(70) as u16;
        desk.session.on = dice.below(2) as u8;
        desk.session.lifted = [0, 1, 2, 255][dice.below(4) as usize];
        for byte in &mut desk.session.pattern {
            *byte = dice.byte();
        }
        desk.ask_with(number, dice.byte(), &mut fcb);
    }
}
