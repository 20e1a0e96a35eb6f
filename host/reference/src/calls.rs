//! The calls: which are listed, and what each does once nothing refuses it.

use crate::dates::Stamper;
use crate::directory::{
    self, at as entry_at, count, extent_number, record_holding, row, row_mut, seven_bits, slots,
    Directory, Entries, ATTRIBUTE, EMPTY, ROW_BYTES,
};
use crate::diskette::{record, record_mut};
use crate::fcb::{self, Fcb};
use crate::lent::LentMut;
use crate::map::{self, pending, RECORDED};
use crate::{Answer, Session};

/// Writes the listed calls down as an enum with their numbers.
macro_rules! calls {
    ($($(#[$doc:meta])* $call:ident = $number:literal;)*) => {
        /// The listed calls.
        #[derive(Clone, Copy, Debug, PartialEq, Eq)]
        pub enum Call {
            $($(#[$doc])* $call,)*
        }

        /// The numbers of the listed calls, lowest first.
        pub const LISTED: &[u8] = &[$($number),*];

        impl Call {
            /// The call with this number, where it is listed.
            pub const fn listed(number: u8) -> Option<Call> {
                match number {
                    $($number => Some(Call::$call),)*
                    _ => None,
                }
            }
        }
    };
}

calls! {
    /// Log in.
    LogIn = 13;
    /// Open.
    Open = 15;
    /// Close.
    Close = 16;
    /// Search for the first.
    SearchFirst = 17;
    /// Search for the next.
    SearchNext = 18;
    /// Delete.
    Delete = 19;
    /// Sequential read.
    ReadNext = 20;
    /// Sequential write.
    WriteNext = 21;
    /// Make.
    Make = 22;
    /// Rename.
    Rename = 23;
    /// User number.
    User = 32;
    /// Random read.
    ReadRandom = 33;
    /// Random write.
    WriteRandom = 34;
    /// Size.
    Size = 35;
    /// Random record.
    RandomRecord = 36;
    /// Space.
    Space = 46;
    /// Free blocks.
    FreeBlocks = 98;
}

impl Call {
    /// "Calls 13, 18, 32, 46 and 98 don't use the FCB."
    pub const fn uses_fcb(self) -> bool {
        !matches!(
            self,
            Call::LogIn | Call::SearchNext | Call::User | Call::Space | Call::FreeBlocks
        )
    }
}

/// How a transfer gets to its target's extent.
#[derive(Clone, Copy, Debug)]
pub enum Going {
    /// The FCB is there.
    Stay,
    /// By a move to the extent's entry.
    Move {
        /// That entry.
        entry: usize,
    },
    /// By a move to an entry made for the extent.
    Make {
        /// The empty entry to be used.
        entry: usize,
        /// The extent number it gets.
        extent: u16,
    },
}

/// A read or write that nothing refuses.
#[derive(Clone, Copy, Debug)]
pub struct Transfer {
    /// The FCB's entry.
    pub present: usize,
    /// The way to the target's extent.
    pub going: Going,
    /// The target's record in its extent, 0 to 127.
    pub record: u8,
    /// cr afterwards.
    pub cr: u8,
}

/// What an accepted call does.
#[derive(Clone, Copy, Debug)]
pub enum Plan {
    /// 13.
    LogIn,
    /// 15.
    Open {
        /// The entry to be opened.
        entry: usize,
    },
    /// 16.
    Close {
        /// The FCB's entry.
        entry: usize,
    },
    /// 17 and 18.
    Hit {
        /// The entry found.
        entry: usize,
        /// The pattern it was found by.
        pattern: [u8; 12],
    },
    /// 19.
    Delete {
        /// All that match.
        entries: Entries,
    },
    /// 20 and 33.
    Read(Transfer),
    /// 21 and 34.
    Write {
        /// Where to.
        transfer: Transfer,
        /// The block to be taken, where the target's slot is 0.
        block: Option<u8>,
    },
    /// 22.
    Make {
        /// The empty entry to be used.
        entry: usize,
    },
    /// 23.
    Rename {
        /// All extents of the old name.
        entries: Entries,
    },
    /// 32 with argument 255.
    TellUser,
    /// 32 with a user.
    SetUser {
        /// The user.
        user: u8,
    },
    /// 35.
    Size {
        /// All extents of the name.
        entries: Entries,
    },
    /// 36.
    Position,
    /// 46.
    Space,
    /// 98.
    FreeBlocks,
}

/// Does what was decided and answers.
pub fn carry_out(
    plan: Plan,
    lent: LentMut,
    directory: &Directory,
    stamper: Stamper,
    session: Session,
) -> Answer {
    // "An accepted call other than 17 and 18 ends a search."
    let ended = session.search_ended();
    let a = match plan {
        // A right map differs from the fresh one in its pending notes only,
        // so once they are 0 it is the fresh one: 98 does to it what 13 does
        // to any map.
        Plan::LogIn | Plan::FreeBlocks => {
            lent.map.copy_from_slice(directory.fresh_map());
            0
        }
        Plan::Open { entry } => open(lent, stamper, entry),
        Plan::Close { entry } => close(lent, stamper, entry),
        Plan::Hit { entry, pattern } => return hit(lent, entry, pattern, session),
        Plan::Delete { entries } => delete(lent, entries),
        Plan::Read(transfer) => read(lent, stamper, transfer),
        Plan::Write { transfer, block } => write(lent, stamper, transfer, block),
        Plan::Make { entry } => make(lent, stamper, session.user, entry),
        Plan::Rename { entries } => rename(lent, entries),
        Plan::TellUser => session.user,
        Plan::SetUser { user } => return accepted(0, Session { user, ..ended }),
        Plan::Size { entries } => size(lent, entries),
        Plan::Position => position(lent),
        Plan::Space => space(lent),
    };
    accepted(a, ended)
}

/// "H is 0 on success."
fn accepted(a: u8, session: Session) -> Answer {
    Answer { a, h: 0, session }
}

/// "A = entry number mod 4".
fn directory_code(entry: usize) -> u8 {
    (entry % 4) as u8
}

/// "FCB bytes 1 to 31 become the entry's", but for high bits that are the
/// program's. An open stamps access.
fn open(lent: LentMut, stamper: Stamper, entry: usize) -> u8 {
    fcb::take_entry(lent.fcb, row(lent.image, entry));
    stamper.opened(lent.image, entry);
    directory_code(entry)
}

/// The buffer gets the directory record that holds the entry found, and the
/// search goes on behind it.
fn hit(lent: LentMut, entry: usize, pattern: [u8; 12], session: Session) -> Answer {
    lent.buffer
        .copy_from_slice(record_holding(lent.image, entry));
    let session = Session {
        pattern,
        place: entry as u16 + 1,
        on: 1,
        ..session
    };
    accepted(directory_code(entry), session)
}

/// "Each slot where the entry has 0 and the FCB doesn't takes the FCB's block,
/// whose note becomes 2; .. f5' and f6' in the FCB are cleared." "Close writes
/// the FCB's count so read where it is the larger, and else leaves rc." The FCB
/// is current, so its block is held for that very slot. A close "that changes an
/// entry" stamps it.
fn close(lent: LentMut, stamper: Stamper, entry: usize) -> u8 {
    if close_changes(lent.fcb, row(lent.image, entry)) {
        stamper.changed(lent.image, entry);
    }
    let row = row_mut(lent.image, entry);
    for (slot, block) in row[entry_at::SLOTS..].iter_mut().zip(fcb::slots(lent.fcb)) {
        if is_recorded(*slot, block) {
            *slot = block;
            lent.map[usize::from(block)] = RECORDED;
        }
    }
    row[entry_at::RC] = recorded_count(lent.fcb, row).unwrap_or(row[entry_at::RC]);
    lent.fcb[5] &= !ATTRIBUTE;
    lent.fcb[6] &= !ATTRIBUTE;
    directory_code(entry)
}

/// Whether a close records a block of the FCB: "each slot where the entry has 0
/// and the FCB doesn't".
fn is_recorded(slot: u8, block: u8) -> bool {
    slot == 0 && block != 0
}

/// The FCB's count, where a close writes it: "where it is the larger".
fn recorded_count(fcb: &Fcb, row: &[u8]) -> Option<u8> {
    let records = count(fcb[entry_at::RC]);
    (records > count(row[entry_at::RC])).then_some(records)
}

/// Whether a close would change the entry of an FCB.
pub fn close_changes(fcb: &Fcb, row: &[u8]) -> bool {
    let mut slots = row[entry_at::SLOTS..].iter().zip(fcb::slots(fcb));
    recorded_count(fcb, row).is_some() || slots.any(|(&slot, block)| is_recorded(slot, block))
}

/// "All extents matching the name become empty (byte 0 to E5H only). Their
/// blocks, and pending ones held for them, become free."
fn delete(lent: LentMut, entries: Entries) -> u8 {
    map::free_pending_for(lent.map, entries);
    for entry in entries.each() {
        for block in slots(lent.image, entry) {
            if block != 0 {
                lent.map[usize::from(block)] = map::FREE;
            }
        }
        row_mut(lent.image, entry)[entry_at::USER] = EMPTY;
    }
    0
}

/// "The first empty entry becomes user, name without attributes, ex, zeros.
/// FCB bytes 1 to 31 become the same."
fn make(lent: LentMut, stamper: Stamper, user: u8, entry: usize) -> u8 {
    let name = fcb::name(lent.fcb).map(seven_bits);
    let made = new_row(user, &name, u16::from(lent.fcb[entry_at::EX]));
    row_mut(lent.image, entry).copy_from_slice(&made);
    stamper.begin(lent.image, entry);
    stamper.created(lent.image, entry);
    lent.fcb[entry_at::COPIED].copy_from_slice(&made[entry_at::COPIED]);
    directory_code(entry)
}

/// An entry with s1, rc and slots 0.
fn new_row(user: u8, name: &directory::Name, extent: u16) -> directory::Row {
    let mut row = [0; ROW_BYTES];
    row[entry_at::USER] = user;
    row[entry_at::NAME..entry_at::NAME_END].copy_from_slice(name);
    row[entry_at::EX] = (extent % 32) as u8;
    row[entry_at::S2] = (extent / 32) as u8;
    row
}

/// "In every extent the name becomes FCB bytes 17 to 27 (seven bits),
/// attributes kept."
fn rename(lent: LentMut, entries: Entries) -> u8 {
    let new = fcb::new_name(lent.fcb);
    for entry in entries.each() {
        let row = row_mut(lent.image, entry);
        for (byte, &new) in row[entry_at::NAME..entry_at::NAME_END].iter_mut().zip(&new) {
            *byte = *byte & ATTRIBUTE | seven_bits(new);
        }
    }
    0
}

/// "The largest of 128 × extent + rc over the name's entries", rc as a count.
fn size(lent: LentMut, entries: Entries) -> u8 {
    let end = |entry| {
        let row = row(lent.image, entry);
        let extent = extent_number(row[entry_at::EX], row[entry_at::S2]);
        128 * u32::from(extent) + u32::from(count(row[entry_at::RC]))
    };
    let size = entries.each().map(end).max().unwrap_or(0);
    fcb::set_random_record(lent.fcb, size);
    0
}

/// "128 × extent + cr".
fn position(lent: LentMut) -> u8 {
    let cr = lent.fcb[fcb::at::CR];
    let position = 128 * u32::from(fcb::extent(lent.fcb)) + u32::from(cr);
    fcb::set_random_record(lent.fcb, position);
    0
}

/// "Eight times the free notes into the buffer's first three bytes, lowest
/// first."
fn space(lent: LentMut) -> u8 {
    let space = 8 * u32::from(map::count_free(lent.map));
    lent.buffer[..3].copy_from_slice(&space.to_le_bytes()[..3]);
    0
}

/// Moves where a move is needed, and answers with the target's entry: "the
/// present extent is closed as by 16, then the FCB takes bytes 1 to 31 of the
/// target's entry as by 15".
fn go(mut lent: LentMut, stamper: Stamper, present: usize, going: Going) -> usize {
    let target = match going {
        Going::Stay => return present,
        Going::Move { entry } => entry,
        Going::Make { entry, extent } => {
            // "Under the same user, with the present entry's name bytes and
            // attributes, the target's ex and s2, and s1, rc and slots 0."
            let like = row(lent.image, present);
            let name = std::array::from_fn(|i| like[entry_at::NAME + i]);
            let made = new_row(like[entry_at::USER], &name, extent);
            row_mut(lent.image, entry).copy_from_slice(&made);
            stamper.begin(lent.image, entry);
            entry
        }
    };
    close(lent.again(), stamper, present);
    fcb::take_entry(lent.fcb, row(lent.image, target));
    target
}

/// "The buffer gets record target mod 8 of that slot's block."
fn read(mut lent: LentMut, stamper: Stamper, transfer: Transfer) -> u8 {
    go(lent.again(), stamper, transfer.present, transfer.going);
    let block = lent.fcb[slot_of(transfer.record)];
    lent.buffer
        .copy_from_slice(record(lent.image, block, transfer.record));
    lent.fcb[fcb::at::CR] = transfer.cr;
    0
}

/// "A slot of 0 takes the first free block, noted pending. The buffer's 128
/// bytes go to record target mod 8 of the slot's block ... The FCB's rc becomes
/// the largest of its own, the entry's and target + 1", the two read as counts.
fn write(mut lent: LentMut, stamper: Stamper, transfer: Transfer, block: Option<u8>) -> u8 {
    let entry = go(lent.again(), stamper, transfer.present, transfer.going);
    let slot = slot_of(transfer.record);
    if let Some(block) = block {
        lent.fcb[slot] = block;
        lent.map[usize::from(block)] = pending(entry, slot - entry_at::SLOTS);
    }
    record_mut(lent.image, lent.fcb[slot], transfer.record).copy_from_slice(lent.buffer);
    let counted = count(row(lent.image, entry)[entry_at::RC]);
    let own = count(lent.fcb[entry_at::RC]);
    lent.fcb[entry_at::RC] = own.max(counted).max(transfer.record + 1);
    lent.fcb[fcb::at::CR] = transfer.cr;
    0
}

/// Where in the FCB the slot of a record (0 to 127) stands.
fn slot_of(record: u8) -> usize {
    entry_at::SLOTS + usize::from(record / 8)
}

#[cfg(test)]
mod tests {
    use super::*;

    #[test]
    fn seventeen_calls_are_listed() {
        let listed: Vec<u8> = (0..=255).filter(|&n| Call::listed(n).is_some()).collect();
        assert_eq!(listed, LISTED);
        assert_eq!(listed.len(), 17);
        let without_fcb: Vec<u8> = (0..=255)
            .filter(|&n| Call::listed(n).is_some_and(|call| !call.uses_fcb()))
            .collect();
        assert_eq!(without_fcb, [13, 18, 32, 46, 98]);
    }
}
