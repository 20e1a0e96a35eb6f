//! The FCB: 36 bytes that a program keeps for an open file.

use crate::{Name, Pattern, FCB_LEN};
use std::fmt;
use std::ops::Range;

/// Where things stand in an FCB.
mod at {
    use super::Range;

    pub const NAME: Range<usize> = 1..12;
    pub const EX: usize = 12;
    pub const S1: usize = 13;
    pub const S2: usize = 14;
    pub const RC: usize = 15;
    pub const SLOTS: Range<usize> = 16..32;
    pub const NEW_NAME: Range<usize> = 17..28;
    pub const CR: usize = 32;
    pub const RANDOM: Range<usize> = 33..36;
}

/// A file control block.
#[derive(Clone, Copy, PartialEq, Eq)]
pub struct Fcb([u8; FCB_LEN]);

impl Fcb {
    /// All zeros, for calls that don't use it.
    pub const ZERO: Fcb = Fcb([0; FCB_LEN]);

    /// For a file by its name, everything else 0: drive, extent, position.
    pub fn named(name: Name) -> Fcb {
        Fcb::matching(name.into())
    }

    /// For a search or a delete by a pattern. A search looks at extent 0 only,
    /// unless [`Fcb::in_every_extent`] is said.
    pub fn matching(pattern: Pattern) -> Fcb {
        let mut fcb = Fcb::ZERO;
        fcb.0[at::NAME].copy_from_slice(pattern.bytes());
        fcb
    }

    /// The same for a search of every extent: 3FH in byte 12.
    pub fn in_every_extent(mut self) -> Fcb {
        self.0[at::EX] = 0x3F;
        self
    }

    /// For a rename.
    pub fn renaming(old: Name, new: Name) -> Fcb {
        let mut fcb = Fcb::named(old);
        fcb.0[at::NEW_NAME].copy_from_slice(new.bytes());
        fcb
    }

    /// All 36 bytes.
    pub const fn bytes(&self) -> &[u8; FCB_LEN] {
        &self.0
    }

    /// All 36 bytes, to be set as one likes.
    pub fn bytes_mut(&mut self) -> &mut [u8; FCB_LEN] {
        &mut self.0
    }

    /// The extent number, 32 × s2 + ex.
    pub fn extent(&self) -> u16 {
        32 * u16::from(self.0[at::S2]) + u16::from(self.0[at::EX])
    }

    /// s1, where CP/M Plus keeps the bytes used in a file's last record.
    pub fn s1(&self) -> u8 {
        self.0[at::S1]
    }

    /// The byte rc. As the record count of the extent, more than 128 is read as
    /// 128; open and moves copy the byte as it stands in the entry.
    pub fn rc(&self) -> u8 {
        self.0[at::RC]
    }

    /// The sixteen slots: block numbers, or 0.
    pub fn slots(&self) -> [u8; 16] {
        std::array::from_fn(|j| self.0[at::SLOTS.start + j])
    }

    /// The record that the next sequential call is for.
    pub fn cr(&self) -> u8 {
        self.0[at::CR]
    }

    /// Sets the record that the next sequential call is for.
    pub fn set_cr(&mut self, cr: u8) {
        self.0[at::CR] = cr;
    }

    /// The random record number, r0 to r2.
    pub fn random(&self) -> u32 {
        let [r0, r1, r2] = [0, 1, 2].map(|i| self.0[at::RANDOM.start + i]);
        u32::from_le_bytes([r0, r1, r2, 0])
    }

    /// Sets the random record number. What is over 24 bits becomes the largest
    /// number that they hold, which calls 33 and 34 refuse as they would it.
    pub fn set_random(&mut self, record: u32) {
        let record = record.min(0xFF_FFFF);
        self.0[at::RANDOM].copy_from_slice(&record.to_le_bytes()[..3]);
    }
}

impl From<[u8; FCB_LEN]> for Fcb {
    fn from(bytes: [u8; FCB_LEN]) -> Fcb {
        Fcb(bytes)
    }
}

impl fmt::Debug for Fcb {
    fn fmt(&self, f: &mut fmt::Formatter) -> fmt::Result {
        f.write_str("Fcb(")?;
        self.0.iter().try_for_each(|byte| write!(f, "{byte:02X}"))?;
        f.write_str(")")
    }
}

#[cfg(test)]
mod tests {
    use super::*;

    #[test]
    fn bytes_stand_where_the_calls_look_for_them() {
        let fcb = Fcb::renaming("OLD.A".parse().unwrap(), "NEW.B".parse().unwrap());
        assert_eq!(fcb.bytes()[..12], *b"\0OLD     A  ");
        assert_eq!(fcb.bytes()[17..28], *b"NEW     B  ");
        let search = Fcb::matching(Pattern::EVERY).in_every_extent();
        assert_eq!(search.bytes()[1..13], [0x3F; 12]);
        let mut fcb = Fcb::from(std::array::from_fn(|i| i as u8));
        assert_eq!((fcb.extent(), fcb.s1()), (32 * 14 + 12, 13));
        assert_eq!((fcb.rc(), fcb.cr()), (15, 32));
        assert!(fcb.slots().into_iter().eq(16..32));
        assert_eq!(fcb.random(), 33 + 256 * 34 + 65_536 * 35);
        fcb.set_random(262_143);
        fcb.set_cr(5);
        assert_eq!(fcb.bytes()[32..], [5, 255, 255, 3]);
        assert_eq!(fcb.random(), 262_143);
    }
}
