//! The FCB: 36 bytes, of which 1 to 31 are laid out as in an entry.

use crate::directory::{at as entry_at, extent_number, Name, Slots, ATTRIBUTE};

/// Bytes in an FCB.
pub const FCB_BYTES: usize = 36;

/// A whole FCB of the right length.
pub type Fcb = [u8; FCB_BYTES];

/// Where things stand in an FCB, beside what [`entry_at`] names.
pub mod at {
    /// The drive, 0 or 1.
    pub const DRIVE: usize = 0;
    /// The first byte of the new name in call 23.
    pub const NEW_NAME: usize = 17;
    /// The record the next sequential call is for.
    pub const CR: usize = 32;
    /// The lowest byte of the random record.
    pub const R0: usize = 33;
}

/// Bytes 1 to 11.
pub fn name(fcb: &Fcb) -> Name {
    std::array::from_fn(|i| fcb[entry_at::NAME + i])
}

/// Bytes 17 to 27, the new name of call 23.
pub fn new_name(fcb: &Fcb) -> Name {
    std::array::from_fn(|i| fcb[at::NEW_NAME + i])
}

/// Bytes 1 to 12, what a search stores as its pattern.
pub fn pattern(fcb: &Fcb) -> [u8; 12] {
    std::array::from_fn(|i| fcb[entry_at::NAME + i])
}

/// Bytes 16 to 31.
pub fn slots(fcb: &Fcb) -> Slots {
    std::array::from_fn(|j| fcb[entry_at::SLOTS + j])
}

/// 32 × s2 + ex.
pub fn extent(fcb: &Fcb) -> u16 {
    extent_number(fcb[entry_at::EX], fcb[entry_at::S2])
}

/// R = r0 + 256 r1 + 65,536 r2.
pub fn random_record(fcb: &Fcb) -> u32 {
    u32::from_le_bytes([fcb[at::R0], fcb[at::R0 + 1], fcb[at::R0 + 2], 0])
}

/// Sets r0 to r2, "lowest byte first".
pub fn set_random_record(fcb: &mut Fcb, record: u32) {
    fcb[at::R0..].copy_from_slice(&record.to_le_bytes()[..3]);
}

/// Takes bytes 1 to 31 of an entry, "with the high bits of bytes 5 to 8
/// cleared". Byte 0 and bytes 32 to 35 stay.
pub fn take_entry(fcb: &mut Fcb, row: &[u8]) {
    fcb[entry_at::COPIED].copy_from_slice(&row[entry_at::COPIED]);
    for byte in &mut fcb[entry_at::INTERFACE] {
        *byte &= !ATTRIBUTE;
    }
}
