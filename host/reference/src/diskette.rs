//! The diskette: where a record of a block stands in the image.
//!
//! "77 tracks of 26 sectors of 128 bytes, stored track after track. Tracks 0
//! and 1 are system tracks and are never touched."

/// Bytes in a sector, which is also a record and the transfer buffer.
pub const RECORD_BYTES: usize = 128;

/// Sectors on a track.
const SECTORS: usize = 26;

/// Tracks before block 0.
const SYSTEM_TRACKS: usize = 2;

/// Records in a block of 1,024 bytes.
const RECORDS_IN_BLOCK: usize = 8;

/// Bytes in the image: 77 × 26 × 128 = 256,256.
pub const IMAGE_BYTES: usize = 77 * SECTORS * RECORD_BYTES;

/// Blocks on the diskette, numbered 0 to 242.
pub const BLOCKS: usize = 243;

/// Records of the directory, blocks 0 and 1; four entries stand in each.
pub const DIRECTORY_RECORDS: usize = 2 * RECORDS_IN_BLOCK;

/// A whole image of the right length.
pub type Image = [u8; IMAGE_BYTES];

/// One record of 128 bytes.
pub type Record = [u8; RECORD_BYTES];

/// The physical sector, counted from 1, of each logical sector from 0 on.
const PHYSICAL: [u8; SECTORS] = [
    1, 7, 13, 19, 25, 5, 11, 17, 23, 3, 9, 15, 21, 2, 8, 14, 20, 26, 6, 12, 18, 24, 4, 10, 16, 22,
];

/// Where the directory's records stand, worked out once and for all because
/// every call reads all of them.
pub const DIRECTORY_PLACES: [usize; DIRECTORY_RECORDS] = {
    let mut places = [0; DIRECTORY_RECORDS];
    let mut record = 0;
    while record < DIRECTORY_RECORDS {
        places[record] = place_of_disk_record(record);
        record += 1;
    }
    places
};

/// "Track 2 + d/26 at logical sector d mod 26"; "its place in the image is
/// (26 × track + physical − 1) × 128".
const fn place_of_disk_record(d: usize) -> usize {
    let track = SYSTEM_TRACKS + d / SECTORS;
    let physical = PHYSICAL[d % SECTORS] as usize;
    (SECTORS * track + physical - 1) * RECORD_BYTES
}

/// The place in the image of record `record` mod 8 of block `block`. It lies
/// inside the image for every block up to 242.
pub const fn place(block: u8, record: u8) -> usize {
    let d = RECORDS_IN_BLOCK * block as usize + record as usize % RECORDS_IN_BLOCK;
    place_of_disk_record(d)
}

/// The bytes of record `record` mod 8 of `block`, which must be at most 242.
pub fn record(image: &Image, block: u8, record: u8) -> &[u8] {
    &image[place(block, record)..][..RECORD_BYTES]
}

/// The same bytes, to be written.
pub fn record_mut(image: &mut Image, block: u8, record: u8) -> &mut [u8] {
    &mut image[place(block, record)..][..RECORD_BYTES]
}

#[cfg(test)]
mod tests {
    use super::*;

    #[test]
    fn checked_examples_a_to_d() {
        assert_eq!(place(0, 0), 6_656);
        assert_eq!(place(0, 1), 7_424);
        assert_eq!(place(3, 2), 9_984);
        assert_eq!(place(242, 7), 254_336);
    }

    #[test]
    fn the_table_is_a_permutation() {
        let mut sectors = PHYSICAL;
        sectors.sort_unstable();
        assert!(sectors.iter().map(|&s| usize::from(s)).eq(1..=SECTORS));
    }

    #[test]
    fn no_two_records_share_a_place_and_all_but_six_sectors_are_used() {
        let mut seen = vec![false; IMAGE_BYTES / RECORD_BYTES];
        for block in 0..BLOCKS as u8 {
            for record in 0..RECORDS_IN_BLOCK as u8 {
                let sector = place(block, record) / RECORD_BYTES;
                assert!(sector >= SYSTEM_TRACKS * SECTORS);
                assert!(!std::mem::replace(&mut seen[sector], true));
            }
        }
        let unused = seen.iter().filter(|seen| !**seen).count();
        assert_eq!(unused, SYSTEM_TRACKS * SECTORS + 6);
    }

    #[test]
    fn the_directory_is_blocks_0_and_1() {
        for (record, &at) in DIRECTORY_PLACES.iter().enumerate() {
            assert_eq!(at, place(record as u8 / 8, record as u8 % 8));
        }
    }
}
