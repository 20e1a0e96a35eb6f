//! What the archive exports, and what it must not hold: a table of sectors
//! (request [3]).

/// How document 01's table of physical sectors begins.
const PUBLISHED: [u8; 6] = [1, 7, 13, 19, 25, 5];

/// The bytes that a number may take in a table. The one that there once was
/// took one byte for each.
const WIDTHS: [usize; 4] = [1, 2, 4, 8];

/// The table's beginning, as x86-64 keeps numbers of so many bytes.
fn table(width: usize) -> Vec<u8> {
    PUBLISHED
        .iter()
        .flat_map(|&sector| u64::from(sector).to_le_bytes().into_iter().take(width))
        .collect()
}

/// Whether some bytes hold the table's beginning, in numbers of so many bytes.
fn holds_table(bytes: &[u8], width: usize) -> bool {
    let table = table(width);
    bytes.windows(table.len()).any(|part| part == table)
}

/// The functions that the header declares: the call, the two that lift and set
/// the write protection, and the picker.
const FUNCTIONS: [&str; 4] = ["benzo_call", "benzo_lift", "benzo_pick", "benzo_protect"];

/// The names that an archive's index lists, in their order. The index is its
/// first member, `/`: how many names there are, a number of four bytes for each,
/// highest first, and the names, each ended by a zero.
fn exported(archive: &[u8]) -> Vec<&str> {
    let member = archive.strip_prefix(b"!<arch>\n").expect("an archive");
    let (head, rest) = member.split_at(60);
    assert_eq!(head[..2], *b"/ ", "an index comes first");
    let length = std::str::from_utf8(&head[48..58]).expect("digits");
    let index = &rest[..length.trim_end().parse().expect("a length")];
    let count = u32::from_be_bytes(std::array::from_fn(|i| index[i])) as usize;
    let names = index[4 + 4 * count..].split(|&byte| byte == 0).take(count);
    let mut names: Vec<&str> = names
        .map(|name| std::str::from_utf8(name).expect("a name"))
        .collect();
    names.sort_unstable();
    names
}

#[test]
fn no_sector_table_is_in_the_archive() {
    let archive = std::fs::read(env!("ARCHIVE")).expect("the archive can be read");
    // What is looked through is the library: an archive, with code.
    assert!(archive.windows(4).any(|there| there == b"\x7fELF"));
    assert_eq!(exported(&archive), FUNCTIONS);
    for width in WIDTHS {
        assert!(
            !holds_table(&archive, width),
            "the archive holds the table of sectors, in numbers of {width} bytes"
        );
    }
}

#[test]
fn a_sector_table_would_be_found() {
    for width in WIDTHS {
        let mut bytes = vec![0xE5; 3];
        bytes.extend(table(width));
        assert_eq!(bytes.len(), 3 + 6 * width);
        assert!(holds_table(&bytes, width));
        // One byte short, or another number at its end, is no table.
        assert!(!holds_table(&bytes[..bytes.len() - 1], width));
        let last = bytes.len() - width;
        bytes[last] = 6;
        assert!(!holds_table(&bytes, width));
    }
}
