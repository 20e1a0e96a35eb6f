//! Images packed as text: a line for each run of like sectors, in it runs of
//! like bytes.
//!
//! ```text
//! disk 9984
//! 0-51 E5*128
//! 52 00484954 20*5 545854000301 00*16 E5*96
//! ```

use std::fmt::Write;

/// Bytes of a sector.
const SECTOR: usize = 128;

/// Like bytes from which on they are written as a run.
const RUN: usize = 4;

/// Packs an image of whole sectors.
pub fn pack(image: &[u8]) -> String {
    let mut text = format!("disk {}\n", image.len());
    let sectors: Vec<&[u8]> = image.chunks(SECTOR).collect();
    let mut first = 0;
    while first < sectors.len() {
        let like = sectors[first..]
            .iter()
            .take_while(|&&s| s == sectors[first]);
        let last = first + like.count() - 1;
        match first == last {
            true => write!(text, "{first}"),
            false => write!(text, "{first}-{last}"),
        }
        .expect("a text takes all");
        text.push_str(&pack_sector(sectors[first]));
        text.push('\n');
        first = last + 1;
    }
    text
}

fn pack_sector(sector: &[u8]) -> String {
    let mut text = String::new();
    let mut in_word = false;
    let mut rest = sector;
    while let Some(&byte) = rest.first() {
        let count = rest.iter().take_while(|&&other| other == byte).count();
        let run = count >= RUN;
        if run || !in_word {
            text.push(' ');
        }
        let _ = match run {
            true => write!(text, "{byte:02X}*{count}"),
            false => write!(text, "{}", format!("{byte:02X}").repeat(count)),
        };
        in_word = !run;
        rest = &rest[count..];
    }
    text
}

/// Unpacks an image.
pub fn unpack(text: &str) -> Option<Vec<u8>> {
    let mut lines = text.lines();
    let length: usize = lines.next()?.strip_prefix("disk ")?.parse().ok()?;
    let mut image = Vec::new();
    for line in lines {
        let mut words = line.split(' ');
        let place = words.next()?;
        let (first, last) = place.split_once('-').unwrap_or((place, place));
        let (first, last): (usize, usize) = (first.parse().ok()?, last.parse().ok()?);
        let mut sector = Vec::new();
        for word in words {
            let (digits, count) = word.split_once('*').unwrap_or((word, "1"));
            let count: usize = count.parse().ok()?;
            let bytes: Vec<u8> = (0..digits.len())
                .step_by(2)
                .map(|at| u8::from_str_radix(digits.get(at..at + 2)?, 16).ok())
                .collect::<Option<_>>()?;
            sector.extend(bytes.repeat(count));
        }
        if image.len() != SECTOR * first {
            return None;
        }
        image.extend(sector.repeat(last + 1 - first));
    }
    (image.len() == length).then_some(image)
}

#[test]
fn packed_and_unpacked() {
    let mut image = vec![0xE5; 10 * SECTOR];
    image[300..310].copy_from_slice(b"AABBBBCCCD");
    let text = pack(&image);
    let expected = "\
disk 1280
0-1 E5*128
2 E5*44 4141 42*4 43434344 E5*74
3-9 E5*128
";
    assert_eq!(text, expected);
    assert_eq!(unpack(&text), Some(image));
    assert_eq!(unpack("disk 128\n0 E5*127"), None);
    assert_eq!(unpack("disk 128\n1 E5*128"), None);
    assert_eq!(unpack("disk 128\n0 E*128"), None);
}
