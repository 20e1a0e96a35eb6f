//! Bytes as hexadecimal digits.

use std::fmt::Write;

/// Bytes from digits; blanks and colons between them say nothing.
pub fn read(text: &str) -> Option<Vec<u8>> {
    let digits: Vec<u32> = text
        .chars()
        .filter(|&character| !character.is_ascii_whitespace() && character != ':')
        .map(|character| character.to_digit(16))
        .collect::<Option<_>>()?;
    let pairs = digits.chunks(2);
    pairs
        .map(|pair| match pair {
            [high, low] => Some((16 * high + low) as u8),
            _ => None,
        })
        .collect()
}

/// Digits from bytes.
pub fn written(bytes: &[u8]) -> String {
    bytes.iter().fold(String::new(), |mut text, byte| {
        let _ = write!(text, "{byte:02X}");
        text
    })
}

/// Bytes in rows of sixteen, with the characters that they are.
pub fn table(bytes: &[u8], indent: &str) -> String {
    let mut text = String::new();
    for (row, bytes) in bytes.chunks(16).enumerate() {
        let _ = write!(text, "{indent}{:02X} ", 16 * row);
        for byte in bytes {
            let _ = write!(text, " {byte:02X}");
        }
        let fill = 3 * (16 - bytes.len());
        let _ = write!(text, "{:fill$}  ", "");
        let shown = |&byte: &u8| match byte {
            b' '..=b'~' => char::from(byte),
            _ => '.',
        };
        text.extend(bytes.iter().map(shown));
        text.push('\n');
    }
    text
}

#[cfg(test)]
mod tests {
    use super::*;

    #[test]
    fn digits_and_bytes() {
        assert_eq!(read("00 fF:1a\n2B"), Some(vec![0, 255, 26, 43]));
        assert_eq!(read(""), Some(Vec::new()));
        assert_eq!(read("0"), None);
        assert_eq!(read("0g"), None);
        assert_eq!(written(&[0, 255, 26]), "00FF1A");
    }

    #[test]
    fn tables() {
        let bytes: Vec<u8> = (60..78).collect();
        let expected = "\
-00  3C 3D 3E 3F 40 41 42 43 44 45 46 47 48 49 4A 4B  <=>?@ABCDEFGHIJK
-10  4C 4D                                            LM
";
        assert_eq!(table(&bytes, "-"), expected);
    }
}
