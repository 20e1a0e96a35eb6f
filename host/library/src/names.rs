//! File names: eleven bytes, and how they are written.
//!
//! A name is up to eight characters, a dot, and a type of up to three; letters
//! are made capitals. `%` and two hexadecimal digits stand for a byte as it
//! is, so that a name with small letters, spaces or punctuation can be written
//! too. In a pattern `?` matches any character, and `*` fills up the name or
//! the type with `?`.

use std::fmt;
use std::str::FromStr;

/// In a pattern, 3FH stands for anything.
const ANY: u8 = 0x3F;

/// Characters that end a name when CP/M reads one, those that mean something
/// here, and the one that parts folders on the host, where a name on the disk
/// becomes the name of a file. They are written with `%`.
const PUNCTUATION: &[u8] = b"<>.,;:=?*[]|%/";

/// Bytes of the name without its type.
const NAME_BYTES: usize = 8;

/// Name and type, eleven bytes that obey the name rule: 20H to 7EH, not 3FH,
/// the first not 20H.
#[derive(Clone, Copy, Debug, PartialEq, Eq, PartialOrd, Ord, Hash)]
pub struct Name([u8; 11]);

/// A name in which 3FH matches anything.
#[derive(Clone, Copy, Debug, PartialEq, Eq)]
pub struct Pattern([u8; 11]);

/// Why a text is no name.
#[derive(Clone, Copy, Debug, PartialEq, Eq)]
pub enum BadName {
    /// There is nothing before the dot.
    Empty,
    /// The name has more than eight characters.
    NameTooLong,
    /// The type has more than three characters.
    TypeTooLong,
    /// There is more than one dot.
    TwoDots,
    /// A character that names may not have.
    Character(char),
    /// `%` without two hexadecimal digits of a byte that names may have.
    Percent,
    /// `?` or `*` where one file is to be named.
    IsPattern,
    /// Something stands behind a `*`.
    BehindStar,
}

impl fmt::Display for BadName {
    fn fmt(&self, f: &mut fmt::Formatter) -> fmt::Result {
        match self {
            BadName::Empty => f.write_str("a name has to begin with a character before the dot"),
            BadName::NameTooLong => f.write_str("a name has at most eight characters"),
            BadName::TypeTooLong => f.write_str("a type has at most three characters"),
            BadName::TwoDots => f.write_str("a name has one dot at most"),
            BadName::Character(character) => {
                write!(f, "{character:?} may not stand in a name")
            }
            BadName::Percent => f.write_str(
                "% has to be followed by two hexadecimal digits, 20 to 7E but not 3F, and not 20 at the beginning",
            ),
            BadName::IsPattern => f.write_str("? and * can't stand where one file is named"),
            BadName::BehindStar => f.write_str("nothing may follow * in a name or type"),
        }
    }
}

impl std::error::Error for BadName {}

impl Name {
    /// The name that eleven bytes spell, attributes left out, where they obey
    /// the name rule.
    pub fn of(bytes: &[u8; 11]) -> Option<Name> {
        let name = bytes.map(|byte| byte & 0x7F);
        let plain = |&byte: &u8| (0x20..=0x7E).contains(&byte) && byte != ANY;
        (name.iter().all(plain) && name[0] != b' ').then_some(Name(name))
    }

    /// The eleven bytes.
    pub const fn bytes(&self) -> &[u8; 11] {
        &self.0
    }
}

impl Pattern {
    /// Matches every name.
    pub const EVERY: Pattern = Pattern([ANY; 11]);

    /// The eleven bytes.
    pub const fn bytes(&self) -> &[u8; 11] {
        &self.0
    }

    /// The name, where nothing in the pattern matches anything.
    pub fn name(&self) -> Option<Name> {
        Name::of(&self.0)
    }
}

impl From<Name> for Pattern {
    fn from(name: Name) -> Pattern {
        Pattern(name.0)
    }
}

impl FromStr for Pattern {
    type Err = BadName;

    fn from_str(text: &str) -> Result<Self, BadName> {
        let (name, kind) = match text.split_once('.') {
            Some((_, kind)) if kind.contains('.') => return Err(BadName::TwoDots),
            Some(two) => two,
            None => (text, ""),
        };
        let mut bytes = [b' '; 11];
        let (name_bytes, kind_bytes) = bytes.split_at_mut(NAME_BYTES);
        spell(name, name_bytes, BadName::NameTooLong)?;
        spell(kind, kind_bytes, BadName::TypeTooLong)?;
        match (bytes[0], name.is_empty()) {
            (_, true) => Err(BadName::Empty),
            (b' ', false) => Err(BadName::Percent),
            _ => Ok(Pattern(bytes)),
        }
    }
}

/// Reads a name or a type into its bytes, which come as spaces.
fn spell(text: &str, bytes: &mut [u8], too_long: BadName) -> Result<(), BadName> {
    let mut characters = text.chars();
    let mut at = 0;
    while let Some(character) = characters.next() {
        if character == '*' {
            bytes[at..].fill(ANY);
            return match characters.next() {
                None => Ok(()),
                Some(_) => Err(BadName::BehindStar),
            };
        }
        let byte = match character {
            '?' => ANY,
            '%' => percent(characters.next(), characters.next())?,
            _ => plain(character)?,
        };
        *bytes.get_mut(at).ok_or(too_long)? = byte;
        at += 1;
    }
    Ok(())
}

/// A character that stands for itself, as a capital.
fn plain(character: char) -> Result<u8, BadName> {
    let bad = BadName::Character(character);
    let byte = u8::try_from(character).map_err(|_| bad)?;
    let fine = byte.is_ascii_graphic() && !PUNCTUATION.contains(&byte);
    fine.then_some(byte.to_ascii_uppercase()).ok_or(bad)
}

/// The byte that two digits behind `%` give.
fn percent(high: Option<char>, low: Option<char>) -> Result<u8, BadName> {
    let digit = |character: Option<char>| character?.to_digit(16);
    let (Some(high), Some(low)) = (digit(high), digit(low)) else {
        return Err(BadName::Percent);
    };
    let byte = (16 * high + low) as u8;
    let fine = (0x20..=0x7E).contains(&byte) && byte != ANY;
    fine.then_some(byte).ok_or(BadName::Percent)
}

impl FromStr for Name {
    type Err = BadName;

    fn from_str(text: &str) -> Result<Self, BadName> {
        let pattern: Pattern = text.parse()?;
        pattern.name().ok_or(BadName::IsPattern)
    }
}

impl fmt::Display for Name {
    fn fmt(&self, f: &mut fmt::Formatter) -> fmt::Result {
        Pattern(self.0).fmt(f)
    }
}

/// Writes eleven bytes so that they read back as the same.
impl fmt::Display for Pattern {
    fn fmt(&self, f: &mut fmt::Formatter) -> fmt::Result {
        let (name, kind) = self.0.split_at(NAME_BYTES);
        let mut text = written(name);
        if kind.iter().any(|&byte| byte != b' ') {
            text.push('.');
            text.push_str(&written(kind));
        }
        f.pad(&text)
    }
}

/// A name or a type without the spaces that fill it up.
fn written(bytes: &[u8]) -> String {
    let end = bytes.iter().rposition(|&byte| byte != b' ');
    let mut text = String::new();
    for &byte in &bytes[..end.map_or(0, |last| last + 1)] {
        let itself = byte == ANY
            || (byte.is_ascii_graphic()
                && !byte.is_ascii_lowercase()
                && !PUNCTUATION.contains(&byte));
        match itself {
            true => text.push(char::from(byte)),
            false => text.push_str(&format!("%{byte:02X}")),
        }
    }
    text
}

#[cfg(test)]
mod tests {
    use super::*;

    fn name(text: &str) -> Result<[u8; 11], BadName> {
        text.parse::<Name>().map(|name| *name.bytes())
    }

    fn pattern(text: &str) -> Result<[u8; 11], BadName> {
        text.parse::<Pattern>().map(|pattern| *pattern.bytes())
    }

    #[test]
    fn names_become_capitals_filled_up_with_spaces() {
        assert_eq!(name("hello.txt"), Ok(*b"HELLO   TXT"));
        assert_eq!(name("A"), Ok(*b"A          "));
        assert_eq!(name("a."), Ok(*b"A          "));
        assert_eq!(name("12345678.123"), Ok(*b"12345678123"));
        assert_eq!(name("$$$.sub"), Ok(*b"$$$     SUB"));
        assert_eq!(name("%61%20b.%3d"), Ok(*b"a B     =  "));
    }

    #[test]
    fn what_is_no_name() {
        assert_eq!(name(""), Err(BadName::Empty));
        assert_eq!(name(".txt"), Err(BadName::Empty));
        assert_eq!(name("123456789"), Err(BadName::NameTooLong));
        assert_eq!(name("a.text"), Err(BadName::TypeTooLong));
        assert_eq!(name("a.b.c"), Err(BadName::TwoDots));
        assert_eq!(name("a b"), Err(BadName::Character(' ')));
        assert_eq!(name("ü"), Err(BadName::Character('ü')));
        assert_eq!(name("0:a"), Err(BadName::Character(':')));
        assert_eq!(name("i/o.asm"), Err(BadName::Character('/')));
        for bad in ["%", "%4", "%zz", "%3f", "%7F", "%1f", "%00", "%20", "%+1"] {
            assert_eq!(name(bad), Err(BadName::Percent), "{bad}");
        }
        assert_eq!(name("a?"), Err(BadName::IsPattern));
        assert_eq!(name("*"), Err(BadName::IsPattern));
    }

    #[test]
    fn patterns() {
        assert_eq!(pattern("*.*"), Ok([b'?'; 11]));
        assert_eq!(pattern("*"), Ok(*b"????????   "));
        assert_eq!(pattern("a*.b?c"), Ok(*b"A???????B?C"));
        assert_eq!(pattern("12345678*.*"), Ok(*b"12345678???"));
        assert_eq!(pattern("*a"), Err(BadName::BehindStar));
        assert_eq!(pattern("**"), Err(BadName::BehindStar));
        assert_eq!(pattern("123456789"), Err(BadName::NameTooLong));
    }

    #[test]
    fn what_is_written_reads_back() {
        for text in ["HELLO.TXT", "A", "%61%20B.%3D", "%2A.%25", "A.B"] {
            assert_eq!(text.parse::<Name>().unwrap().to_string(), text);
        }
        for byte in (0x20..=0x7E).filter(|&byte| byte != ANY) {
            let bytes = [
                b'X', byte, b' ', b' ', b' ', b' ', b' ', byte, b' ', byte, b' ',
            ];
            let name = Name::of(&bytes).unwrap();
            assert_eq!(name.to_string().parse(), Ok(name));
        }
        assert_eq!(pattern("%2f*.%2F"), Ok(*b"/???????/  "));
        assert_eq!(pattern("A????????"), Err(BadName::NameTooLong));
        assert_eq!(Pattern::EVERY.to_string(), "????????.???");
    }

    /// So a file that is named after one on the disk lies in the folder that
    /// it was to be put into.
    #[test]
    fn what_is_written_is_one_file_in_a_folder() {
        let one_file = |bytes: &[u8; 11]| {
            let text = Name::of(bytes).unwrap().to_string();
            let path = std::path::Path::new(&text);
            assert_eq!(path.file_name(), Some(path.as_os_str()), "{text}");
            assert!(!text.starts_with('.') && !text.contains('\0'), "{text}");
        };
        for byte in (0x21..=0x7E).filter(|&byte| byte != ANY) {
            one_file(&[byte; 11]);
            one_file(&[
                byte, b' ', b' ', b' ', b' ', b' ', b' ', b' ', b' ', b' ', b' ',
            ]);
            one_file(&[
                byte, byte, b' ', b' ', b' ', b' ', b' ', b' ', b' ', b' ', byte,
            ]);
        }
        for (bytes, text) in [
            (b"/X         ", "%2FX"),
            (b"I/O     ASM", "I%2FO.ASM"),
            (b"..         ", "%2E%2E"),
            (b"../     /..", "%2E%2E%2F.%2F%2E%2E"),
        ] {
            assert_eq!(Name::of(bytes).unwrap().to_string(), text);
        }
    }

    #[test]
    fn attributes_are_no_part_of_a_name() {
        let bytes = b"HELLO   TXT".map(|byte| byte | 0x80);
        assert_eq!(Name::of(&bytes).unwrap().to_string(), "HELLO.TXT");
        assert_eq!(Name::of(b" HELLO  TXT"), None);
        assert_eq!(Name::of(b"HEL?O   TXT"), None);
        assert_eq!(Name::of(b"HEL\x1FO   TXT"), None);
        assert_eq!(Name::of(b"HEL\x7FO   TXT"), None);
    }
}
