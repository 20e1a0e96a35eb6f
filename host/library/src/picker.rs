//! How a run of the word picker ends, with the help card's sentences.

use crate::{Buffer, Code, Told};
use std::fmt;

/// The records that a log has room for.
pub const LOG_RECORDS: u32 = 1_024;

/// What a run of the picker came to.
#[derive(Clone, Copy, Debug, PartialEq, Eq)]
pub struct Picked {
    /// How it ended.
    pub answer: Pick,
    /// The word, wherever it could be read, whatever became of the log.
    pub word: Option<Buffer>,
}

/// Writes the named answers down as an enum with numbers, whether a word is
/// handed out, sentences, and what is to be done.
macro_rules! picks {
    ($($pick:ident = $number:literal, $given:literal, $sentence:literal, $remedy:literal;)*) => {
        /// How a run of the picker ended: the word picked and logged, picked
        /// again, or a trouble. Where there is trouble nothing on the disk has
        /// changed but access stamps. `Display` is the help card's sentence.
        #[derive(Clone, Copy, Debug, PartialEq, Eq)]
        #[non_exhaustive]
        pub enum Pick {
            $(
                #[doc = concat!($number, ": ", $sentence)]
                $pick,
            )*
            /// 11: A call was refused; its A and H say why.
            Other(Code),
            /// A number that is not on the help card. The proved archive does
            /// not answer so; one of another version could.
            Unknown(u8),
        }

        impl Pick {
            /// All answers that have a number of their own.
            pub const NAMED: &'static [Pick] = &[$(Pick::$pick),*];

            /// The number that stands on the help card.
            pub const fn number(self) -> u8 {
                match self {
                    $(Pick::$pick => $number,)*
                    Pick::Other(_) => Pick::OTHER,
                    Pick::Unknown(number) => number,
                }
            }

            /// Whether a word is handed out; a refusal may come before it or
            /// after it.
            pub const fn gives(self) -> Option<bool> {
                match self {
                    $(Pick::$pick => Some($given),)*
                    Pick::Other(_) | Pick::Unknown(_) => None,
                }
            }

            /// The help card's sentence.
            pub const fn sentence(self) -> &'static str {
                match self {
                    $(Pick::$pick => $sentence,)*
                    Pick::Other(_) => Pick::REFUSED,
                    Pick::Unknown(_) => "This answer is not on the help card.",
                }
            }

            /// What is to be done about a trouble; empty where there is none.
            pub const fn remedy(self) -> &'static str {
                match self {
                    $(Pick::$pick => $remedy,)*
                    Pick::Other(Code::BadDisk) => Pick::CHECK,
                    Pick::Other(Code::BadName) => "Give the files names that CP/M knows.",
                    Pick::Unknown(_) | Pick::Other(Code::Unknown { .. }) => Pick::REBUILD,
                    Pick::Other(_) => "Look the code up on the help card.",
                }
            }
        }
    };
}

picks! {
    Logged = 0, true,
        "The word was picked, and the day is in the log now.",
        "";
    Again = 1, true,
        "The word was picked again: the log had the day already.",
        "";
    DayOver = 2, false,
        "The day is over 365.",
        "Count days from 0: 1 January is day 0.";
    NoBook = 3, false,
        "There is no book: this user has no such file, or one without its first extent.",
        "Put the book onto the disk, as the user that the job runs as.";
    NoWord = 4, false,
        "The book has no record for this day.",
        "Write a book of 366 records, 128 bytes each.";
    OneFile = 5, true,
        "Book and log are one file, so the day was not logged.",
        "Name another file as the log.";
    NoFirst = 6, true,
        "The log lacks its first extent, so the day was not logged.",
        "Keep what is left of the log elsewhere and delete it here; the next run makes a new one.";
    LogFull = 7, true,
        "The log is full: it has 1,024 records or more, none of this day.",
        "Rename the log; the next run makes a new one.";
    LogReadOnly = 8, true,
        "The log is read-only, so the day was not logged.",
        "Take the read-only attribute from the log, or name another log.";
    DirectoryFull = 9, true,
        "The directory is full: the log needs an entry, and none is empty.",
        "Delete a file that is no longer needed.";
    DiskFull = 10, true,
        "The disk is full: the log needs a block, and none is free.",
        "Delete a file that is no longer needed.";
}

impl Pick {
    /// The number of a refusal that has none of its own.
    pub const OTHER: u8 = 11;

    /// The help card's sentence for it.
    pub const REFUSED: &'static str = "A call was refused; its A and H say why.";

    /// What to do about a disk that the calls refuse.
    const CHECK: &'static str = "Check the disk: `benzokamuri check` says what is wrong; if it \
        finds nothing, the map is not this image's: log in.";

    /// What to do about an answer that the proved archive does not give.
    const REBUILD: &'static str = "The archive is of another version: build anew with one of this.";

    /// What the help card says of the word picker, in lines of at most 80
    /// characters.
    pub const ABOUT: &'static str = "\
The word picker hands out the record of a day from a book, a file with a record
a day, and writes the day into a log, unless the log has it. Where there is
trouble the log, and all else on the disk but access stamps, is as it was; the
word is handed out all the same wherever it could be read. Troubles are told in
this order, the first that is so, but for these: a log that is missing has a
full disk told before a full directory, and a refusal is told wherever it comes.
";

    /// Reads what a picker tells.
    pub fn read(told: &Told) -> Pick {
        let named = Pick::NAMED.iter().find(|pick| pick.number() == told.number);
        match (named, told.number) {
            (Some(&pick), _) => pick,
            (None, Pick::OTHER) => Pick::Other(code(told.a, told.h)),
            (None, number) => Pick::Unknown(number),
        }
    }

    /// Whether the day is in the log: it was logged, or it was there already.
    pub const fn is_done(self) -> bool {
        matches!(self, Pick::Logged | Pick::Again)
    }
}

/// What A and H mean where several calls may have answered them.
fn code(a: u8, h: u8) -> Code {
    let mut codes = Code::ALL.iter().copied();
    let code = codes.find(|code| code.numbers() == (a, h));
    code.unwrap_or(Code::Unknown { a, h })
}

/// The sentence, and behind a refusal's what it was.
impl fmt::Display for Pick {
    fn fmt(&self, f: &mut fmt::Formatter) -> fmt::Result {
        f.write_str(self.sentence())?;
        match self {
            Pick::Other(code) => {
                let (a, h) = code.numbers();
                write!(f, " {a}, {h}: {code}")
            }
            _ => Ok(()),
        }
    }
}

#[cfg(test)]
mod tests {
    use super::*;

    fn told(number: u8, a: u8, h: u8) -> Told {
        Told {
            number,
            a,
            h,
            ..Told::default()
        }
    }

    #[test]
    fn every_answer_is_read_back_by_its_number() {
        for (number, &pick) in Pick::NAMED.iter().enumerate() {
            assert_eq!(usize::from(pick.number()), number);
            assert_eq!(Pick::read(&told(number as u8, 0, 0)), pick);
            assert_eq!(pick.remedy().is_empty(), pick.is_done(), "{pick}");
        }
        assert_eq!(Pick::NAMED.len(), usize::from(Pick::OTHER));
        let refused = Pick::read(&told(11, 255, 9));
        assert_eq!(refused, Pick::Other(Code::BadName));
        let unknown = Pick::read(&told(11, 255, 7));
        assert_eq!(unknown, Pick::Other(Code::Unknown { a: 255, h: 7 }));
        assert_eq!(Pick::read(&told(12, 0, 0)), Pick::Unknown(12));
        assert_eq!(refused.number(), 11);
    }

    #[test]
    fn what_is_not_on_the_card_is_not_looked_up_there() {
        let unknown = Code::Unknown { a: 255, h: 7 };
        for pick in [Pick::Unknown(12), Pick::Other(unknown)] {
            assert!(!pick.remedy().contains("help card"), "{pick}");
        }
        let wrong = Pick::Other(Code::BadCall);
        assert!(wrong.remedy().contains("help card"));
    }

    #[test]
    fn a_refusal_says_which() {
        let said = Pick::Other(Code::BadDisk).to_string();
        assert!(said.starts_with("A call was refused; its A and H say why. 255, 1: The directory"));
        assert_eq!(Pick::DayOver.to_string(), "The day is over 365.");
    }
}
