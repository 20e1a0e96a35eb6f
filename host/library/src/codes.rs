//! The codes of the table, with the help card's sentences.

use crate::{Answer, Asked, Session};
use std::fmt;

/// Writes the cases of the table down as an enum with codes, calls and
/// sentences.
macro_rules! codes {
    ($($code:ident = $a:literal, $h:literal, $calls:expr, $sentence:literal;)*) => {
        /// Why a call was refused: the cases of the table, in the order they
        /// are tested. 255, 0 has several, told apart by the call that
        /// answered it. `Display` is the help card's sentence.
        #[derive(Clone, Copy, Debug, PartialEq, Eq)]
        #[non_exhaustive]
        pub enum Code {
            $(
                #[doc = concat!($a, ", ", $h, ": ", $sentence)]
                $code,
            )*
            /// A and H that are not on the help card. The proved archive does
            /// not answer so; one of another version could.
            Unknown {
                /// Register A.
                a: u8,
                /// Register H.
                h: u8,
            },
        }

        impl Code {
            /// All cases of the table.
            pub const ALL: &'static [Code] = &[$(Code::$code),*];

            /// A and H.
            pub const fn numbers(self) -> (u8, u8) {
                match self {
                    $(Code::$code => ($a, $h),)*
                    Code::Unknown { a, h } => (a, h),
                }
            }

            /// The calls that answer so; all of them where the list is empty.
            pub const fn calls(self) -> &'static [u8] {
                match self {
                    $(Code::$code => &$calls,)*
                    Code::Unknown { .. } => &[],
                }
            }

            /// The help card's sentence.
            pub const fn sentence(self) -> &'static str {
                match self {
                    $(Code::$code => $sentence,)*
                    Code::Unknown { .. } => "This code is not on the help card.",
                }
            }
        }
    };
}

codes! {
    NotListed = 255, 255, [],
        "There is no call with this number.";
    BadCall = 255, 4, [],
        "A buffer has a wrong length, the session's user is over 15, its search place is over 64, the time's hour or minute is not in BCD, or the call uses the FCB and byte 0 of it is over 1.";
    BadDisk = 255, 1, [],
        "The directory of the image is not consistent, or the map does not fit it (13 takes any map, and makes it fit).";
    Protected = 255, 2, [16, 19, 20, 21, 22, 23, 33, 34],
        "The session is write-protected (20 and 33 answer so only where they would else succeed, by a move that changes an entry).";
    TooFar = 6, 0, [33, 34],
        "The random record number is over 262,143.";
    NotCurrent = 9, 0, [20, 21, 33, 34],
        "The FCB is not current: the file has changed since it was opened, or was never opened.";
    NotCurrentToClose = 255, 0, [16],
        "The FCB is not current, so there is nothing that it can close.";
    OutOfRange = 255, 0, [36],
        "The FCB's ex is over 31, its s2 is over 63 or its cr is over 128.";
    NoSuchUser = 255, 0, [32],
        "The argument is neither 255 nor a user number from 0 to 15.";
    BadName = 255, 9, [15, 17, 19, 22, 23, 35],
        "A name has a byte that names may not have (3FH is for 17 and 19), or in 15, 17 or 22 byte 12 is over 31 (17 takes 3FH too).";
    NothingMatches = 255, 0, [15, 17, 19, 23, 35],
        "This user has no such file.";
    NoSearch = 255, 0, [18],
        "No search is on.";
    NoMore = 255, 0, [18],
        "Nothing more matches.";
    ReadOnly = 255, 3, [19, 21, 23, 34],
        "The file is read-only.";
    EntryExists = 255, 8, [22],
        "The file is there already.";
    NameTaken = 255, 8, [23],
        "A file of the new name is there already.";
    DirectoryFull = 255, 0, [22],
        "The directory is full: none of its 64 entries is empty.";
    NoExtent = 4, 0, [33],
        "The file has no entry for the extent of this record.";
    NotThere = 1, 0, [20, 33],
        "The record is not there.";
    NoNextExtent = 1, 0, [21],
        "The next extent has no entry and the directory is full, or the file is as long as a file can be.";
    NoEntryLeft = 5, 0, [34],
        "The extent of this record has no entry and the directory is full.";
    DiskFull = 2, 0, [21, 34],
        "The disk is full: no block is free.";
}

impl Code {
    /// What the help card says of accepted calls, in lines of at most 80
    /// characters.
    pub const ACCEPTED_CALLS: &'static str = "\
An accepted call has H 0, and A 0 but for these: the entry's number mod 4 in
15, 16, 17, 18 and 22, and the user in 32 with argument 255. So 3, 0 is no
refusal: these calls alone answer it, for an entry whose number mod 4 is 3, or
for user 3.
";

    /// What the help card says of write protection, in lines of at most 80
    /// characters.
    pub const PROTECTION: &'static str = "\
A session begins write-protected, and stays so until its caller lifts the
protection. Until then no call changes the image: 16, 19, 21, 22, 23 and 34 are
255, 2, and so is a read that would else succeed by a move that changes an
entry; an open stamps no access. 13 and 98 change the map all the same. No call
lifts or sets the protection, and lifting or setting it changes nothing else, a
search included.
";

    /// What the help card says is to be done about 255, 2, in lines of at most
    /// 80 characters.
    pub const LIFTING: &'static str = "\
What to do about 255, 2: if the disk is to change, lift the protection and make
the same call again. In C benzo_lift lifts it, in Rust Disk::lift, and with
`benzokamuri call` the option --lift; every other verb of that program lifts it
by itself where it has to write. benzo_protect, Disk::protect and --protect set
it again. A read that is refused so would leave an extent that was written to
and not closed: close the file first, which takes a lift too.
";

    /// What the help card says of record counts, in lines of at most 80
    /// characters.
    pub const RECORD_COUNTS: &'static str = "\
rc, in an entry or in an FCB, may be any byte: as a count of records, more than
128 is read as 128. No call refuses a disk or an FCB for it.
";

    /// What the help card says of labels and date entries that are wrong, in
    /// lines of at most 80 characters.
    pub const WRONG_DATES: &'static str = "\
Labels and date entries make a directory not consistent where a date entry is
not the fourth of four entries, where some fourth entries are date entries and
others are not, where there are two labels, where the label asks for create and
access stamps, and where an hour or a minute in any stamp is not in BCD.
";

    /// What the help card says of the time, in lines of at most 80 characters.
    pub const THE_TIME: &'static str = "\
Each call is handed the time: a day, where 1 January 1978 is 1, and hour and
minute in BCD, two decimal digits a byte. A digit over 9 is 255, 4, also in
calls that stamp nothing; otherwise any time is taken, 24H to 99H too, and
stored as it is given, also where it repeats or goes back.
";

    /// What the help card says of stamps, in lines of at most 80 characters.
    pub const STAMPS: &'static str = "\
Only disks with date entries are stamped: entries whose byte 0 is 21H, the
fourth of every four. Where the disk's label (byte 0 20H) asks for it, 22
stamps create, 15 access (unless the session is protected), and a close or move
that changes an entry update, beside that entry; a new entry's stamps start at
zero. Nothing else is stamped, and a refused call stamps nothing.
";

    /// Everything that the help card says below its table, in its order, but
    /// for where to read on.
    pub const REMARKS: [&'static str; 7] = [
        Code::ACCEPTED_CALLS,
        Code::PROTECTION,
        Code::LIFTING,
        Code::RECORD_COUNTS,
        Code::WRONG_DATES,
        Code::THE_TIME,
        Code::STAMPS,
    ];

    /// Reads an answer: A where the call was accepted, or why it was refused.
    /// `before` is the session that the call was given.
    pub fn read(asked: Asked, before: &Session, answer: &Answer) -> Result<u8, Code> {
        let Answer { a, h, .. } = *answer;
        let transfers = matches!(asked.number, 20 | 21 | 33 | 34);
        if a != 255 && h == 0 && (!transfers || a == 0) {
            return Ok(a);
        }
        let here = |code: &&Code| {
            let calls = code.calls();
            code.numbers() == (a, h) && (calls.is_empty() || calls.contains(&asked.number))
        };
        let code = Code::ALL.iter().find(here).copied();
        Err(match code {
            // A search that is on runs out; without one there is none to.
            Some(Code::NoSearch) if before.on != 0 => Code::NoMore,
            Some(code) => code,
            None => Code::Unknown { a, h },
        })
    }
}

impl fmt::Display for Code {
    fn fmt(&self, f: &mut fmt::Formatter) -> fmt::Result {
        f.write_str(self.sentence())
    }
}

impl std::error::Error for Code {}

#[cfg(test)]
mod tests {
    use super::*;
    use crate::Time;

    fn read(number: u8, on: u8, a: u8, h: u8) -> Result<u8, Code> {
        let asked = Asked::new(number, 0, Time::ZERO);
        let session = Session {
            on,
            ..Session::default()
        };
        Code::read(asked, &session, &Answer { a, h, session })
    }

    #[test]
    fn every_case_is_read_back_by_each_of_its_calls() {
        for &code in Code::ALL {
            let (a, h) = code.numbers();
            let every = [13, 15, 18, 20, 46, 99];
            let calls = if code.calls().is_empty() {
                &every
            } else {
                code.calls()
            };
            let on = u8::from(code == Code::NoMore);
            for &number in calls {
                assert_eq!(read(number, on, a, h), Err(code), "call {number}");
            }
        }
    }

    #[test]
    fn what_is_accepted_is_told_from_what_is_not() {
        for number in [15, 16, 17, 18, 22] {
            assert!((0..4).all(|a| read(number, 0, a, 0) == Ok(a)));
        }
        assert!((0..16).all(|user| read(32, 0, user, 0) == Ok(user)));
        assert_eq!(read(21, 0, 0, 0), Ok(0));
        assert_eq!(read(21, 0, 1, 0), Err(Code::NoNextExtent));
        assert_eq!(read(20, 0, 1, 0), Err(Code::NotThere));
    }

    #[test]
    fn what_is_not_on_the_card_says_so() {
        let unknown = Code::Unknown { a: 255, h: 2 };
        assert_eq!(read(16, 0, 255, 2), Err(Code::Protected));
        assert_eq!(read(15, 0, 255, 2), Err(unknown), "15 is never refused so");
        assert_eq!(unknown.numbers(), (255, 2));
        assert_eq!(read(16, 0, 255, 7), Err(Code::Unknown { a: 255, h: 7 }));
        assert_eq!(read(33, 0, 200, 0), Err(Code::Unknown { a: 200, h: 0 }));
        for number in [20, 21, 33, 34] {
            let three = Code::Unknown { a: 3, h: 0 };
            assert_eq!(read(number, 0, 3, 0), Err(three), "call {number}");
        }
    }

    #[test]
    fn each_case_has_a_sentence_of_its_own() {
        let mut sentences: Vec<_> = Code::ALL.iter().map(|code| code.to_string()).collect();
        assert!(sentences.iter().all(|sentence| sentence.ends_with('.')));
        sentences.sort();
        sentences.dedup();
        assert_eq!(sentences.len(), Code::ALL.len());
    }
}
