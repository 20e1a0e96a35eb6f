//! Sequences of steps, and their text form.
//!
//! A sequence starts from a world that a seed gives. Its steps say everything
//! that happens to that world afterwards, so a sequence can be written to a
//! file, read back, and run again on any implementation. One line a step:
//!
//! ```text
//! disk SEED
//! sector NUMBER HEX         a sector of the image, counted from 0
//! byte PLACE VALUE          a byte of the image
//! note BLOCK VALUE          a note of the map
//! fcb WHICH HEX             an FCB
//! buffer HEX                the transfer buffer
//! session USER HEX PLACE ON LIFTED
//!                           the session, its pattern after the user
//! time DAY HOUR MINUTE      the time that calls are handed, 0 0 0 at first
//! lift                      the session's write protection is lifted
//! protect                   it is set
//! call NUMBER ARGUMENT FCB [IMAGE MAP FCB BUFFER]
//! ```
//!
//! The four numbers at the end of a call are lengths to be lent, left out
//! where all are right. Empty lines and lines that start with `#` say nothing.

use crate::world::{FCBS, MOST_OVER, RIGHT_LENGTHS};
use reference::diskette::{BLOCKS, IMAGE_BYTES, RECORD_BYTES};
use reference::{Asked, Session, FCB_BYTES};
use std::fmt;
use std::str::{FromStr, SplitWhitespace};

/// The lengths of the four buffers as lent.
#[derive(Clone, Copy, Debug, PartialEq, Eq)]
pub struct Lengths {
    /// Bytes of the image.
    pub image: usize,
    /// Notes of the map.
    pub map: usize,
    /// Bytes of the FCB.
    pub fcb: usize,
    /// Bytes of the transfer buffer.
    pub buffer: usize,
}

/// The time that calls are handed: hour and minute as bytes, BCD or not.
#[derive(Clone, Copy, Debug, Default, PartialEq, Eq)]
pub struct Time {
    /// The day.
    pub day: u16,
    /// The hour.
    pub hour: u8,
    /// The minute.
    pub minute: u8,
}

impl Time {
    /// As it stands in a stamp: the day, low byte first, hour and minute.
    pub fn stamp(self) -> [u8; 4] {
        let [low, high] = self.day.to_le_bytes();
        [low, high, self.hour, self.minute]
    }
}

/// A call to be made.
#[derive(Clone, Copy, Debug, PartialEq, Eq)]
pub struct Ask {
    /// Its number.
    pub number: u8,
    /// Its argument.
    pub argument: u8,
    /// Which FCB it is lent.
    pub fcb: usize,
    /// The lengths it is lent.
    pub lengths: Lengths,
}

impl Ask {
    /// A call with buffers of the right lengths.
    pub fn new(number: u8, argument: u8, fcb: usize) -> Self {
        Self {
            number,
            argument,
            fcb,
            lengths: RIGHT_LENGTHS,
        }
    }

    /// What is asked for at a time.
    pub fn at(&self, time: Time) -> Asked {
        Asked {
            number: self.number,
            argument: self.argument,
            day: time.day,
            hour: time.hour,
            minute: time.minute,
        }
    }
}

/// Something that happens to a world.
#[derive(Clone, Debug, PartialEq, Eq)]
pub enum Step {
    /// A sector of the image is set.
    Sector {
        /// Counted from 0.
        number: u16,
        /// What it gets.
        bytes: [u8; RECORD_BYTES],
    },
    /// A byte of the image is set.
    Byte {
        /// Where.
        place: u32,
        /// What it gets.
        byte: u8,
    },
    /// A note of the map is set.
    Note {
        /// Whose.
        block: u8,
        /// What it gets.
        note: u16,
    },
    /// An FCB is set.
    Fcb {
        /// Which.
        which: u8,
        /// What it gets.
        bytes: [u8; FCB_BYTES],
    },
    /// The transfer buffer is set.
    Buffer {
        /// What it gets.
        bytes: [u8; RECORD_BYTES],
    },
    /// The session is set.
    Session(Session),
    /// The time is set.
    Time(Time),
    /// The implementation lifts the write protection.
    Lift,
    /// The implementation sets it.
    Protect,
    /// A call is made.
    Call(Ask),
}

/// A world's seed, and what happens to it.
#[derive(Clone, Debug, PartialEq, Eq)]
pub struct Sequence {
    /// The seed.
    pub seed: u64,
    /// The steps.
    pub steps: Vec<Step>,
}

/// Writes bytes in hexadecimal.
struct Hex<'a>(&'a [u8]);

impl fmt::Display for Hex<'_> {
    fn fmt(&self, f: &mut fmt::Formatter) -> fmt::Result {
        self.0.iter().try_for_each(|byte| write!(f, "{byte:02x}"))
    }
}

impl fmt::Display for Step {
    fn fmt(&self, f: &mut fmt::Formatter) -> fmt::Result {
        match self {
            Step::Sector { number, bytes } => write!(f, "sector {number} {}", Hex(bytes)),
            Step::Byte { place, byte } => write!(f, "byte {place} {byte}"),
            Step::Note { block, note } => write!(f, "note {block} {note}"),
            Step::Fcb { which, bytes } => write!(f, "fcb {which} {}", Hex(bytes)),
            Step::Buffer { bytes } => write!(f, "buffer {}", Hex(bytes)),
            Step::Session(Session {
                user,
                pattern,
                place,
                on,
                lifted,
            }) => write!(f, "session {user} {} {place} {on} {lifted}", Hex(pattern)),
            Step::Time(Time { day, hour, minute }) => write!(f, "time {day} {hour} {minute}"),
            Step::Lift => f.write_str("lift"),
            Step::Protect => f.write_str("protect"),
            Step::Call(ask) => {
                write!(f, "call {} {} {}", ask.number, ask.argument, ask.fcb)?;
                if ask.lengths == RIGHT_LENGTHS {
                    return Ok(());
                }
                let Lengths {
                    image,
                    map,
                    fcb,
                    buffer,
                } = ask.lengths;
                write!(f, " {image} {map} {fcb} {buffer}")
            }
        }
    }
}

impl fmt::Display for Sequence {
    fn fmt(&self, f: &mut fmt::Formatter) -> fmt::Result {
        writeln!(f, "disk {}", self.seed)?;
        self.steps.iter().try_for_each(|step| writeln!(f, "{step}"))
    }
}

/// Why a text is no sequence.
#[derive(Clone, Debug, PartialEq, Eq)]
pub struct BadText {
    /// The line, counted from 1, or 0 for the text as a whole.
    pub line: usize,
    /// What is wrong.
    pub wrong: &'static str,
}

impl fmt::Display for BadText {
    fn fmt(&self, f: &mut fmt::Formatter) -> fmt::Result {
        write!(f, "line {}: {}", self.line, self.wrong)
    }
}

impl std::error::Error for BadText {}

/// The words of a line, taken one after the other.
struct Words<'a>(SplitWhitespace<'a>);

impl Words<'_> {
    fn number<T: FromStr>(&mut self) -> Result<T, &'static str> {
        let word = self.0.next().ok_or("a number is missing")?;
        word.parse().map_err(|_| "a number is wrong")
    }

    fn number_below<T: FromStr + Copy + TryInto<u64>>(
        &mut self,
        limit: usize,
    ) -> Result<T, &'static str> {
        let number: T = self.number()?;
        let fits = number.try_into().is_ok_and(|n| n < limit as u64);
        fits.then_some(number).ok_or("a number is too high")
    }

    fn bytes<const N: usize>(&mut self) -> Result<[u8; N], &'static str> {
        let word = self.0.next().ok_or("bytes are missing")?;
        let mut bytes = [0; N];
        let (pairs, rest) = word.as_bytes().as_chunks::<2>();
        if pairs.len() != N || !rest.is_empty() {
            return Err("not as many bytes as due");
        }
        for (byte, pair) in bytes.iter_mut().zip(pairs) {
            let digit = |i: usize| (pair[i] as char).to_digit(16).ok_or("not hexadecimal");
            *byte = (16 * digit(0)? + digit(1)?) as u8;
        }
        Ok(bytes)
    }

    fn end(mut self) -> Result<(), &'static str> {
        self.0.next().map_or(Ok(()), |_| Err("words are left over"))
    }
}

/// Reads the words after the first.
fn read_step(kind: &str, words: &mut Words) -> Result<Step, &'static str> {
    Ok(match kind {
        "sector" => Step::Sector {
            number: words.number_below(IMAGE_BYTES / RECORD_BYTES)?,
            bytes: words.bytes()?,
        },
        "byte" => Step::Byte {
            place: words.number_below(IMAGE_BYTES)?,
            byte: words.number()?,
        },
        "note" => Step::Note {
            block: words.number_below(BLOCKS)?,
            note: words.number()?,
        },
        "fcb" => Step::Fcb {
            which: words.number_below(FCBS)?,
            bytes: words.bytes()?,
        },
        "buffer" => Step::Buffer {
            bytes: words.bytes()?,
        },
        "session" => Step::Session(Session {
            user: words.number()?,
            pattern: words.bytes()?,
            place: words.number()?,
            on: words.number()?,
            lifted: words.number()?,
        }),
        "time" => Step::Time(Time {
            day: words.number()?,
            hour: words.number()?,
            minute: words.number()?,
        }),
        "lift" => Step::Lift,
        "protect" => Step::Protect,
        "call" => Step::Call(read_call(words)?),
        _ => return Err("no such step"),
    })
}

/// Reads a call, with lengths where they are given.
fn read_call(words: &mut Words) -> Result<Ask, &'static str> {
    let mut ask = Ask::new(words.number()?, words.number()?, words.number_below(FCBS)?);
    if words.0.clone().next().is_some() {
        let right = RIGHT_LENGTHS;
        ask.lengths = Lengths {
            image: words.number_below(right.image + MOST_OVER + 1)?,
            map: words.number_below(right.map + MOST_OVER + 1)?,
            fcb: words.number_below(right.fcb + MOST_OVER + 1)?,
            buffer: words.number_below(right.buffer + MOST_OVER + 1)?,
        };
    }
    Ok(ask)
}

impl FromStr for Sequence {
    type Err = BadText;

    fn from_str(text: &str) -> Result<Self, BadText> {
        let mut seed = None;
        let mut steps = Vec::new();
        for (number, line) in text.lines().enumerate() {
            let mut words = Words(line.split_whitespace());
            let Some(kind) = words.0.next().filter(|word| !word.starts_with('#')) else {
                continue;
            };
            let bad = |wrong| BadText {
                line: number + 1,
                wrong,
            };
            match seed {
                None if kind == "disk" => seed = Some(words.number().map_err(bad)?),
                None => return Err(bad("the disk has to come first")),
                Some(_) => steps.push(read_step(kind, &mut words).map_err(bad)?),
            }
            words.end().map_err(bad)?;
        }
        let seed = seed.ok_or(BadText {
            line: 0,
            wrong: "there is no disk",
        })?;
        Ok(Self { seed, steps })
    }
}

#[cfg(test)]
mod tests {
    use super::*;

    fn one_of_each() -> Sequence {
        let mut short = Ask::new(255, 17, 7);
        short.lengths.image -= 1;
        short.lengths.buffer += MOST_OVER;
        let mut steps = preparations();
        steps.extend([Step::Call(Ask::new(13, 0, 0)), Step::Call(short)]);
        Sequence {
            seed: u64::MAX,
            steps,
        }
    }

    /// One of each step that is no call.
    fn preparations() -> Vec<Step> {
        vec![
            Step::Sector {
                number: 2001,
                bytes: [0xA5; 128],
            },
            Step::Byte {
                place: 256_255,
                byte: 255,
            },
            Step::Note {
                block: 242,
                note: 65_535,
            },
            Step::Fcb {
                which: 7,
                bytes: std::array::from_fn(|i| i as u8),
            },
            Step::Buffer { bytes: [9; 128] },
            Step::Session(Session {
                user: 255,
                pattern: [0x3F; 12],
                place: 65_535,
                on: 255,
                lifted: 254,
            }),
            Step::Time(Time {
                day: 65_535,
                hour: 0x9A,
                minute: 255,
            }),
            Step::Lift,
            Step::Protect,
        ]
    }

    #[test]
    fn what_is_written_is_read_back() {
        let sequence = one_of_each();
        let text = format!("# a comment\n\n{sequence}");
        assert_eq!(text.parse(), Ok(sequence));
    }

    #[test]
    fn bad_texts_are_refused() {
        let bad = |text: &str| text.parse::<Sequence>().unwrap_err();
        assert_eq!(bad("").line, 0);
        assert_eq!(bad("call 1 2 3").line, 1);
        for line in [
            "noise",
            "call 1 2",
            "call 1 2 8",
            "call 256 2 3",
            "call 1 2 3 4",
            "call 1 2 3 0 0 0 0 0",
            "call 1 2 3 256289 0 0 0",
            "note 243 0",
            "byte 256256 0",
            "sector 2002 00",
            "fcb 0 00",
            "buffer zz",
            "session 0 00 0 0 0",
            "session 0 3f3f3f3f3f3f3f3f3f3f3f3f 0 0",
            "session 0 3f3f3f3f3f3f3f3f3f3f3f3f 0 0 256",
            "lift 1",
            "protect 1",
            "time 1 2",
            "time 65536 0 0",
            "time 1 256 0",
            "time 1 2 3 4",
            "note 1 -1",
        ] {
            assert_eq!(bad(&format!("disk 1\n{line}")).line, 2, "{line}");
        }
    }
}
