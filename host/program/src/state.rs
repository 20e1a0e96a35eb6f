//! What `call` keeps from one run to the next, beside the image: map, session,
//! FCB and buffer, as a text of four lines and a heading.

use crate::hex;
use benzokamuri::{Buffer, Disk, Fcb, Map, Session, MAP_LEN};
use std::fmt::Write;

/// The first line.
const HEADING: &str = "benzokamuri state 2";

/// The first line of a state from before there was a write protection. Its
/// session lacks the last word, and is read as protected.
const OLDER: &str = "benzokamuri state 1";

/// What is kept.
#[derive(Clone, Debug, PartialEq, Eq)]
pub struct State {
    /// The map.
    pub map: Box<Map>,
    /// The session.
    pub session: Session,
    /// The FCB of the last call.
    pub fcb: Fcb,
    /// The transfer buffer.
    pub buffer: Buffer,
}

impl State {
    /// No text of it has more bytes.
    pub const MOST: usize = 4_096;

    /// What is to be kept of a disk.
    pub fn of(disk: &Disk, fcb: Fcb) -> State {
        State {
            map: Box::new(*disk.map()),
            session: disk.session(),
            fcb,
            buffer: disk.buffer,
        }
    }

    /// As a text.
    pub fn written(&self) -> String {
        let Session {
            user,
            pattern,
            place,
            on,
            lifted,
        } = self.session;
        let mut text = format!("{HEADING}\nmap");
        for note in self.map.iter() {
            let _ = write!(text, " {note}");
        }
        let pattern = hex::written(&pattern);
        let fcb = hex::written(self.fcb.bytes());
        let buffer = hex::written(&self.buffer);
        let _ = write!(
            text,
            "\nsession {user} {pattern} {place} {on} {lifted}\nfcb {fcb}\nbuffer {buffer}\n"
        );
        text
    }

    /// From a text.
    pub fn read(text: &str) -> Option<State> {
        let mut lines = text.lines();
        let has_protection = match lines.next()? {
            HEADING => true,
            OLDER => false,
            _ => return None,
        };
        let mut line = |kind: &str| -> Option<Vec<&str>> {
            let mut words = lines.next()?.split_whitespace();
            (words.next()? == kind).then(|| words.collect())
        };
        let notes: Vec<u16> = line("map")?
            .iter()
            .map(|word| word.parse().ok())
            .collect::<Option<_>>()?;
        let map: Box<[u16; MAP_LEN]> = notes.into_boxed_slice().try_into().ok()?;
        let mut words = line("session")?;
        if !has_protection {
            words.push("0");
        }
        let session = session(&words)?;
        let mut bytes = |kind: &str| -> Option<Vec<u8>> {
            let words = line(kind)?;
            hex::read(&words.concat())
        };
        let fcb: [u8; 36] = bytes("fcb")?.try_into().ok()?;
        let buffer: Buffer = bytes("buffer")?.try_into().ok()?;
        Some(State {
            map,
            session,
            fcb: fcb.into(),
            buffer,
        })
    }
}

/// A session from the words of its line.
fn session(words: &[&str]) -> Option<Session> {
    let [user, pattern, place, on, lifted] = words else {
        return None;
    };
    Some(Session {
        user: user.parse().ok()?,
        pattern: hex::read(pattern)?.try_into().ok()?,
        place: place.parse().ok()?,
        on: on.parse().ok()?,
        lifted: lifted.parse().ok()?,
    })
}

#[cfg(test)]
mod tests {
    use super::*;

    #[test]
    fn what_is_written_is_read_back() {
        let state = State {
            map: Box::new(std::array::from_fn(|i| 257 * i as u16)),
            session: Session {
                user: 200,
                pattern: *b"ABCDEFGH?\x00\xFF?",
                place: 65_535,
                on: 3,
                lifted: 129,
            },
            fcb: std::array::from_fn(|i| i as u8).into(),
            buffer: std::array::from_fn(|i| 255 - i as u8),
        };
        let text = state.written();
        assert!(text.len() + 5 * MAP_LEN < State::MOST);
        assert_eq!(State::read(&text), Some(state.clone()));
        assert_eq!(State::read(""), None);
        assert_eq!(State::read(&text.replace("state 2", "state 3")), None);
        assert_eq!(State::read(&text.replace("state 2", "state 1")), None);
        // One from before there was a protection is read as protected.
        let older = text.replace("state 2", "state 1").replace(" 3 129", " 3");
        let mut protected = state;
        protected.session.lifted = 0;
        assert_eq!(State::read(&older), Some(protected));
        assert_eq!(State::read(&older.replace("state 1", "state 2")), None);
        assert_eq!(State::read(&text.replace("map 0", "map 0 0")), None);
        assert_eq!(State::read(&text.replace("buffer FF", "buffer F")), None);
        assert_eq!(State::read(&text.replace("session", "sessions")), None);
    }
}
