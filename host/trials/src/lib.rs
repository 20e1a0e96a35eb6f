//! The proved library beside the reference: compared on random calls, and
//! measured.
//!
//! * [`Proved`] is the proved library as the generator wants an implementation;
//! * [`fuzz`] runs both on sequences from new seeds, keeps a failing one, and
//!   runs a kept one again;
//! * [`bench`] measures both on the same jobs and calls.

#![forbid(unsafe_code)]
#![warn(missing_docs)]

pub mod bench;
pub mod fuzz;

use generator::picking::Picker;
use generator::Implementation;
use reference::{Answer, Asked, Pick, Picked, Session, Time, Wanted};

/// The proved library.
#[derive(Clone, Copy, Debug)]
pub struct Proved;

impl Implementation for Proved {
    fn call(
        &mut self,
        asked: Asked,
        image: &mut [u8],
        map: &mut [u16],
        fcb: &mut [u8],
        buffer: &mut [u8],
        session: Session,
    ) -> Answer {
        call(asked, image, map, fcb, buffer, session)
    }

    fn lift(&mut self, session: Session) -> Session {
        lift(session)
    }

    fn protect(&mut self, session: Session) -> Session {
        protect(session)
    }
}

impl Picker for Proved {
    fn pick(
        &mut self,
        wanted: Wanted,
        time: Time,
        image: &mut [u8],
        map: &mut [u16],
        word: &mut [u8],
        session: Session,
    ) -> Picked {
        pick(wanted, time, image, map, word, session)
    }
}

/// Lifts the write protection by the proved library, in the reference's types.
pub fn lift(session: Session) -> Session {
    back(benzokamuri::lift(there(session)))
}

/// Sets the write protection by the proved library, in the reference's types.
pub fn protect(session: Session) -> Session {
    back(benzokamuri::protect(there(session)))
}

/// A session in the library's types.
fn there(session: Session) -> benzokamuri::Session {
    benzokamuri::Session {
        user: session.user,
        pattern: session.pattern,
        place: session.place,
        on: session.on,
        lifted: session.lifted,
    }
}

/// A session in the reference's types.
fn back(session: benzokamuri::Session) -> Session {
    Session {
        user: session.user,
        pattern: session.pattern,
        place: session.place,
        on: session.on,
        lifted: session.lifted,
    }
}

/// Makes one call of the proved library, in the reference's types. By itself, as
/// the generator's [`Implementation`], it would lift and set the write protection
/// as the reference does; [`Proved`] does that by the library.
pub fn call(
    asked: Asked,
    image: &mut [u8],
    map: &mut [u16],
    fcb: &mut [u8],
    buffer: &mut [u8],
    session: Session,
) -> Answer {
    let asked = benzokamuri::Asked {
        number: asked.number,
        argument: asked.argument,
        day: asked.day,
        hour: asked.hour,
        minute: asked.minute,
    };
    let answer = benzokamuri::lend(asked, image, map, fcb, buffer, there(session));
    Answer {
        a: answer.a,
        h: answer.h,
        session: back(answer.session),
    }
}

/// The answers of a picker that have a number of their own, by that.
const PICKS: [Pick; 11] = [
    Pick::Logged,
    Pick::Again,
    Pick::DayOver,
    Pick::NoBook,
    Pick::NoWord,
    Pick::OneFile,
    Pick::NoFirst,
    Pick::LogFull,
    Pick::LogReadOnly,
    Pick::DirectoryFull,
    Pick::DiskFull,
];

/// Picks a word by the proved library, in the reference's types. What these have
/// no place for is a panic, and so a difference: another number, a word that is
/// neither handed out nor not, A and H where the answer has none.
pub fn pick(
    wanted: Wanted,
    time: Time,
    image: &mut [u8],
    map: &mut [u16],
    word: &mut [u8],
    session: Session,
) -> Picked {
    let wanted = benzokamuri::Wanted {
        year: wanted.year,
        day: wanted.day,
        book: wanted.book,
        log: wanted.log,
    };
    let time = benzokamuri::PickedAt {
        day: time.day,
        hour: time.hour,
        minute: time.minute,
    };
    let told = benzokamuri::pick(wanted, time, image, map, word, there(session));
    let (a, h) = (told.a, told.h);
    let pick = match PICKS.get(usize::from(told.number)) {
        Some(&named) if (a, h) == (0, 0) => named,
        None if told.number == 11 => Pick::Other { a, h },
        _ => panic!("no answer of a picker: {told:?}"),
    };
    Picked {
        pick,
        given: match told.given {
            0 => false,
            1 => true,
            _ => panic!("a word handed out and not: {told:?}"),
        },
        session: back(told.session),
    }
}

#[cfg(test)]
mod tests {
    use super::*;

    #[test]
    fn answers_stand_at_their_numbers() {
        for (number, pick) in PICKS.iter().enumerate() {
            assert_eq!(usize::from(pick.number()), number);
        }
    }
}
