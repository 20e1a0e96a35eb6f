//! The file calls of CP/M Plus over one lent image of the 8-inch
//! single-density diskette.
//!
//! [`call`] takes the call's number and argument, the four lent buffers and the
//! session, and answers with A, H and the session. Buffers of any length with
//! any bytes are legal; what can't be served is refused with the table's code
//! and changes nothing. [`lift`] and [`protect`] lift and set the session's
//! write protection, and [`pick`] is the word picker above the files; that is the
//! whole library.
//!
//! The modules follow the headings of the rules they implement:
//!
//! * [`diskette`]: where a record of a block stands in the image;
//! * `directory`: entries, the name rule, consistency and finding entries;
//! * `dates`: labels, date entries and the stamps beside entries;
//! * `map`: the notes, and when the map is right;
//! * `fcb` and `current`: the FCB's layout, and when an FCB is current;
//! * `table`: the codes, in the order they are tested, and their causes;
//! * `calls`: what accepted calls do;
//! * `picker`: the word of a day, and its log.
//!
//! A call first decides everything on the state as it came in (`table`), and
//! only then changes anything (`calls`). No memory is allocated, and nothing
//! is kept between calls but what the session carries.

#![forbid(unsafe_code)]
#![warn(missing_docs)]

mod calls;
mod current;
mod dates;
mod directory;
pub mod diskette;
mod fcb;
mod lent;
mod map;
mod picker;
mod table;

pub use calls::LISTED;
pub use fcb::FCB_BYTES;
pub use picker::{pick, Pick, Picked, Time, Wanted};
pub use table::Cause;

use calls::{carry_out, Call};
use dates::Stamper;
use directory::Directory;
use lent::{Lent, LentMut};
use table::decide;

/// Which call is asked for, and when.
#[derive(Clone, Copy, Debug, Default, PartialEq, Eq)]
pub struct Asked {
    /// The call number.
    pub number: u8,
    /// The argument byte, looked at by call 32 only.
    pub argument: u8,
    /// The day, where 1 January 1978 is 1.
    pub day: u16,
    /// The hour, in BCD.
    pub hour: u8,
    /// The minute, in BCD.
    pub minute: u8,
}

/// What a caller keeps from one call to the next.
#[derive(Clone, Copy, Debug, Default, PartialEq, Eq)]
pub struct Session {
    /// The user number.
    pub user: u8,
    /// The search pattern: name, type and extent.
    pub pattern: [u8; 12],
    /// The search place, 0 to 64.
    pub place: u16,
    /// Whether a search is on: 0 is off, anything else is on.
    pub on: u8,
    /// Whether the write protection is lifted: 0 is protected, anything else is
    /// lifted.
    pub lifted: u8,
}

/// What a call answers with.
#[derive(Clone, Copy, Debug, PartialEq, Eq)]
pub struct Answer {
    /// Register A.
    pub a: u8,
    /// Register H.
    pub h: u8,
    /// The session for the next call.
    pub session: Session,
}

impl Session {
    /// "Ending sets it off and its place to 0, even where none was on; the
    /// pattern stays."
    fn search_ended(self) -> Self {
        Self {
            place: 0,
            on: 0,
            ..self
        }
    }

    /// "Until the caller lifts it".
    const fn is_protected(&self) -> bool {
        self.lifted == 0
    }
}

/// Lifts the write protection. It "changes nothing else", a search included.
pub const fn lift(session: Session) -> Session {
    Session {
        lifted: 1,
        ..session
    }
}

/// Sets the write protection, and changes nothing else either.
pub const fn protect(session: Session) -> Session {
    Session {
        lifted: 0,
        ..session
    }
}

/// Makes one call.
pub fn call(
    asked: Asked,
    image: &mut [u8],
    map: &mut [u16],
    fcb: &mut [u8],
    buffer: &mut [u8],
    session: Session,
) -> Answer {
    attempt(asked, image, map, fcb, buffer, session).unwrap_or_else(|cause| refused(cause, session))
}

/// Why [`call`] would refuse, if it would.
pub fn refusal(
    asked: Asked,
    image: &[u8],
    map: &[u16],
    fcb: &[u8],
    buffer: &[u8],
    session: Session,
) -> Option<Cause> {
    let decided = || {
        let call = Call::listed(asked.number).ok_or(Cause::Unlisted)?;
        let lent = Lent::new(image, map, fcb, buffer)?;
        decide(call, asked, lent, &session, &mut Directory::unread())
    };
    decided().err()
}

/// Makes the call, or says why not.
fn attempt(
    asked: Asked,
    image: &mut [u8],
    map: &mut [u16],
    fcb: &mut [u8],
    buffer: &mut [u8],
    session: Session,
) -> Result<Answer, Cause> {
    let call = Call::listed(asked.number).ok_or(Cause::Unlisted)?;
    let lent = LentMut::new(image, map, fcb, buffer)?;
    let mut directory = Directory::unread();
    let plan = decide(call, asked, lent.view(), &session, &mut directory)?;
    let stamper = match session.is_protected() {
        // "An open on a protected session stamps no date", and what else is
        // accepted there changes no entry.
        true => Stamper::NONE,
        false => Stamper::new(directory.aside(), asked),
    };
    Ok(carry_out(plan, lent, &directory, stamper, session))
}

/// "Every one of these changes nothing", but two end the search.
fn refused(cause: Cause, session: Session) -> Answer {
    let (a, h) = cause.code();
    let session = if cause.ends_search() {
        session.search_ended()
    } else {
        session
    };
    Answer { a, h, session }
}
