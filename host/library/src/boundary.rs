//! The boundary: the archive's four functions, the types they take and answer,
//! and the safe way to them. Nothing compares these declarations with the proved
//! source; `tests/layout.rs` compares them with the C header.

use crate::Time;

/// The version of these types and of the functions, the header's
/// `BENZO_VERSION`.
pub const VERSION: u32 = 4;

/// Which call is asked for, and when: `benzo_asked`. The time may be anything
/// here; [`Asked::new`] takes one that is right.
#[repr(C)]
#[derive(Clone, Copy, Debug, Default, PartialEq, Eq)]
pub struct Asked {
    /// The call number.
    pub number: u8,
    /// The argument byte, looked at by call 32 only.
    pub argument: u8,
    /// The day, where 1 January 1978 is 1.
    pub day: u16,
    /// The hour, in BCD; anything else is refused with 255, 4.
    pub hour: u8,
    /// The minute, in BCD; anything else is refused with 255, 4.
    pub minute: u8,
}

impl Asked {
    /// A call, its argument, and the time.
    pub const fn new(number: u8, argument: u8, time: Time) -> Asked {
        Asked {
            number,
            argument,
            day: time.day(),
            hour: time.hour_bcd(),
            minute: time.minute_bcd(),
        }
    }
}

/// What a caller keeps from one call to the next: `benzo_session`. It begins
/// at zero, which is [`Session::default`], and so write-protected.
#[repr(C)]
#[derive(Clone, Copy, Debug, Default, PartialEq, Eq)]
pub struct Session {
    /// The user number, 0 to 15.
    pub user: u8,
    /// The search pattern: name, type and extent.
    pub pattern: [u8; 12],
    /// The search place, 0 to 64.
    pub place: u16,
    /// Whether a search is on: 0 is off, anything else is on.
    pub on: u8,
    /// Whether the write protection is lifted: 0 is protected, anything else is
    /// lifted. No call changes it; [`lift`] and [`protect`] do.
    pub lifted: u8,
}

/// What a call answers: `benzo_answer`.
#[repr(C)]
#[derive(Clone, Copy, Debug, Default, PartialEq, Eq)]
pub struct Answer {
    /// Register A.
    pub a: u8,
    /// Register H.
    pub h: u8,
    /// The session for the next call.
    pub session: Session,
}

/// What a picker is asked for: `benzo_wanted`. Anything may stand in it.
#[repr(C)]
#[derive(Clone, Copy, Debug, PartialEq, Eq)]
pub struct Wanted {
    /// The year.
    pub year: u16,
    /// The day, counted from 0; over 365 there is none.
    pub day: u16,
    /// Name and type of the book.
    pub book: [u8; 11],
    /// Name and type of the log.
    pub log: [u8; 11],
}

/// The time at which a word is picked: `benzo_time`. It may be anything here.
#[repr(C)]
#[derive(Clone, Copy, Debug, Default, PartialEq, Eq)]
pub struct PickedAt {
    /// The day, where 1 January 1978 is 1.
    pub day: u16,
    /// The hour, in BCD; anything else is refused with 255, 4.
    pub hour: u8,
    /// The minute, in BCD; anything else is refused with 255, 4.
    pub minute: u8,
}

impl From<Time> for PickedAt {
    fn from(time: Time) -> PickedAt {
        PickedAt {
            day: time.day(),
            hour: time.hour_bcd(),
            minute: time.minute_bcd(),
        }
    }
}

/// What a picker tells: `benzo_picked`. [`Pick::read`](crate::Pick::read) reads it.
#[repr(C)]
#[derive(Clone, Copy, Debug, Default, PartialEq, Eq)]
pub struct Told {
    /// How the run ended, 0 to 11.
    pub number: u8,
    /// Whether the word was handed out: 1, or 0.
    pub given: u8,
    /// Register A of a refusal that has no number of its own.
    pub a: u8,
    /// Register H of the same.
    pub h: u8,
    /// The session for what comes next.
    pub session: Session,
}

#[allow(unsafe_code)]
unsafe extern "C" {
    fn benzo_call(
        asked: Asked,
        image: *mut u8,
        image_len: usize,
        map: *mut u16,
        map_len: usize,
        fcb: *mut u8,
        fcb_len: usize,
        buffer: *mut u8,
        buffer_len: usize,
        session: Session,
    ) -> Answer;

    fn benzo_pick(
        wanted: Wanted,
        time: PickedAt,
        image: *mut u8,
        image_len: usize,
        map: *mut u16,
        map_len: usize,
        word: *mut u8,
        word_len: usize,
        session: Session,
    ) -> Told;

    // These two take and give numbers alone, which may be anything.
    safe fn benzo_lift(session: Session) -> Session;
    safe fn benzo_protect(session: Session) -> Session;
}

/// Lifts the write protection: the session with `lifted` 1, and all else in it
/// as it came, a search included.
pub fn lift(session: Session) -> Session {
    benzo_lift(session)
}

/// Sets the write protection: the session with `lifted` 0, and all else in it
/// as it came.
pub fn protect(session: Session) -> Session {
    benzo_protect(session)
}

/// Makes one call with the four buffers as they are lent, right or wrong. A
/// wrong length is answered with 255, 4.
#[allow(unsafe_code)]
pub fn lend(
    asked: Asked,
    image: &mut [u8],
    map: &mut [u16],
    fcb: &mut [u8],
    buffer: &mut [u8],
    session: Session,
) -> Answer {
    // SAFETY: each pointer is that of an exclusive slice and goes with its own
    // length, so the four are readable, writable, aligned and apart from each
    // other for as long as the call runs. The function keeps none of them. It
    // asks nothing of the bytes, the notes, the lengths or the session, all of
    // which may be anything.
    unsafe {
        benzo_call(
            asked,
            image.as_mut_ptr(),
            image.len(),
            map.as_mut_ptr(),
            map.len(),
            fcb.as_mut_ptr(),
            fcb.len(),
            buffer.as_mut_ptr(),
            buffer.len(),
            session,
        )
    }
}

/// Picks a word with the three buffers as they are lent, right or wrong. The word
/// is due 128 bytes; any other length is told as a refusal with 255, 4, unless
/// something else is told before it.
#[allow(unsafe_code)]
pub fn pick(
    wanted: Wanted,
    time: PickedAt,
    image: &mut [u8],
    map: &mut [u16],
    word: &mut [u8],
    session: Session,
) -> Told {
    // SAFETY: as above, of three exclusive slices: each pointer goes with its own
    // length, and the function keeps none of them. It asks nothing of what is
    // wanted, the time, the bytes, the notes, the lengths or the session.
    unsafe {
        benzo_pick(
            wanted,
            time,
            image.as_mut_ptr(),
            image.len(),
            map.as_mut_ptr(),
            map.len(),
            word.as_mut_ptr(),
            word.len(),
            session,
        )
    }
}
