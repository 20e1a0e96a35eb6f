//! The file calls of CP/M Plus over an image of the 8-inch single-density
//! diskette, as the proved archive does them, safe to call from Rust.
//!
//! ```
//! use benzokamuri::{Disk, Fcb, Name};
//!
//! # fn main() -> Result<(), Box<dyn std::error::Error>> {
//! let mut disk = Disk::erased();
//! disk.lift(); // it begins write-protected
//! let mut fcb = Fcb::named("HELLO.TXT".parse::<Name>()?);
//! disk.make(&mut fcb)?;
//! disk.buffer.fill(b'!');
//! disk.write_next(&mut fcb)?;
//! disk.close(&mut fcb)?;
//! assert_eq!(disk.space()?, 1_920);
//! # Ok(())
//! # }
//! ```
//!
//! * [`Disk`] owns an image, its map, a transfer buffer and a session. Lengths
//!   can't be wrong there, and only calls change the image. It begins
//!   write-protected: no call changes the image until [`Disk::lift`].
//! * [`Fcb`], [`Name`] and [`Pattern`] are what calls are given.
//! * [`Time`] is what calls are handed and stamps hold. A disk begins at
//!   [`Time::ZERO`]; `disk.set_time(Time::now()?)` makes it the system's clock.
//! * [`Code`] says why a call was refused, in the help card's sentence.
//! * [`lend`] is the archive's call itself, which takes buffers of any length
//!   and any session: wrong ones are refused, not undefined. [`lift`] and
//!   [`protect`] lift and set the write protection of a session.
//! * [`Disk::pick`] is the word picker, which is made of calls: it hands out the
//!   word of a day and logs the day, once however often it is started. [`Pick`]
//!   says how a run ended, and [`pick`] is the archive's function itself.
//!
//! This crate alone holds `unsafe`, in one file: the archive's four functions
//! are declared there, and the call and the picker have a block each.

#![deny(unsafe_code)]
#![warn(missing_docs)]

mod boundary;
mod calls;
mod codes;
mod disk;
mod fcb;
mod names;
mod picker;
mod time;
mod zone;

pub use boundary::{
    lend, lift, pick, protect, Answer, Asked, PickedAt, Session, Told, Wanted, VERSION,
};
pub use calls::Call;
pub use codes::Code;
pub use disk::{Disk, Found, NoDisk, Stamps, WrongLength};
pub use fcb::Fcb;
pub use names::{BadName, Name, Pattern};
pub use picker::{Pick, Picked, LOG_RECORDS};
pub use time::{BadTime, Date, Time};

/// Bytes of an image: 77 tracks of 26 sectors of 128 bytes.
pub const IMAGE_LEN: usize = 256_256;

/// Notes of a map, one a block.
pub const MAP_LEN: usize = 243;

/// Bytes of an FCB.
pub const FCB_LEN: usize = 36;

/// Bytes of a transfer buffer, and of a record.
pub const BUFFER_LEN: usize = 128;

/// Bytes of a directory entry.
pub const ENTRY_LEN: usize = 32;

/// Entries of the directory.
pub const ENTRIES: usize = 64;

/// A whole image.
pub type Image = [u8; IMAGE_LEN];

/// A whole map.
pub type Map = [u16; MAP_LEN];

/// A transfer buffer.
pub type Buffer = [u8; BUFFER_LEN];

/// A directory entry.
pub type Entry = [u8; ENTRY_LEN];
