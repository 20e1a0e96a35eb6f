//! What keeps a verb from being done, and the exit status it gives.

use benzokamuri::Code;
use std::fmt;
use std::io;

/// The exit status of a verb that was done.
pub const DONE: u8 = 0;

/// The exit status of a verb that was refused.
pub const REFUSED: u8 = 1;

/// The exit status of a wrong command line.
pub const USAGE: u8 = 2;

/// Why a verb was not done.
#[derive(Debug)]
pub enum Trouble {
    /// The command line is wrong.
    Usage(String),
    /// A call was refused.
    Refused {
        /// What was being done.
        doing: String,
        /// The call's code.
        code: Code,
    },
    /// Anything else: a file that can't be read, an image of a wrong length.
    Failed(String),
}

impl Trouble {
    /// A wrong command line.
    pub fn usage(text: impl Into<String>) -> Trouble {
        Trouble::Usage(text.into())
    }

    /// Something refused for a reason of our own.
    pub fn failed(text: impl Into<String>) -> Trouble {
        Trouble::Failed(text.into())
    }

    /// A file that could not be read or written.
    pub fn file(name: impl fmt::Display, error: &io::Error) -> Trouble {
        Trouble::Failed(format!("{name}: {error}"))
    }

    /// The exit status.
    pub fn status(&self) -> u8 {
        match self {
            Trouble::Usage(_) => USAGE,
            Trouble::Refused { .. } | Trouble::Failed(_) => REFUSED,
        }
    }
}

impl fmt::Display for Trouble {
    fn fmt(&self, f: &mut fmt::Formatter) -> fmt::Result {
        match self {
            Trouble::Usage(text) | Trouble::Failed(text) => f.write_str(text),
            Trouble::Refused { doing, code } => {
                let (a, h) = code.numbers();
                write!(f, "{doing}: {a}, {h}: {code}")
            }
        }
    }
}

/// Trouble with what is printed.
impl From<io::Error> for Trouble {
    fn from(error: io::Error) -> Trouble {
        Trouble::file("standard output", &error)
    }
}

/// Says what was being done when a call was refused.
pub trait Doing<T> {
    /// Says it.
    fn doing(self, what: impl fmt::Display) -> Result<T, Trouble>;
}

impl<T> Doing<T> for Result<T, Code> {
    fn doing(self, what: impl fmt::Display) -> Result<T, Trouble> {
        self.map_err(|code| Trouble::Refused {
            doing: what.to_string(),
            code,
        })
    }
}
