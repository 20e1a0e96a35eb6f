//! The listed calls.

use std::fmt;

/// Writes the listed calls down as an enum with their numbers and names.
macro_rules! calls {
    ($($call:ident = $number:literal, $name:literal;)*) => {
        /// The listed calls.
        #[derive(Clone, Copy, Debug, PartialEq, Eq)]
        pub enum Call {
            $(
                #[doc = concat!("Call ", $number, ": ", $name, ".")]
                $call = $number,
            )*
        }

        impl Call {
            /// The listed calls, lowest number first.
            pub const ALL: &'static [Call] = &[$(Call::$call),*];

            /// The call with this number, where it is listed.
            pub const fn listed(number: u8) -> Option<Call> {
                match number {
                    $($number => Some(Call::$call),)*
                    _ => None,
                }
            }

            /// What the call is called.
            pub const fn name(self) -> &'static str {
                match self {
                    $(Call::$call => $name,)*
                }
            }
        }
    };
}

calls! {
    LogIn = 13, "log in";
    Open = 15, "open";
    Close = 16, "close";
    SearchFirst = 17, "search for the first";
    SearchNext = 18, "search for the next";
    Delete = 19, "delete";
    ReadNext = 20, "sequential read";
    WriteNext = 21, "sequential write";
    Make = 22, "make";
    Rename = 23, "rename";
    User = 32, "user number";
    ReadRandom = 33, "random read";
    WriteRandom = 34, "random write";
    Size = 35, "size";
    RandomRecord = 36, "random record";
    Space = 46, "space";
    FreeBlocks = 98, "free blocks";
}

impl Call {
    /// The call's number.
    pub const fn number(self) -> u8 {
        self as u8
    }
}

impl fmt::Display for Call {
    fn fmt(&self, f: &mut fmt::Formatter) -> fmt::Result {
        write!(f, "{} ({})", self.number(), self.name())
    }
}

#[cfg(test)]
mod tests {
    use super::*;

    #[test]
    fn numbers_and_calls_go_together() {
        for &call in Call::ALL {
            assert_eq!(Call::listed(call.number()), Some(call));
        }
        let listed = (0..=255).filter(|&number| Call::listed(number).is_some());
        assert!(listed.eq(Call::ALL.iter().map(|call| call.number())));
        assert_eq!(Call::ALL.len(), 17);
    }
}
