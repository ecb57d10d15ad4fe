//! Why a call is refused.
use core::fmt;

macro_rules! errors {
    ($($number:literal $name:ident $text:literal)*) => {
        /// Why a call is refused.
        #[derive(Clone, Copy, Debug, PartialEq, Eq)]
        #[non_exhaustive]
        pub enum Error {
            $(#[doc = $text] $name,)*
            /// A number that this wrapper doesn't know.
            Unknown(u32),
        }

        impl Error {
            pub(crate) fn of(code: u32) -> Error {
                match code {
                    $($number => Error::$name,)*
                    _ => Error::Unknown(code),
                }
            }
        }

        impl fmt::Display for Error {
            fn fmt(&self, f: &mut fmt::Formatter<'_>) -> fmt::Result {
                match self {
                    $(Error::$name => f.write_str($text),)*
                    Error::Unknown(code) => write!(f, "unknown code {code}"),
                }
            }
        }
    };
}

errors! {
    1 NoHost "no host behind the handle"
    2 HasHost "a host behind the handle already"
    3 Memory "out of memory"
    4 BadArgument "bad argument"
    5 NoSocket "no socket of this handle"
    6 WrongKind "a socket of another kind at the place"
    7 InvalidState "invalid state"
    8 Unaddressable "unaddressable"
    9 Full "no room"
    10 Exhausted "nothing waits"
    11 Truncated "datagram longer than the buffer, and gone"
    12 Finished "the stream is read to its end"
    13 TooShort "buffer too short for what is to go, which stays"
    14 TooLong "too long"
    15 TableFull "table full"
    16 NotFound "not found"
    17 Medium "the medium has other hardware addresses"
    18 NotUnicast "not the address of one host"
    19 Mtu "IP MTU out of 576 to 65535 bytes"
    20 Moment "moment out of range"
    21 NoListener "no listener of this number"
    22 InBacklog "a listener has the socket"
    23 NoClient "no such client"
    24 QueryPending "the query has no answer yet"
    25 NameTooLong "name too long"
    26 InvalidName "invalid name"
    27 QueryFailed "no address was found"
    28 QueryUnanswered "no server answered"
    29 AddressInUse "address in use"
    30 NoRoute "no route leads there"
}

impl core::error::Error for Error {}

/// What a call answers.
pub type Result<T> = core::result::Result<T, Error>;
