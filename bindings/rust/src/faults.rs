//! Why an arbiter isn't opened, and why an order isn't given.

use crate::ffi;
use std::error::Error;
use std::fmt;

/// What is wrong with the text of a machine: the first that applies to the whole text.
#[derive(Clone, Copy, Debug, PartialEq, Eq)]
pub enum ConfigFault {
    /// The text is not a TOML document.
    NotToml,
    /// A table has a key that the format doesn't have.
    UnknownKey,
    /// A needed key is missing, or a value has another type than its key wants.
    BadKey,
    /// An integer is outside the range of its key.
    OutOfRange,
    /// There are no sockets, or more than eight.
    SocketCount,
    /// This core is listed twice.
    CoreTwice(u16),
    /// There are no managed cores, or more than 128.
    ManagedCount,
    /// No socket has an unmanaged core.
    NoUnmanaged,
}

impl fmt::Display for ConfigFault {
    fn fmt(&self, f: &mut fmt::Formatter<'_>) -> fmt::Result {
        match self {
            ConfigFault::NotToml => f.write_str("C1 not TOML"),
            ConfigFault::UnknownKey => f.write_str("C2 unknown key"),
            ConfigFault::BadKey => f.write_str("C3 key missing or of the wrong type"),
            ConfigFault::OutOfRange => f.write_str("C4 number out of range"),
            ConfigFault::SocketCount => f.write_str("C5 sockets must be 1 to 8"),
            ConfigFault::CoreTwice(core) => write!(f, "C6 core {core} listed twice"),
            ConfigFault::ManagedCount => f.write_str("C7 managed cores must be 1 to 128"),
            ConfigFault::NoUnmanaged => f.write_str("C8 no unmanaged core"),
        }
    }
}

impl Error for ConfigFault {}

/// Why an arbiter wasn't opened.
#[derive(Clone, Copy, Debug, PartialEq, Eq)]
pub enum OpenError {
    /// The text has more than 65,536 bytes.
    TooLong,
    /// An allocation failed.
    OutOfMemory,
    /// The text describes no machine.
    Config(ConfigFault),
}

impl OpenError {
    /// The error that a code means, which answered the opening of a closed handle; `None` if the handle is open now.
    pub(crate) fn of_code(code: u32, named: u16) -> Option<OpenError> {
        let fault = match code {
            ffi::OK => return None,
            ffi::TOO_LONG => return Some(OpenError::TooLong),
            ffi::OUT_OF_MEMORY => return Some(OpenError::OutOfMemory),
            ffi::NOT_TOML => ConfigFault::NotToml,
            ffi::UNKNOWN_KEY => ConfigFault::UnknownKey,
            ffi::BAD_KEY => ConfigFault::BadKey,
            ffi::OUT_OF_RANGE => ConfigFault::OutOfRange,
            ffi::SOCKET_COUNT => ConfigFault::SocketCount,
            ffi::CORE_TWICE => ConfigFault::CoreTwice(named),
            ffi::MANAGED_COUNT => ConfigFault::ManagedCount,
            ffi::NO_UNMANAGED => ConfigFault::NoUnmanaged,
            code => unreachable!("a closed handle and a text were answered {code}"),
        };
        Some(OpenError::Config(fault))
    }
}

impl fmt::Display for OpenError {
    fn fmt(&self, f: &mut fmt::Formatter<'_>) -> fmt::Result {
        match self {
            OpenError::TooLong => f.write_str("the text is too long"),
            OpenError::OutOfMemory => f.write_str("out of memory"),
            OpenError::Config(fault) => fault.fmt(f),
        }
    }
}

impl Error for OpenError {}

/// Why an order wasn't given. Nothing changed then. (A refused order was given, and is answered
/// [`Reply::Refused`](crate::Reply::Refused).)
#[derive(Clone, Copy, Debug, PartialEq, Eq)]
pub enum GiveError {
    /// As many orders were given as the machine's text states by `orders`: no order works any more, not even a `Leave`.
    /// Without that key this is never answered.
    Full,
    /// Another member gives an order, or is in a turn. Only [`Member::try_give`](crate::Member::try_give) answers this.
    Taken,
    /// The member is in a turn that was forgotten ([`std::mem::forget`]). [`Member::begin`](crate::Member::begin) goes
    /// on with that turn: end it there. Only a member answers this.
    InTurn,
}

impl fmt::Display for GiveError {
    fn fmt(&self, f: &mut fmt::Formatter<'_>) -> fmt::Result {
        match self {
            GiveError::Full => f.write_str("the limit on orders is reached"),
            GiveError::Taken => f.write_str("another member gives an order or is in a turn"),
            GiveError::InTurn => f.write_str("the member is in a turn"),
        }
    }
}

impl Error for GiveError {}

/// Why an order wasn't given in a turn. Nothing changed then.
#[derive(Clone, Copy, Debug, PartialEq, Eq)]
pub enum StepError {
    /// Posts of the order before are missing: [`Turn::post_all`](crate::Turn::post_all) makes them.
    Stale,
    /// The limit on orders is reached, as for [`GiveError::Full`].
    Full,
}

impl fmt::Display for StepError {
    fn fmt(&self, f: &mut fmt::Formatter<'_>) -> fmt::Result {
        match self {
            StepError::Stale => f.write_str("words of an earlier order are not posted"),
            StepError::Full => GiveError::Full.fmt(f),
        }
    }
}

impl Error for StepError {}

/// Why a member wasn't opened. Nothing changed then.
#[derive(Clone, Copy, Debug, PartialEq, Eq)]
pub enum MemberError {
    /// An allocation failed.
    OutOfMemory,
    /// The member from which another was to come is in a turn that was forgotten, as for [`GiveError::InTurn`].
    InTurn,
}

impl fmt::Display for MemberError {
    fn fmt(&self, f: &mut fmt::Formatter<'_>) -> fmt::Result {
        match self {
            MemberError::OutOfMemory => OpenError::OutOfMemory.fmt(f),
            MemberError::InTurn => GiveError::InTurn.fmt(f),
        }
    }
}

impl Error for MemberError {}
