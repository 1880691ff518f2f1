//! What a house tells: its errors, its events, and what there is to read.

use super::ffi;
use crate::{ConfigFault, LEVELS};
use std::error::Error;
use std::fmt;
use std::io;

/// Why a call on a house did nothing.
#[derive(Clone, Copy, Debug, PartialEq, Eq)]
pub enum HouseError {
    /// The house was closed.
    Closed,
    /// The application was withdrawn.
    Withdrawn,
    /// The limit of a wait is over. The thread has no core, and waits for none.
    TimedOut,
    /// Another thread ended the wait. The thread has no core, and waits for none.
    WaitEnded,
    /// This process is a forked child, and its parent opened the house.
    Forked,
    /// Sixteen applications have joined, or the application has 32 threads.
    AllTaken,
    /// The thread is registered in this house already, or in another one that pins it too.
    Registered,
    /// There is no such level: they are 0 to 7.
    NoLevel,
    /// More than 128 cores.
    TooManyCores,
    /// The name of an application has a zero byte.
    Name,
    /// An allocation failed.
    OutOfMemory,
    /// The operating system refused to pin or to unpin a thread.
    Unpinned,
    /// The call came from a hook, which may not make it.
    InHook,
    /// The text of the machine has more than 65,536 bytes.
    TooLong,
    /// The text describes no machine.
    Config(ConfigFault),
    /// The machine's text states `orders`, and a house takes orders without limit.
    Limited,
    /// The house's own thread couldn't be started.
    NoThread,
    /// The operating system doesn't tell which processors this process may use.
    NoProcessors,
    /// A file of the journal can't be written, or the journal is incomplete.
    Journal,
    /// The journal's folder has a journal already.
    JournalThere,
    /// Another house of this process manages this core.
    CoreTaken(u16),
    /// This process's house is open already, with other options.
    OtherOptions,
    /// The library is of another version than this package.
    OtherVersion,
}

impl HouseError {
    /// The error that a code other than OK means.
    pub(super) fn of_code(code: u32) -> HouseError {
        match code {
            ffi::CLOSED => HouseError::Closed,
            ffi::WITHDRAWN => HouseError::Withdrawn,
            ffi::TIMED_OUT => HouseError::TimedOut,
            ffi::WAIT_ENDED => HouseError::WaitEnded,
            ffi::FORKED => HouseError::Forked,
            ffi::ALL_TAKEN => HouseError::AllTaken,
            ffi::REGISTERED => HouseError::Registered,
            ffi::NO_LEVEL => HouseError::NoLevel,
            ffi::ENTRY_TOO_LARGE => HouseError::TooManyCores,
            ffi::OUT_OF_MEMORY => HouseError::OutOfMemory,
            ffi::UNPINNED => HouseError::Unpinned,
            ffi::IN_HOOK => HouseError::InHook,
            ffi::JOURNAL => HouseError::Journal,
            code => unreachable!("a call on a house was answered {code}"),
        }
    }

    /// The error that a code of an opening means, with the core that it names.
    pub(super) fn of_opening(code: u32, named: u16) -> HouseError {
        HouseError::Config(match code {
            ffi::TOO_LONG => return HouseError::TooLong,
            ffi::LIMITED => return HouseError::Limited,
            ffi::NO_THREAD => return HouseError::NoThread,
            ffi::NO_PROCESSORS => return HouseError::NoProcessors,
            ffi::JOURNAL_THERE => return HouseError::JournalThere,
            ffi::CORE_TAKEN => return HouseError::CoreTaken(named),
            ffi::OTHER_OPTIONS => return HouseError::OtherOptions,
            ffi::OTHER_VERSION => return HouseError::OtherVersion,
            ffi::NOT_TOML => ConfigFault::NotToml,
            ffi::UNKNOWN_KEY => ConfigFault::UnknownKey,
            ffi::BAD_KEY => ConfigFault::BadKey,
            ffi::OUT_OF_RANGE => ConfigFault::OutOfRange,
            ffi::SOCKET_COUNT => ConfigFault::SocketCount,
            ffi::CORE_TWICE => ConfigFault::CoreTwice(named),
            ffi::MANAGED_COUNT => ConfigFault::ManagedCount,
            ffi::NO_UNMANAGED => ConfigFault::NoUnmanaged,
            code => return HouseError::of_code(code),
        })
    }
}

impl fmt::Display for HouseError {
    fn fmt(&self, f: &mut fmt::Formatter<'_>) -> fmt::Result {
        f.write_str(match self {
            HouseError::Closed => "the house is closed",
            HouseError::Withdrawn => "the application was withdrawn",
            HouseError::TimedOut => "timed out",
            HouseError::WaitEnded => "another thread ended the wait",
            HouseError::Forked => "the house belongs to the process that forked",
            HouseError::AllTaken => "all numbers of applications, or of the application's threads, are taken",
            HouseError::Registered => "the thread is registered already, here or in another house that pins it",
            HouseError::NoLevel => "no such level",
            HouseError::TooManyCores => "more than 128 cores",
            HouseError::Name => "the name has a zero byte",
            HouseError::OutOfMemory => "out of memory",
            HouseError::Unpinned => "pinning was refused",
            HouseError::InHook => "a hook may not make this call",
            HouseError::TooLong => "the text is too long",
            HouseError::Config(fault) => return fault.fmt(f),
            HouseError::Limited => "the machine's text limits orders, and a house has no end",
            HouseError::NoThread => "no thread could be started",
            HouseError::NoProcessors => "this process's processors aren't told",
            HouseError::Journal => "the journal can't be written, or is incomplete",
            HouseError::JournalThere => "the folder has a journal already",
            HouseError::CoreTaken(core) => return write!(f, "another house of this process manages core {core}"),
            HouseError::OtherOptions => "this process's house has other options",
            HouseError::OtherVersion => "the library is of another version",
        })
    }
}

impl Error for HouseError {
    fn source(&self) -> Option<&(dyn Error + 'static)> {
        match self {
            HouseError::Config(fault) => Some(fault),
            _ => None,
        }
    }
}

/// The id of an application of a house. No other application of that house ever had it.
#[derive(Clone, Copy, Debug, PartialEq, Eq, PartialOrd, Ord, Hash)]
pub struct ApplicationId(pub(super) u64);

impl fmt::Display for ApplicationId {
    fn fmt(&self, f: &mut fmt::Formatter<'_>) -> fmt::Result {
        self.0.fmt(f)
    }
}

/// What happened to a thread of an application.
#[derive(Clone, Copy, Debug, PartialEq, Eq)]
#[non_exhaustive]
pub enum Event {
    /// It has a core, and is pinned to it.
    Got { application: ApplicationId, thread: u32, core: u16 },
    /// Its core is asked back.
    Asked { application: ApplicationId, thread: u32, core: u16 },
    /// It no longer has the core. If `moved`, it stayed longer than the grace, and the house moved it. Otherwise it
    /// gave the core back, left, or was ended.
    Lost { application: ApplicationId, thread: u32, core: u16, moved: bool },
    /// The operating system refused to pin or to unpin a thread, for the first time in this house.
    Refused,
    /// The number of cores due to the application has changed, to this.
    Due { application: ApplicationId, cores: u8 },
}

impl Event {
    pub(super) fn of_ffi(event: &ffi::Event) -> Option<Event> {
        let ffi::Event { application, kind, thread, core, moved, due } = *event;
        let application = ApplicationId(application);
        match kind {
            ffi::GOT => Some(Event::Got { application, thread, core }),
            ffi::ASKED => Some(Event::Asked { application, thread, core }),
            ffi::LOST => Some(Event::Lost { application, thread, core, moved }),
            ffi::REFUSED => Some(Event::Refused),
            ffi::DUE => Some(Event::Due { application, cores: due }),
            _ => None, // of a newer house
        }
    }
}

/// What an application has and wants.
#[derive(Clone, Copy, Debug, PartialEq, Eq)]
pub struct Counts {
    /// Cores due to it.
    pub due: u8,
    /// Cores that its threads have.
    pub owned: u8,
    /// Of these, those that are asked back.
    pub asked: u8,
    /// Threads that wait for a core.
    pub waiting: u8,
    /// Threads that are registered.
    pub threads: u8,
    /// How many cores of the request count at most; 128 if there is no cap.
    pub cap: u8,
    /// How many cores it wants at each level, not cut at the cap.
    pub request: [u8; LEVELS],
}

impl Counts {
    pub(super) fn of_ffi(counts: ffi::Counts) -> Counts {
        let ffi::Counts { due, owned, asked, waiting, threads, cap, request } = counts;
        Counts { due, owned, asked, waiting, threads, cap, request }
    }
}

/// A managed core, and the thread that has it.
#[derive(Clone, Copy, Debug, PartialEq, Eq)]
pub struct Owner {
    /// The number of the core in the operating system.
    pub core: u16,
    /// The number of its socket, in the order of the machine's text.
    pub socket: u8,
    /// The application that has it, and the number of the thread there. `None` if the core is free.
    pub thread: Option<(ApplicationId, u32)>,
    /// Whether the core is asked back.
    pub asked: bool,
}

impl Owner {
    pub(super) fn of_ffi(owner: &ffi::Owner) -> Owner {
        let ffi::Owner { application, thread, core, socket, asked } = *owner;
        let thread = (application != 0).then_some((ApplicationId(application), thread));
        Owner { core, socket, thread, asked }
    }
}

/// What a house is and has done.
#[derive(Debug)]
pub struct State {
    /// Orders that were given, ticks and refused ones included.
    pub orders: u64,
    /// Threads that stayed longer than the grace.
    pub moved: u64,
    /// The grace, in microseconds.
    pub grace: u64,
    /// Applications that have joined and weren't withdrawn.
    pub applications: u32,
    /// Threads that are registered.
    pub threads: u32,
    /// Managed cores.
    pub managed: u16,
    /// Sockets.
    pub sockets: u16,
    /// Why the operating system first refused to pin a thread.
    pub refused: Option<io::Error>,
    /// A text of the journal couldn't be written, and is incomplete.
    pub journal_failed: bool,
    /// Openers that haven't closed the house.
    pub opens: u32,
}

impl State {
    pub(super) fn of_ffi(state: ffi::State) -> State {
        State {
            orders: state.orders,
            moved: state.moved,
            grace: state.grace,
            applications: state.applications,
            threads: state.threads,
            managed: state.managed,
            sockets: state.sockets,
            refused: (state.refused != 0).then(|| io::Error::from_raw_os_error(state.refused)),
            journal_failed: state.journal_failed,
            opens: state.opens,
        }
    }
}
