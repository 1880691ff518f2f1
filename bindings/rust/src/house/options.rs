//! How a house is opened, and the hook that it is given.

use super::hook::{self, Hook};
use super::{ffi, Event, House, HouseError, Shared};
#[cfg(doc)]
use crate::{Arbiter, ConfigFault};
use std::ffi::CString;
use std::fmt;
use std::os::unix::ffi::OsStringExt;
use std::path::PathBuf;
use std::ptr::{self, NonNull};
use std::time::Duration;

/// The largest integer that a machine's text may have.
const MOST: u64 = i64::MAX as u64;

/// The options of a house.
#[derive(Default)]
#[must_use = "it opens no house by itself"]
pub struct Options {
    grace: Option<Duration>,
    unmanaged: u32,
    unpinned: bool,
    own: bool,
    hook: Option<Hook>,
    journal_folder: Option<PathBuf>,
}

impl Options {
    /// The default options.
    pub fn new() -> Options {
        Options::default()
    }

    /// After what time a thread is moved from a core that is asked back, in whole microseconds, at least one. More than
    /// 1000 seconds are refused as [`ConfigFault::OutOfRange`]. The grace is 10 ms if it is set neither here nor in the
    /// machine's text. If it is set in both, the text is refused as [`ConfigFault::NotToml`].
    pub fn grace(self, grace: Duration) -> Options {
        Options { grace: Some(grace), ..self }
    }

    /// How many cores of the first socket stay unmanaged in a house of this process's own processors. One by default,
    /// or if this is 0.
    pub fn unmanaged(self, cores: u32) -> Options {
        Options { unmanaged: cores, ..self }
    }

    /// No thread is ever pinned or unpinned.
    pub fn unpinned(self) -> Options {
        Options { unpinned: true, ..self }
    }

    /// A house that no other opener shares: see [`Options::open_own`].
    pub fn own(self) -> Options {
        Options { own: true, ..self }
    }

    /// Sets a function that is told of events. Each event has its thread:
    ///
    /// - [`Event::Got`], and [`Event::Lost`] for a core given back: the thread itself, within [`Seat::wait`],
    ///   [`Seat::give_back`] or the end of the seat, which may be as the thread ends.
    /// - [`Event::Asked`]: the thread that asks, or the house's own thread.
    /// - [`Event::Lost`] for a thread that was moved: the house's own thread.
    /// - [`Event::Lost`] for a thread that was ended: the thread that closes or withdraws.
    /// - [`Event::Due`]: the thread that wants, caps or withdraws.
    ///
    /// So two calls may overlap, and a call may come late. The hook must not take a lock that the program holds around
    /// a call. It is told of all applications, and is dropped at the last close of the house, whichever opener makes
    /// that. For a hook of one application, use [`Application::watch`](super::Application::watch).
    ///
    /// The hook may make any call of a house except [`House::close`] and [`Application::register`]. If a [`Seat`] is
    /// dropped in the hook, its thread leaves as soon as the call that told the hook returns. A hook that panics aborts
    /// the process: a panic can't go on through the house's frames.
    ///
    /// [`Application::register`]: super::Application::register
    /// [`Seat`]: super::Seat
    /// [`Seat::wait`]: super::Seat::wait
    /// [`Seat::give_back`]: super::Seat::give_back
    pub fn hook(self, hook: impl Fn(&Event) + Send + Sync + 'static) -> Options {
        Options { hook: Some(Box::new(hook)), ..self }
    }

    /// Writes a journal into a folder that exists and has none. The journal is `machine.toml`; the orders, in pieces
    /// `00000000.script` and so on; and the replies, in pieces `00000000.replies` and so on. No piece has more than 16
    /// MiB. All pieces together are what `arbiter live --endless` reads and prints. They are complete once the house is
    /// closed; if they aren't, [`House::close`](crate::House::close) says so.
    pub fn journal(self, folder: impl Into<PathBuf>) -> Options {
        Options { journal_folder: Some(folder.into()), ..self }
    }

    /// Opens a house of the machine that a text describes, as [`Arbiter::open`] takes it, and starts its own thread. A text
    /// that has `orders` is refused as [`HouseError::Limited`].
    ///
    /// A thread without a core runs on processors that the calling thread may use: on those that the text lists as
    /// unmanaged. If there are none, it runs on those that aren't managed, otherwise on all.
    pub fn open(self, text: &str) -> Result<House, HouseError> {
        self.open_machine(Some(text))
    }

    /// Opens the house of the processors that the calling thread may use, and starts its own thread.
    ///
    /// A process has one such house. If it is open, this returns the same one; the last of its openers' closes closes
    /// it. Each option that you set must equal the house's own, otherwise this is [`HouseError::OtherOptions`]. A hook
    /// or a journal of your own never does: for a hook, use [`Application::watch`](super::Application::watch).
    /// [`Options::own`] asks for a separate house. Two houses that pin threads have no core in common: the later one is
    /// [`HouseError::CoreTaken`].
    ///
    /// What the machine is:
    ///
    /// - Of each core only the hardware thread with the least number is used. No thread is pinned to another one.
    /// - Up to 128 cores on up to 8 sockets are managed.
    /// - The first core stays unmanaged, or as many cores of the first socket as [`Options::unmanaged`] says. At least
    ///   one core is managed.
    /// - If there is no second core, hardware threads count as cores.
    /// - If there is one processor only, it is managed, and the house's own thread shares it.
    pub fn open_own(self) -> Result<House, HouseError> {
        self.open_machine(None)
    }

    fn open_machine(self, text: Option<&str>) -> Result<House, HouseError> {
        let folder = match self.journal_folder {
            None => None,
            Some(folder) => Some(CString::new(folder.into_os_string().into_vec()).map_err(|_| HouseError::Journal)?),
        };
        // the text of a machine has no larger number
        let microseconds =
            |grace: Duration| u64::try_from(grace.as_micros()).map_or(MOST, |grace| grace.clamp(1, MOST));
        let hook = self.hook.map_or(ptr::null_mut(), hook::handed);
        let mut named = 0;
        let options = ffi::Options {
            grace: self.grace.map_or(0, microseconds),
            unmanaged: self.unmanaged,
            unpinned: self.unpinned,
            own: self.own,
            hook: (!hook.is_null()).then_some(hook::call as ffi::Hook),
            hook_context: hook.cast(),
            done: (!hook.is_null()).then_some(hook::done as ffi::Done),
            journal_folder: folder.as_ref().map_or(ptr::null(), |folder| folder.as_ptr()),
            named: &mut named,
            ..ffi::Options::USUAL
        };
        let (start, length) = text.map_or((ptr::null(), 0), |text| (text.as_ptr().cast(), text.len()));
        let mut house = ptr::null_mut();
        // SAFETY: the text is `length` bytes or null; the folder lives until this returns, and the hook until `done`.
        let code = unsafe { ffi::voldazpe_house_open_version(ffi::VERSION, start, length, &options, &mut house) };
        match NonNull::new(house) {
            Some(house) if code == ffi::OK => Ok(House::of(Shared::new(house))),
            _ => {
                if !hook.is_null() {
                    // SAFETY: no house has it.
                    unsafe { hook::done(hook.cast()) };
                }
                Err(HouseError::of_opening(code, named))
            }
        }
    }
}

impl fmt::Debug for Options {
    fn fmt(&self, f: &mut fmt::Formatter<'_>) -> fmt::Result {
        let Options { grace, unmanaged, unpinned, own, journal_folder, .. } = self;
        let mut shown = f.debug_struct("Options");
        shown.field("grace", grace).field("unmanaged", unmanaged).field("unpinned", unpinned).field("own", own);
        shown.field("journal_folder", journal_folder).finish_non_exhaustive()
    }
}
