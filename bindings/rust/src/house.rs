//! A house over the arbiter: threads wait for a core, work while they may, and give it back.
//!
//! The arbiter decides which thread is on which core. A house does the rest: it locks the arbiter, keeps the clock,
//! pins and unpins threads, and moves threads that stay too long. It takes orders without limit. It needs Linux. Your
//! runtime does this:
//!
//! ```
//! use std::sync::atomic::{AtomicU32, Ordering};
//! use std::thread;
//! use voldazpe::House;
//!
//! let tasks = AtomicU32::new(1000);
//! let run_a_task = || tasks.fetch_sub(1, Ordering::SeqCst) > 1;
//!
//! let house = House::open_own()?; // this process's own processors
//! let service = house.join("service")?;
//! service.want(0, 2)?; // two cores at level 0: any thread says so, at any time
//! thread::scope(|scope| {
//!     scope.spawn(|| {
//!         let seat = service.register()?; // each thread for itself
//!         while seat.wait(None).is_ok() {
//!             // it has a core now, and is pinned to it
//!             while seat.keep() {
//!                 // one load between two tasks
//!                 if !run_a_task() {
//!                     return seat.give_back();
//!                 }
//!             }
//!         } // asked back: the next wait gives it back first
//!         Ok::<(), voldazpe::HouseError>(())
//!     });
//! });
//! assert_eq!(tasks.into_inner(), 0);
//! # Ok::<(), voldazpe::HouseError>(())
//! ```
//!
//! Words. A house has up to sixteen *applications* at a time, each with up to 32 *threads*. It hands out *managed*
//! cores. From its registration until it leaves, a thread without a core runs on the *unmanaged* ones. A core that is
//! due to another application is *asked back*. A thread that keeps such a core for the *grace*, 10 ms by default, is
//! *moved*: the house unpins it, and it no longer has a core.
//!
//! Threads and programs that a thread starts while it has a core are pinned to that core. Such a thread is unpinned
//! when it registers. No call needs more than 16 KB of stack. After a fork, the child's calls on what its parent opened
//! answer [`HouseError::Forked`]. A Rust thread must not be ended by C's `pthread_cancel`.
//!
//! This is `include/voldazpe_house.h` in Rust. The package has it if `libvoldazpe_house.a` is beside `libvoldazpe.a`
//! when it is built, unless its feature `house` is turned off.

mod application;
mod ffi;
mod hook;
mod options;
mod seat;
mod values;

pub use application::Application;
pub use options::Options;
pub use seat::Seat;
pub use values::{ApplicationId, Counts, Event, HouseError, Owner, State};

use crate::CORES;
use std::ffi::CString;
use std::fmt;
use std::ptr::NonNull;
use std::sync::atomic::{AtomicBool, Ordering};
use std::sync::Arc;

fn answer(code: u32) -> Result<(), HouseError> {
    match code {
        ffi::OK => Ok(()),
        code => Err(HouseError::of_code(code)),
    }
}

/// What a house and its applications share. It holds the house, so that its pointer may be used after the close.
struct Shared {
    house: NonNull<ffi::House>,
}

// SAFETY: the house's calls may come from any thread.
unsafe impl Send for Shared {}
// SAFETY: as above.
unsafe impl Sync for Shared {}

impl Shared {
    fn new(house: NonNull<ffi::House>) -> Shared {
        // SAFETY: the house is open.
        unsafe { ffi::voldazpe_house_hold(house.as_ptr()) };
        Shared { house }
    }

    /// Makes a call with the house's pointer, which is held.
    fn call(&self, call: impl FnOnce(*mut ffi::House) -> u32) -> Result<(), HouseError> {
        let code = call(self.house.as_ptr());
        seat::leave_dropped();
        answer(code)
    }
}

impl Drop for Shared {
    fn drop(&mut self) {
        // SAFETY: it was held once, and isn't used any more.
        unsafe { ffi::voldazpe_house_let_go(self.house.as_ptr()) };
    }
}

/// One opener's house. It is closed when it is dropped; a house that is dropped in a hook stays open.
pub struct House {
    shared: Arc<Shared>,
    closed: AtomicBool, // by this opener
}

impl House {
    fn of(shared: Shared) -> House {
        House { shared: Arc::new(shared), closed: AtomicBool::new(false) }
    }

    /// Opens a house of the machine that a text describes, with the default options: see [`Options::open`].
    pub fn open(text: &str) -> Result<House, HouseError> {
        Options::new().open(text)
    }

    /// Opens a house of this process's own processors, with the default options: see [`Options::open_own`].
    pub fn open_own() -> Result<House, HouseError> {
        Options::new().open_own()
    }

    /// Closes the house, from any thread, whatever the other threads do. Each [`Seat::wait`] returns
    /// [`HouseError::Closed`], [`Seat::keep`] returns false, and all threads may run where they might before they
    /// registered. The close doesn't wait for threads that work. Once it returns, the house's own thread has ended, the
    /// journal is written, and no hook is called any more. If another opener shares the house, the house goes on, and
    /// all of this comes with the last close: drop your applications before your close.
    ///
    /// # Errors
    /// Closed, Forked, InHook. Journal if the house is closed but its journal is incomplete.
    pub fn close(&self) -> Result<(), HouseError> {
        if self.closed.swap(true, Ordering::SeqCst) {
            return Err(HouseError::Closed);
        }
        // SAFETY: the pointer is a held house's.
        let closed = self.shared.call(|house| unsafe { ffi::voldazpe_house_close(house) });
        if closed == Err(HouseError::InHook) {
            self.closed.store(false, Ordering::SeqCst);
        }
        closed
    }

    /// Adds an application, with a name. It wants no core at first, and has no cap.
    ///
    /// # Errors
    /// Closed, Forked, AllTaken, OutOfMemory, Name.
    pub fn join(&self, name: &str) -> Result<Application, HouseError> {
        let c_name = CString::new(name).map_err(|_| HouseError::Name)?;
        let mut id = 0;
        // SAFETY: the name ends in a zero byte.
        self.shared.call(|house| unsafe { ffi::voldazpe_house_join(house, c_name.as_ptr(), &mut id) })?;
        Ok(Application::new(Arc::clone(&self.shared), ApplicationId(id), name))
    }

    /// The managed cores and the thread that has each, in the order of their positions and all as of one moment. No
    /// order is given.
    ///
    /// # Errors
    /// Closed, Forked.
    pub fn owners(&self) -> Result<Vec<Owner>, HouseError> {
        let mut owners = [ffi::Owner::default(); CORES as usize];
        let (room, mut count) = (owners.len(), 0);
        let to = owners.as_mut_ptr();
        // SAFETY: there is so much room.
        self.shared.call(|house| unsafe { ffi::voldazpe_house_owners(house, to, room, &mut count) })?;
        Ok(owners[..count.min(room)].iter().map(Owner::of_ffi).collect())
    }

    /// What the house is and has done. No order is given.
    ///
    /// # Errors
    /// Closed, Forked.
    pub fn state(&self) -> Result<State, HouseError> {
        let mut state = ffi::State::default();
        // SAFETY: the state is writable.
        self.shared.call(|house| unsafe { ffi::voldazpe_house_state(house, &mut state) })?;
        Ok(State::of_ffi(state))
    }

    /// Whether threads are pinned: Unpinned once the operating system has refused a pinning. The house goes on then. It
    /// tries each pinning anew, and lets a thread that can't be pinned run on all processors that it may use.
    ///
    /// # Errors
    /// Unpinned, Closed, Forked.
    pub fn affinity(&self) -> Result<(), HouseError> {
        // SAFETY: the pointer is a held house's.
        self.shared.call(|house| unsafe { ffi::voldazpe_house_affinity(house) })
    }
}

impl Drop for House {
    fn drop(&mut self) {
        let _ = self.close(); // it may be closed already
    }
}

impl fmt::Debug for House {
    fn fmt(&self, f: &mut fmt::Formatter<'_>) -> fmt::Result {
        f.debug_struct("House").finish_non_exhaustive()
    }
}
