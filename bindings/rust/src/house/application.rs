//! Applications of a house.

#[cfg(doc)]
use super::Options;
use super::{ffi, hook, ApplicationId, Counts, Event, HouseError, Seat, Shared};
use crate::LEVELS;
use std::fmt;
use std::ptr::{self, NonNull};
use std::sync::Arc;

/// An application of a house. It is withdrawn when it is dropped. To share it among threads that outlive a scope, put it
/// into an `Arc`.
pub struct Application {
    shared: Arc<Shared>,
    id: ApplicationId,
    name: String,
}

impl Application {
    pub(super) fn new(shared: Arc<Shared>, id: ApplicationId, name: &str) -> Application {
        Application { shared, id, name: name.to_owned() }
    }

    /// Its id, as in [`Event`] and [`Owner`](super::Owner).
    pub fn id(&self) -> ApplicationId {
        self.id
    }

    /// The name that it joined with.
    pub fn name(&self) -> &str {
        &self.name
    }

    /// Ends the application and the registrations of its threads: each [`Seat::wait`] returns
    /// [`HouseError::Withdrawn`], [`Seat::keep`] returns false, and the threads may run where they might before they
    /// registered.
    ///
    /// # Errors
    /// Withdrawn, Closed, Forked.
    pub fn withdraw(&self) -> Result<(), HouseError> {
        // SAFETY: the pointer is a held house's.
        self.shared.call(|house| unsafe { ffi::voldazpe_house_withdraw(house, self.id.0) })
    }

    /// Sets how many cores, 0 to 128, the application wants at one level, 0 to 7. It wants none at the others. Level 0
    /// is served first. This replaces what the application wanted before. Ask for no more cores than there are threads
    /// to use them. Wanting the same again costs no order.
    ///
    /// # Errors
    /// NoLevel, TooManyCores, Withdrawn, Closed, Forked.
    pub fn want(&self, level: u32, cores: u32) -> Result<(), HouseError> {
        // SAFETY: the pointer is a held house's.
        self.shared.call(|house| unsafe { ffi::voldazpe_house_want(house, self.id.0, level, cores) })
    }

    /// Sets how many cores the application wants at all eight levels, as [`Application::want`] does at one. Each entry
    /// is in addition to those at the levels before.
    ///
    /// # Errors
    /// TooManyCores, Withdrawn, Closed, Forked.
    pub fn want_at_levels(&self, cores: [u8; LEVELS]) -> Result<(), HouseError> {
        // SAFETY: there are eight entries.
        self.shared.call(|house| unsafe { ffi::voldazpe_house_want_at_levels(house, self.id.0, cores.as_ptr()) })
    }

    /// Caps the application at 0 to 128 cores, until another cap is given. What it wants beyond the cap doesn't count;
    /// level 0 counts first.
    ///
    /// # Errors
    /// TooManyCores, Withdrawn, Closed, Forked.
    pub fn cap(&self, cores: u32) -> Result<(), HouseError> {
        // SAFETY: the pointer is a held house's.
        self.shared.call(|house| unsafe { ffi::voldazpe_house_cap(house, self.id.0, cores) })
    }

    /// Sets a function that is told of this application's events and of no other's, besides [`Options::hook`]. What is
    /// said there of a hook holds for it too. It replaces the function before, and is dropped once it isn't called any
    /// more. It isn't told what is due already: [`Application::counts`] tells that.
    ///
    /// # Errors
    /// Withdrawn, Closed, Forked, OutOfMemory. The function is dropped then.
    pub fn watch(&self, hook: impl Fn(&Event) + Send + Sync + 'static) -> Result<(), HouseError> {
        let hook = hook::handed(Box::new(hook));
        // SAFETY: the hook lives until `done`.
        let watched = self.shared.call(|house| unsafe {
            ffi::voldazpe_house_watch(house, self.id.0, Some(hook::call), hook.cast(), Some(hook::done))
        });
        if watched.is_err() {
            // SAFETY: no house has it.
            unsafe { hook::done(hook.cast()) };
        }
        watched
    }

    /// Removes the function that [`Application::watch`] set.
    ///
    /// # Errors
    /// Withdrawn, Closed, Forked.
    pub fn unwatch(&self) -> Result<(), HouseError> {
        // SAFETY: there is no function.
        self.shared.call(|house| unsafe { ffi::voldazpe_house_watch(house, self.id.0, None, ptr::null_mut(), None) })
    }

    /// Ends the wait of a thread, by its number: its [`Seat::wait`] returns [`HouseError::WaitEnded`]. If the thread
    /// isn't in a wait, this ends its next wait that finds no core. If no thread has the number, nothing is done.
    ///
    /// # Errors
    /// Withdrawn, Closed, Forked.
    pub fn end_wait(&self, thread: u32) -> Result<(), HouseError> {
        // SAFETY: the pointer is a held house's.
        self.shared.call(|house| unsafe { ffi::voldazpe_house_end_wait(house, self.id.0, thread) })
    }

    /// Ends the waits of all threads of the application, as [`Application::end_wait`] does for one. A pool shuts down
    /// like this: it sets a flag, then ends all waits, and each of its threads sees the flag.
    ///
    /// # Errors
    /// Withdrawn, Closed, Forked.
    pub fn end_waits(&self) -> Result<(), HouseError> {
        self.end_wait(ffi::ALL)
    }

    /// What the application has and wants. No order is given.
    ///
    /// # Errors
    /// Withdrawn, Closed, Forked.
    pub fn counts(&self) -> Result<Counts, HouseError> {
        let mut counts = ffi::Counts::default();
        // SAFETY: the counts are writable.
        self.shared.call(|house| unsafe { ffi::voldazpe_house_counts(house, self.id.0, &mut counts) })?;
        Ok(Counts::of_ffi(counts))
    }

    /// Registers the calling thread. It has no core at first, and is unpinned to the unmanaged cores. It may be
    /// registered in several houses, but once in each, and in one only that pins threads.
    ///
    /// # Errors
    /// Registered, AllTaken, Withdrawn, Closed, Forked, OutOfMemory. InHook in a hook, where a thread can neither wait
    /// nor leave.
    pub fn register(&self) -> Result<Seat, HouseError> {
        let mut thread = ptr::null_mut();
        // SAFETY: the pointer is a held house's.
        self.shared.call(|house| unsafe { ffi::voldazpe_house_register(house, self.id.0, &mut thread) })?;
        Ok(Seat::of(NonNull::new(thread).expect("a registered thread has a handle")))
    }
}

impl Drop for Application {
    fn drop(&mut self) {
        let _ = self.withdraw(); // it may be withdrawn already
    }
}

impl fmt::Debug for Application {
    fn fmt(&self, f: &mut fmt::Formatter<'_>) -> fmt::Result {
        f.debug_struct("Application").field("id", &self.id).field("name", &self.name).finish_non_exhaustive()
    }
}
