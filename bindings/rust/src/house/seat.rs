//! Threads of an application.

use super::{answer, ffi, HouseError};
use std::cell::RefCell;
use std::ptr::NonNull;
use std::sync::atomic::Ordering;
use std::time::Duration;

/// A thread's registration, which stays with that thread. When it is dropped, even by a panic that unwinds, the thread
/// leaves: it gives back what it has, and may run where it might before it registered. A seat may outlive its
/// application and its house.
///
/// In a hook no thread leaves. A thread whose seat is dropped there leaves as soon as the call that told the hook
/// returns.
///
/// ```compile_fail,E0277
/// fn stays(seat: voldazpe::house::Seat) {
///     std::thread::spawn(move || seat.keep());
/// }
/// ```
#[derive(Debug)]
pub struct Seat {
    thread: NonNull<ffi::Thread>, // which makes a seat neither `Send` nor `Sync`
}

impl Seat {
    pub(super) fn of(thread: NonNull<ffi::Thread>) -> Seat {
        Seat { thread }
    }

    #[inline]
    fn word(&self) -> i32 {
        // SAFETY: the handle is valid until the thread leaves, which is when the seat is dropped.
        unsafe { self.thread.as_ref() }.word.load(Ordering::SeqCst)
    }

    /// Whether the thread has a core that it may keep, by one load. A thread on a core asks between two tasks. False
    /// means that the core is asked back, or lost: the thread then calls [`Seat::wait`], or gives back what it has.
    /// False becomes true again if the core is no longer wanted back.
    #[inline]
    #[must_use]
    pub fn keep(&self) -> bool {
        self.word() >= 0
    }

    /// The number of the core that the thread has, even while it is asked back. One load.
    #[inline]
    #[must_use]
    pub fn core(&self) -> Option<u16> {
        match self.word() {
            word if word >= 0 => Some(word as u16),
            word if word < -65536 => Some(word.wrapping_sub(i32::MIN) as u16),
            _ => None,
        }
    }

    /// The number of the thread in its application, 0 to 31.
    pub fn number(&self) -> u32 {
        // SAFETY: as for the word; the number doesn't change.
        unsafe { self.thread.as_ref() }.number
    }

    /// Sleeps until the thread has a core, or until the limit is over; `None` is no limit. The thread is pinned to the
    /// core when this returns. If it has a core that it may keep, this returns at once, at the cost of a load. If its
    /// core is asked back, the thread gives it back first and waits for another: one order. The new core may be asked
    /// back again at once.
    ///
    /// # Errors
    /// Closed, Withdrawn, TimedOut, WaitEnded, Forked. The thread has no core then, and waits for none.
    #[inline]
    pub fn wait(&self, limit: Option<Duration>) -> Result<(), HouseError> {
        if self.keep() {
            return Ok(());
        }
        let nanoseconds = limit.map_or(-1, |limit| i64::try_from(limit.as_nanos()).unwrap_or(i64::MAX));
        // SAFETY: the handle is this thread's.
        let code = unsafe { ffi::voldazpe_house_wait(self.thread.as_ptr(), nanoseconds) };
        leave_dropped();
        answer(code)
    }

    /// Gives back the core of a thread that has no work. The thread is unpinned first, to the unmanaged cores, and
    /// waits for no core until it calls [`Seat::wait`]. A thread without a core is left as it is.
    ///
    /// # Errors
    /// Closed, Withdrawn, Forked. In any case the thread has no core afterwards.
    pub fn give_back(&self) -> Result<(), HouseError> {
        // SAFETY: the handle is this thread's.
        let code = unsafe { ffi::voldazpe_house_give_back(self.thread.as_ptr()) };
        leave_dropped();
        answer(code)
    }

    /// The thread leaves, as by dropping the seat.
    pub fn leave(self) {}
}

impl Drop for Seat {
    fn drop(&mut self) {
        if !leave(self.thread) {
            // if this thread's list is gone already, the house ends the registration when the thread ends
            let _ = DROPPED.try_with(|dropped| dropped.borrow_mut().push(self.thread));
        }
        leave_dropped();
    }
}

thread_local! {
    /// The registrations of this thread whose seats were dropped in a hook.
    static DROPPED: RefCell<Vec<NonNull<ffi::Thread>>> = const { RefCell::new(Vec::new()) };
}

/// The thread leaves; false in a hook, where nothing is done.
fn leave(thread: NonNull<ffi::Thread>) -> bool {
    // SAFETY: the handle is this thread's, and isn't used any more once this is true.
    let code = unsafe { ffi::voldazpe_house_leave(thread.as_ptr()) };
    debug_assert!(code == ffi::OK || code == ffi::FORKED || code == ffi::IN_HOOK, "{code}");
    code != ffi::IN_HOOK
}

/// Called after a call that may have told a hook: the thread leaves where seats were dropped there, unless this is in a
/// hook too.
pub(super) fn leave_dropped() {
    let _ = DROPPED.try_with(|dropped| loop {
        let last = dropped.borrow_mut().pop(); // a hook that is told of the leaving may drop another seat
        let Some(thread) = last else { break };
        if !leave(thread) {
            dropped.borrow_mut().push(thread);
            break;
        }
    });
}
