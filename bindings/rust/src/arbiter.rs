//! An arbiter that threads share.

use crate::{Machine, ManagedCore, Member, MemberError, OpenError, Page, UnmanagedCore};
use std::fmt;
use std::sync::{Arc, Mutex, PoisonError};

/// The arbiter of one machine, which threads share without a lock, with the page that shows what it decides. Each thread
/// that gives orders has a [`Member`].
///
/// A dropped arbiter lives on in its members, and so does its page. It ends when the last member is dropped: each
/// thread is then on no core, and threads that sleep in [`Page::wait`] are woken.
#[must_use = "an arbiter that is dropped together with its members takes all threads off their cores"]
pub struct Arbiter {
    page: Arc<Page>,
    machine: Machine,
    managed: Vec<ManagedCore>,
    unmanaged: Vec<UnmanagedCore>,
    /// The first member, from which the others come. It gives no order.
    first: Mutex<Member>,
}

impl Arbiter {
    /// Opens the arbiter of the machine that a TOML text describes. No order has been given yet. The text:
    ///
    /// ```toml
    /// grace = 10000         # microseconds until a thread that keeps a core is moved, 1 to 1,000,000,000; or left out
    /// orders = 1000         # how many orders may be given, 1 to 1,000,000; or left out
    /// [[socket]]            # 1 to 8 of these
    /// managed = [1, 2, 3]   # cores that the arbiter hands out, 1 to 128 over all sockets
    /// unmanaged = [0]       # cores that the ordinary scheduler keeps, at least 1 over all sockets
    /// ```
    ///
    /// If `grace` is left out, it is as here; if `orders` is left out, there is no limit. A core's number is 0 to 1023,
    /// and stands once in all lists. A managed core's *position* is its index, from 0, in all managed lists joined in
    /// order.
    pub fn open(text: &str) -> Result<Arbiter, OpenError> {
        let mut first = Member::first(text)?;
        Ok(Arbiter {
            page: first.page(),
            machine: first.machine(),
            managed: (0..).map_while(|position| first.core_at(position)).collect(),
            unmanaged: (0..).map_while(|index| first.unmanaged_at(index)).collect(),
            first: Mutex::new(first),
        })
    }

    /// A member for a thread. Call this once for each thread, not for each order: all its calls share a lock.
    ///
    /// # Errors
    /// An allocation failed.
    pub fn member(&self) -> Result<Member, MemberError> {
        self.first.lock().unwrap_or_else(PoisonError::into_inner).another()
    }

    /// The page, which any thread reads without a lock. It stays readable after the arbiter and all its members are
    /// dropped: then no thread is on a core, and none waits.
    #[must_use]
    pub fn page(&self) -> Arc<Page> {
        Arc::clone(&self.page)
    }

    /// What the machine has.
    #[must_use]
    pub fn machine(&self) -> Machine {
        self.machine
    }

    /// The core at a position, or `None` if there is no such position.
    #[must_use]
    pub fn core_at(&self, position: u32) -> Option<ManagedCore> {
        self.managed.get(position as usize).copied()
    }

    /// The unmanaged core at an index from 0, or `None` past the last: sockets in the order of the text, in each the
    /// order of its list. The mask for threads without a core:
    ///
    /// ```
    /// # let arbiter = voldazpe::Arbiter::open("[[socket]]\nmanaged = [1]\nunmanaged = [4, 0]\n").unwrap();
    /// let unmanaged: Vec<u16> = (0..).map_while(|index| arbiter.unmanaged_at(index)).map(|core| core.number).collect();
    /// assert_eq!(unmanaged, [4, 0]);
    /// ```
    #[must_use]
    pub fn unmanaged_at(&self, index: u32) -> Option<UnmanagedCore> {
        self.unmanaged.get(index as usize).copied()
    }
}

impl fmt::Debug for Arbiter {
    fn fmt(&self, f: &mut fmt::Formatter<'_>) -> fmt::Result {
        f.debug_struct("Arbiter").finish_non_exhaustive()
    }
}
