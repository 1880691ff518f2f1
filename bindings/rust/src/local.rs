//! An arbiter for one thread at a time.

use crate::{
    ffi, Client, Counts, GiveError, Machine, ManagedCore, OpenError, Order, Page, Place, Reply, Request, Thread,
    UnmanagedCore,
};
use std::sync::Arc;
use std::{fmt, mem};

/// An arbiter for a single-threaded program, or for one that has a lock of its own, with the page that shows what the
/// arbiter decides. If several threads give orders, use [`Arbiter`](crate::Arbiter), which needs no lock.
///
/// It may go to another thread. Calls take `&mut`, so they come one at a time.
///
/// ```
/// use voldazpe::{LocalArbiter, Order, Place, Reply, Request, Thread};
///
/// let mut arbiter = LocalArbiter::open("[[socket]]\nmanaged = [1, 2]\nunmanaged = [0]\n")?;
/// let me = Thread::new(0, 3).unwrap();
/// arbiter.give(me, Order::Join)?;
/// arbiter.give(me, Order::Ask(Request::at(0, 1).unwrap()))?;
/// assert_eq!(arbiter.give(me, Order::Block)?, Reply::Now(Place::On { core: 1, asked: false }));
/// assert_eq!(arbiter.page().must_release(me), Some(false));
/// # Ok::<(), Box<dyn std::error::Error>>(())
/// ```
#[must_use = "an arbiter that is dropped takes all threads off their cores"]
pub struct LocalArbiter {
    handle: ffi::Handle,
    page: Arc<Page>,
}

// SAFETY: what the handle owns may go to another thread, which the library proves of it (`Send` of `Held`).
unsafe impl Send for LocalArbiter {}

impl LocalArbiter {
    /// Opens the arbiter of the machine that a text describes, as [`Arbiter::open`](crate::Arbiter::open) takes it. No
    /// order has been given yet.
    pub fn open(text: &str) -> Result<LocalArbiter, OpenError> {
        Ok(LocalArbiter { handle: open_handle(text)?, page: Arc::new(Page::new()) })
    }

    /// Opens another arbiter in place of this one, with the same page: for another machine, or to begin anew. No order
    /// has been given to it. No application has joined it, each thread is on no core, and threads that sleep in
    /// [`Page::wait`] are woken. With a different text, the positions of cores may be different.
    ///
    /// # Errors
    /// Those of [`LocalArbiter::open`]. Nothing has changed then.
    pub fn reopen(&mut self, text: &str) -> Result<(), OpenError> {
        let mut former = mem::replace(&mut self.handle, open_handle(text)?);
        self.page.clear();
        self.page.store(0, 0);
        close_handle(&mut former);
        Ok(())
    }

    /// The page, which any thread reads without a lock. It stays readable after the arbiter is dropped: then no thread
    /// is on a core, and none waits.
    #[must_use]
    pub fn page(&self) -> Arc<Page> {
        Arc::clone(&self.page)
    }

    /// Gives an order, and posts what it changes to the page. Threads that sleep in [`Page::wait`] are woken when
    /// they no longer wait for a core.
    ///
    /// # Errors
    /// The limit on orders is reached. Only a machine whose text states `orders` has one.
    pub fn give(&mut self, client: impl Into<Client>, order: Order) -> Result<Reply, GiveError> {
        let mut reply = ffi::Reply::default();
        let order = order.to_ffi();
        // SAFETY: the handle is open, and nothing else has it.
        let code = unsafe { ffi::voldazpe_lib_step(&mut self.handle, client.into().number(), &order, &mut reply) };
        match code {
            ffi::OK => {}
            ffi::FULL => return Err(GiveError::Full),
            code => unreachable!("an order of a client, with no word stale, was answered {code}"),
        }
        let count = self.posted(0);
        self.page.store(0, count);
        let mut post = ffi::Post::default();
        // SAFETY: as above.
        while unsafe { ffi::voldazpe_lib_post(&mut self.handle, &mut post) } == ffi::OK {
            self.page.store(post.word as usize, post.value);
        }
        Ok(Reply::of_ffi(&reply))
    }

    /// The value that a page word had when it was last posted.
    fn posted(&mut self, word: u32) -> u64 {
        let mut value = 0;
        // SAFETY: the handle is open, and nothing else has it.
        let code = unsafe { ffi::voldazpe_lib_posted(&mut self.handle, word, &mut value) };
        assert_eq!(code, ffi::OK);
        value
    }

    /// Where a thread is.
    #[must_use]
    pub fn place(&mut self, thread: Thread) -> Place {
        let mut place = ffi::Place::default();
        // SAFETY: the handle is open, and nothing else has it.
        let code = unsafe { ffi::voldazpe_lib_place(&mut self.handle, thread.number(), &mut place) };
        assert_eq!(code, ffi::OK);
        Place::of_ffi(&place)
    }

    /// The thread that is on the core with this number, or `None` if the core is free or not managed.
    #[must_use]
    pub fn owner(&mut self, core: u16) -> Option<Thread> {
        let mut thread = 0;
        // SAFETY: the handle is open, and nothing else has it.
        let code = unsafe { ffi::voldazpe_lib_owner(&mut self.handle, core, &mut thread) };
        (code == ffi::OK).then(|| Thread::of_number(thread))
    }

    /// What an application has. This is no order. `None` if the application isn't below
    /// [`APPLICATIONS`](crate::APPLICATIONS).
    #[must_use]
    pub fn counts(&mut self, application: u8) -> Option<Counts> {
        let mut counts = ffi::Counts::default();
        // SAFETY: the handle is open, and nothing else has it.
        let code = unsafe { ffi::voldazpe_lib_counts(&mut self.handle, application.into(), &mut counts) };
        let ffi::Counts { due, owned, asked, waiting } = counts;
        (code == ffi::OK).then_some(Counts { due, owned, asked, waiting })
    }

    /// What an application asks for, as far as it counts: its last ask, cut at its cap if it has one. `None` if it
    /// hasn't joined, has left, or isn't below [`APPLICATIONS`](crate::APPLICATIONS).
    #[must_use]
    pub fn request(&mut self, application: u8) -> Option<Request> {
        let mut request = ffi::Request::default();
        // SAFETY: the handle is open, and nothing else has it.
        let code = unsafe { ffi::voldazpe_lib_requested(&mut self.handle, application.into(), &mut request) };
        (code == ffi::OK).then_some(Request::of_ffi(&request))
    }

    /// How many orders of a client were given, refused ones included.
    #[must_use]
    pub fn count(&mut self, client: impl Into<Client>) -> u64 {
        let mut count = 0;
        // SAFETY: the handle is open, and nothing else has it.
        let code = unsafe { ffi::voldazpe_lib_count(&mut self.handle, client.into().number(), &mut count) };
        assert_eq!(code, ffi::OK);
        count
    }

    /// How many orders were given, refused ones included.
    #[must_use]
    pub fn orders(&mut self) -> u64 {
        let mut count = 0;
        // SAFETY: the handle is open, and nothing else has it.
        let code = unsafe { ffi::voldazpe_lib_orders(&mut self.handle, &mut count) };
        assert_eq!(code, ffi::OK);
        count
    }

    /// The latest moment of a tick, in microseconds; 0 before the first.
    #[must_use]
    pub fn clock(&mut self) -> u64 {
        let mut moment = 0;
        // SAFETY: the handle is open, and nothing else has it.
        let code = unsafe { ffi::voldazpe_lib_clock(&mut self.handle, &mut moment) };
        assert_eq!(code, ffi::OK);
        moment
    }

    /// What the machine has.
    #[must_use]
    pub fn machine(&mut self) -> Machine {
        let mut machine = ffi::Machine::default();
        // SAFETY: the handle is open, and nothing else has it.
        let code = unsafe { ffi::voldazpe_lib_machine(&mut self.handle, &mut machine) };
        assert_eq!(code, ffi::OK);
        Machine::of_ffi(&machine)
    }

    /// The core at a position, or `None` if there is no such position.
    #[must_use]
    pub fn core_at(&mut self, position: u32) -> Option<ManagedCore> {
        let mut core = ffi::Core::default();
        // SAFETY: the handle is open, and nothing else has it.
        let code = unsafe { ffi::voldazpe_lib_core_at(&mut self.handle, position, &mut core) };
        let ffi::Core { number, socket } = core;
        (code == ffi::OK).then_some(ManagedCore { number, socket })
    }

    /// The unmanaged core at an index from 0, or `None` past the last: sockets in the order of the text, in each the
    /// order of its list. The mask for threads without a core:
    ///
    /// ```
    /// # let mut arbiter = voldazpe::LocalArbiter::open("[[socket]]\nmanaged = [1]\nunmanaged = [4, 0]\n").unwrap();
    /// let unmanaged: Vec<u16> = (0..).map_while(|index| arbiter.unmanaged_at(index)).map(|core| core.number).collect();
    /// assert_eq!(unmanaged, [4, 0]);
    /// ```
    #[must_use]
    pub fn unmanaged_at(&mut self, index: u32) -> Option<UnmanagedCore> {
        let mut core = ffi::Core::default();
        // SAFETY: the handle is open, and nothing else has it.
        let code = unsafe { ffi::voldazpe_lib_unmanaged_at(&mut self.handle, index, &mut core) };
        let ffi::Core { number, socket } = core;
        (code == ffi::OK).then_some(UnmanagedCore { number, socket })
    }
}

/// Closes the arbiter. Each thread is on no core then, and threads that sleep in [`Page::wait`] are woken.
impl Drop for LocalArbiter {
    fn drop(&mut self) {
        self.page.clear();
        close_handle(&mut self.handle);
    }
}

/// Opens a handle on the arbiter of the machine that a text describes.
fn open_handle(text: &str) -> Result<ffi::Handle, OpenError> {
    let mut handle = ffi::Handle::CLOSED;
    let mut named = 0;
    // SAFETY: the handle is zero bytes, which is a closed one, and the text is `text.len()` bytes.
    let code = unsafe { ffi::voldazpe_lib_open(&mut handle, text.as_ptr(), text.len(), &mut named) };
    OpenError::of_code(code, named).map_or(Ok(handle), Err) // the library keeps no address of the handle, so it may be moved
}

/// Closes an open handle.
fn close_handle(handle: &mut ffi::Handle) {
    // SAFETY: the handle is open, and nothing else has it.
    let code = unsafe { ffi::voldazpe_lib_close(handle) };
    debug_assert_eq!(code, ffi::OK);
}

impl fmt::Debug for LocalArbiter {
    fn fmt(&self, f: &mut fmt::Formatter<'_>) -> fmt::Result {
        f.debug_struct("LocalArbiter").finish_non_exhaustive()
    }
}
