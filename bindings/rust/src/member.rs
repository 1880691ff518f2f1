//! Members of an arbiter: one thread's side of it.

use crate::page::{self, Page, Word};
use crate::turn::Turn;
use crate::waiters::Waiters;
use crate::{
    ffi, Client, GiveError, Half, Machine, ManagedCore, MemberError, OpenError, Order, Reply, Thread, UnmanagedCore,
    APPLICATIONS,
};
use std::sync::Arc;
use std::{fmt, hint, mem};

/// How many times a member pauses before it sleeps, and how long its first and its longest pause are.
const TRIES: u32 = 16;
const FIRST_PAUSE: u32 = 8;
const LONGEST_PAUSE: u32 = 128;

/// What the members of an arbiter share.
struct Shared {
    page: Arc<Page>,
    waiters: Waiters,
}

/// The last member is closed. Nothing posts any more, so the page stays clear.
impl Drop for Shared {
    fn drop(&mut self) {
        self.page.clear();
    }
}

/// Threads that are woken when the member gives the arbiter back, one bit each. A thread that woke before that, on this
/// processor, would keep the arbiter taken.
type Wakes = [u64; page::ALL_THREADS.div_ceil(64)];

/// A member of an arbiter: one thread's side of it. Any member may give orders of any client.
///
/// A member may go to another thread, but calls take `&mut`, and it isn't `Sync`: give each thread its own, by
/// [`Arbiter::member`](crate::Arbiter::member) or [`Member::another`]. A member that is dropped gives no order: threads
/// stay where they are. When the arbiter and all its members are dropped, each thread is on no core, and threads that
/// sleep in [`Page::wait`] are woken.
///
/// This is proved of the library: the orders and posts of all members are one growing history. Each reply, and each
/// word that the member itself reads ([`Member::place_word`] and its like), is the single-threaded arbiter's at a point
/// of that history. That point is never before one that the member had seen. The rest is trusted: the [`Page`], which
/// this package keeps as a copy of the library's words, and sleeping and waking.
///
/// ```compile_fail,E0277
/// fn is_sync<T: Sync>() {}
/// is_sync::<voldazpe::Member>();
/// ```
/// ```compile_fail,E0599
/// fn copied(member: voldazpe::Member) -> voldazpe::Member {
///     member.clone()
/// }
/// ```
#[must_use = "a member that is dropped closes"]
pub struct Member {
    handle: ffi::MemberHandle,
    shared: Arc<Shared>,
    wakes: Wakes,
}

// SAFETY: what the handle owns may go to another thread, which the library proves of it (`Send` of `HeldMember`).
unsafe impl Send for Member {}

impl Member {
    /// The first member of a new arbiter.
    pub(crate) fn first(text: &str) -> Result<Member, OpenError> {
        let mut handle = ffi::MemberHandle::CLOSED;
        let mut named = 0;
        // SAFETY: the handle is zero bytes, which is a closed one, and the text is `text.len()` bytes.
        let code = unsafe { ffi::voldazpe_lib_member_open(&mut handle, text.as_ptr(), text.len(), &mut named) };
        match OpenError::of_code(code, named) {
            Some(error) => Err(error),
            None => {
                Ok(Member::of(handle, Arc::new(Shared { page: Arc::new(Page::new()), waiters: Waiters::default() })))
            }
        }
    }

    /// The library keeps no address of the handle, so it may be moved.
    fn of(handle: ffi::MemberHandle, shared: Arc<Shared>) -> Member {
        Member { handle, shared, wakes: Wakes::default() }
    }

    /// One more member of the arbiter, for another thread. It has seen what this member has seen.
    ///
    /// # Errors
    /// An allocation failed, or this member is in a turn that was forgotten.
    pub fn another(&mut self) -> Result<Member, MemberError> {
        let mut handle = ffi::MemberHandle::CLOSED;
        // SAFETY: this member's handle is open and nothing else has it; the other is zero bytes, which is a closed one.
        match unsafe { ffi::voldazpe_lib_member_another(&mut self.handle, &mut handle) } {
            ffi::OK => Ok(Member::of(handle, Arc::clone(&self.shared))),
            ffi::OUT_OF_MEMORY => Err(MemberError::OutOfMemory),
            ffi::IN_TURN => Err(MemberError::InTurn),
            code => unreachable!("an open member and a closed one were answered {code}"),
        }
    }

    /// The page of the arbiter, which any thread reads without a lock. It stays readable after the arbiter and all its
    /// members are dropped: then no thread is on a core, and none waits.
    #[must_use]
    pub fn page(&self) -> Arc<Page> {
        Arc::clone(&self.shared.page)
    }

    /// Gives an order, and posts what it changes to the page. A thread calls this for every order. It needs no lock of
    /// yours. If another member gives an order or is in a turn, the call waits: it pauses for up to some 0.1 ms, and
    /// then sleeps. Threads that sleep in [`Page::wait`] are woken when they no longer wait for a core.
    ///
    /// # Errors
    /// [`GiveError::Full`] and [`GiveError::InTurn`].
    pub fn give(&mut self, client: impl Into<Client>, order: Order) -> Result<Reply, GiveError> {
        let client = client.into();
        match self.begin_with(client, order) {
            Err(GiveError::Taken) => {
                self.take()?;
                Turn::of(self).give_and_end(client, order)
            }
            given => given,
        }
    }

    /// Gives an order as [`Member::give`] does, but without waiting.
    ///
    /// # Errors
    /// [`GiveError::Taken`] if another member gives an order or is in a turn. Otherwise as [`Member::give`].
    pub fn try_give(&mut self, client: impl Into<Client>, order: Order) -> Result<Reply, GiveError> {
        self.begin_with(client.into(), order)
    }

    /// Begins a turn, which lasts until it is dropped or ended. If another member gives an order or is in a turn, this
    /// waits as [`Member::give`] does.
    ///
    /// If a turn of this member was forgotten ([`mem::forget`]), that turn goes on: no other member could give an order
    /// since.
    pub fn begin(&mut self) -> Turn<'_> {
        match self.take() {
            Ok(()) | Err(GiveError::InTurn) => Turn::of(self),
            Err(error) => unreachable!("a member that waits was answered {error:?}"),
        }
    }

    /// Begins a turn as [`Member::begin`] does, but without waiting: `None` if another member gives an order or is in a
    /// turn.
    #[must_use]
    pub fn try_begin(&mut self) -> Option<Turn<'_>> {
        match self.try_take() {
            Ok(()) | Err(GiveError::InTurn) => Some(Turn::of(self)),
            Err(_) => None,
        }
    }

    /// How many orders were given, as [`Page::entered`] tells it, but proved.
    #[must_use]
    pub fn entered(&mut self) -> u64 {
        self.word(Word::Entered)
    }

    /// The word of a thread, as [`Page::place_word`] tells it, but proved.
    #[must_use]
    pub fn place_word(&mut self, thread: Thread) -> u64 {
        self.word(Word::Place(thread))
    }

    /// Whether a thread must give its core back, as [`Page::must_release`] tells it, but proved.
    #[must_use]
    pub fn must_release(&mut self, thread: Thread) -> Option<bool> {
        page::must_release_of(self.place_word(thread))
    }

    /// The position of the core that a thread is on, as [`Page::position`] tells it, but proved.
    #[must_use]
    pub fn position(&mut self, thread: Thread) -> Option<u32> {
        page::position_of(self.place_word(thread))
    }

    /// Which cores of an application are asked back, in one half of the positions, as [`Page::asked_cores`] tells it,
    /// but proved.
    #[must_use]
    pub fn asked_cores(&mut self, application: u8, half: Half) -> Option<u64> {
        (application < APPLICATIONS).then(|| self.word(Word::Asked(application, half)))
    }

    /// The value that a page word has in the library.
    fn word(&mut self, word: Word) -> u64 {
        let mut value = 0;
        // SAFETY: the handle is open, and nothing else has it.
        let code = unsafe { ffi::voldazpe_lib_member_read(&mut self.handle, word.number() as u32, &mut value) };
        assert_eq!(code, ffi::OK);
        value
    }

    /// Takes the arbiter, if no other member has it.
    fn try_take(&mut self) -> Result<(), GiveError> {
        // SAFETY: the handle is open, and nothing else has it.
        match unsafe { ffi::voldazpe_lib_member_begin(&mut self.handle) } {
            ffi::OK => Ok(()),
            ffi::TAKEN => Err(GiveError::Taken),
            ffi::IN_TURN => Err(GiveError::InTurn),
            code => unreachable!("an open member that begins a turn was answered {code}"),
        }
    }

    /// Takes the arbiter. If another member has it, pauses for longer and longer, since an order takes less time than
    /// sleeping and waking, and then sleeps.
    fn take(&mut self) -> Result<(), GiveError> {
        let mut taken = self.try_take();
        let mut pauses = FIRST_PAUSE;
        for _ in 0..TRIES {
            if taken != Err(GiveError::Taken) {
                return taken;
            }
            (0..pauses).for_each(|_| hint::spin_loop());
            pauses = LONGEST_PAUSE.min(2 * pauses);
            taken = self.try_take();
        }
        if taken == Err(GiveError::Taken) {
            let shared = Arc::clone(&self.shared);
            shared.waiters.sleep_until(|| {
                taken = self.try_take();
                taken != Err(GiveError::Taken)
            });
        }
        taken
    }

    /// Gives an order and posts what it changes, if no other member has the arbiter: a turn that begins and enters its order
    /// in one call.
    fn begin_with(&mut self, client: Client, order: Order) -> Result<Reply, GiveError> {
        let mut reply = ffi::Reply::default();
        let order = order.to_ffi();
        // SAFETY: the handle is open, and nothing else has it.
        match unsafe { ffi::voldazpe_lib_member_begin_with(&mut self.handle, client.number(), &order, &mut reply) } {
            ffi::OK => {}
            ffi::TAKEN => return Err(GiveError::Taken),
            ffi::IN_TURN => return Err(GiveError::InTurn),
            ffi::FULL => {
                self.wake(); // the library took the arbiter and gave it back: a member that found it taken sleeps
                return Err(GiveError::Full);
            }
            code => unreachable!("an order of a client, of an open member, was answered {code}"),
        }
        let turn = Turn::of(self);
        Ok(turn.entered_and_ends(&reply))
    }

    /// Stores a word of the page, for a member that has the arbiter. A thread that is to be woken is noted for later.
    pub(crate) fn store(&mut self, word: usize, value: u64) {
        if let Some(thread) = self.shared.page.set(word, value) {
            self.wakes[thread / 64] |= 1 << (thread % 64);
        }
    }

    /// Posts the stale words, in their order, and gives back the arbiter, which the member has. Then wakes.
    pub(crate) fn post_and_give_back(&mut self) {
        let mut post = ffi::Post::default();
        loop {
            // SAFETY: the handle is open, and nothing else has it.
            let code = unsafe { ffi::voldazpe_lib_member_post_or_end(&mut self.handle, &mut post) };
            if code != ffi::OK {
                debug_assert_eq!(code, ffi::SETTLED);
                break;
            }
            self.store(post.word as usize, post.value);
        }
        self.wake();
    }

    /// Wakes a member that waits for the arbiter, which was given back, and threads whose word no longer says that they
    /// wait.
    fn wake(&mut self) {
        self.shared.waiters.wake_one();
        for (group, mut threads) in mem::take(&mut self.wakes).into_iter().enumerate() {
            while threads != 0 {
                self.shared.page.wake(64 * group + threads.trailing_zeros() as usize);
                threads &= threads - 1;
            }
        }
    }

    pub(crate) fn handle(&mut self) -> &mut ffi::MemberHandle {
        &mut self.handle
    }

    pub(crate) fn machine(&mut self) -> Machine {
        let mut machine = ffi::Machine::default();
        // SAFETY: the handle is open, and nothing else has it.
        let code = unsafe { ffi::voldazpe_lib_member_machine(&mut self.handle, &mut machine) };
        assert_eq!(code, ffi::OK);
        Machine::of_ffi(&machine)
    }

    pub(crate) fn core_at(&mut self, position: u32) -> Option<ManagedCore> {
        let mut core = ffi::Core::default();
        // SAFETY: the handle is open, and nothing else has it.
        let code = unsafe { ffi::voldazpe_lib_member_core_at(&mut self.handle, position, &mut core) };
        let ffi::Core { number, socket } = core;
        (code == ffi::OK).then_some(ManagedCore { number, socket })
    }

    pub(crate) fn unmanaged_at(&mut self, index: u32) -> Option<UnmanagedCore> {
        let mut core = ffi::Core::default();
        // SAFETY: the handle is open, and nothing else has it.
        let code = unsafe { ffi::voldazpe_lib_member_unmanaged_at(&mut self.handle, index, &mut core) };
        let ffi::Core { number, socket } = core;
        (code == ffi::OK).then_some(UnmanagedCore { number, socket })
    }

    /// Closes the handle. Returns what the library answered.
    fn close(&mut self) -> u32 {
        // SAFETY: nothing else has the handle.
        unsafe { ffi::voldazpe_lib_member_close(&mut self.handle) }
    }
}

/// Closes the member. If a turn of it was forgotten, ends that first.
impl Drop for Member {
    fn drop(&mut self) {
        let mut code = self.close();
        if code == ffi::IN_TURN {
            Turn::of(self).end();
            code = self.close();
        }
        debug_assert_eq!(code, ffi::OK);
    }
}

impl fmt::Debug for Member {
    fn fmt(&self, f: &mut fmt::Formatter<'_>) -> fmt::Result {
        f.debug_struct("Member").finish_non_exhaustive()
    }
}

#[cfg(all(test, target_os = "linux"))]
mod tests {
    use super::*;
    use crate::Arbiter;
    use std::sync::Arc;
    use std::thread;
    use std::time::{Duration, Instant};

    /// An order past the limit takes the arbiter and gives it back: a member that found it taken meanwhile is woken.
    #[test]
    fn an_order_past_the_limit_wakes() {
        let arbiter = Arbiter::open("orders = 1\n[[socket]]\nmanaged = [1]\nunmanaged = [0]\n").unwrap();
        let mut member = arbiter.member().unwrap();
        assert_eq!(member.give(Client::Clock, Order::Tick(1)), Ok(Reply::Moved(0)));
        let (shared, mut looks) = (Arc::clone(&member.shared), 0);
        let sleeper = thread::spawn(move || {
            shared.waiters.sleep_until(|| {
                looks += 1;
                looks > 1
            })
        });
        let began = Instant::now();
        while !sleeper.is_finished() {
            assert!(began.elapsed() < Duration::from_secs(10), "nobody woke it");
            assert_eq!(member.try_give(Client::Clock, Order::Tick(2)), Err(GiveError::Full));
        }
    }
}
