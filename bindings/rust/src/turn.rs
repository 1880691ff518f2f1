//! Turns of a member, in which it alone has the arbiter.

use crate::page::Word;
use crate::{ffi, Client, Counts, GiveError, Half, Member, Order, Place, Reply, Request, StepError, Thread};
use std::fmt;

/// A page word that was posted, and the value that it has now. The readers of the [`Page`](crate::Page) say what the
/// values mean.
#[derive(Clone, Copy, Debug, PartialEq, Eq)]
pub enum Post {
    /// Which cores of an application are asked back, in one half of the positions.
    Asked { application: u8, half: Half, cores: u64 },
    /// The word of a thread.
    Place { thread: Thread, word: u64 },
}

impl Post {
    fn of_ffi(post: &ffi::Post) -> Post {
        match Word::at(post.word as usize) {
            Word::Entered => unreachable!("an order posts its count itself"),
            Word::Asked(application, half) => Post::Asked { application, half, cores: post.value },
            Word::Place(thread) => Post::Place { thread, word: post.value },
        }
    }
}

/// A turn of a member. Until it is dropped or ended, no other member of the arbiter gives an order or begins a turn;
/// each may read. So a turn is like a hold of the lock.
///
/// Keep it short, since other members wait meanwhile. In a turn a thread must not use another member of the arbiter for
/// an order or a turn, nor call [`Page::wait`](crate::Page::wait): it would wait forever.
///
/// A turn that is dropped, even by a panic that unwinds, posts what its last order left stale and gives the arbiter
/// back.
///
/// ```
/// use std::time::Instant;
/// use voldazpe::{Arbiter, Client, Order, Place, Reply, Thread};
///
/// # let pin_to_unmanaged = |_: Thread| ();
/// let start = Instant::now();
/// let arbiter = Arbiter::open("[[socket]]\nmanaged = [1, 2]\nunmanaged = [0]\n")?;
/// let mut member = arbiter.member()?; // of the clock's thread
///
/// let mut turn = member.begin();
/// let reply = turn.step(Client::Clock, Order::Tick(start.elapsed().as_micros() as u64))?;
/// turn.post_all();
/// if reply != Reply::Moved(0) {
///     let threads = (0..16).flat_map(|application| (0..32).map(move |thread| Thread::new(application, thread).unwrap()));
///     threads.filter(|&thread| turn.place(thread) == Place::Moved).for_each(pin_to_unmanaged);
/// }
/// turn.end();
/// # Ok::<(), Box<dyn std::error::Error>>(())
/// ```
#[must_use = "a turn that is dropped ends"]
pub struct Turn<'a> {
    member: &'a mut Member,
}

impl<'a> Turn<'a> {
    /// The turn of a member that has the arbiter.
    pub(crate) fn of(member: &'a mut Member) -> Turn<'a> {
        Turn { member }
    }

    /// Gives the turn's only order, posts what it changes, and ends the turn.
    pub(crate) fn give_and_end(mut self, client: Client, order: Order) -> Result<Reply, GiveError> {
        self.step(client, order).map_err(|error| match error {
            StepError::Full => GiveError::Full,
            StepError::Stale => unreachable!("a turn begins with no word stale"),
        })
    }

    /// Posts what the only order of a turn changes, and ends the turn. The turn began with that order.
    pub(crate) fn entered_and_ends(mut self, reply: &ffi::Reply) -> Reply {
        self.entered_with(reply)
    }

    /// Gives an order, and posts the count of orders alone.
    ///
    /// # Errors
    /// The posts of the order before are missing ([`Turn::post_all`] makes them), or the limit on orders is reached.
    pub fn step(&mut self, client: impl Into<Client>, order: Order) -> Result<Reply, StepError> {
        let mut reply = ffi::Reply::default();
        let (client, order) = (client.into().number(), order.to_ffi());
        // SAFETY: the handle is open, and nothing else has it.
        match unsafe { ffi::voldazpe_lib_member_step(self.member.handle(), client, &order, &mut reply) } {
            ffi::OK => {}
            ffi::STALE => return Err(StepError::Stale),
            ffi::FULL => return Err(StepError::Full),
            code => unreachable!("an order of a client, in a turn, was answered {code}"),
        }
        Ok(self.entered_with(&reply))
    }

    /// An order was entered, with this reply: its count is posted.
    fn entered_with(&mut self, reply: &ffi::Reply) -> Reply {
        let count = self.entered();
        self.member.store(Word::Entered.number(), count);
        Reply::of_ffi(reply)
    }

    /// Posts the next stale word, and tells it; `None` if no word is left. The words that lose a core come first, so
    /// that at no moment do two words name one core. A thread that sleeps on the word is woken when the turn ends.
    pub fn next_post(&mut self) -> Option<Post> {
        let mut post = ffi::Post::default();
        // SAFETY: the handle is open, and nothing else has it.
        let code = unsafe { ffi::voldazpe_lib_member_post(self.member.handle(), &mut post) };
        if code != ffi::OK {
            debug_assert_eq!(code, ffi::SETTLED);
            return None;
        }
        self.member.store(post.word as usize, post.value);
        Some(Post::of_ffi(&post))
    }

    /// Posts all stale words, in their order.
    pub fn post_all(&mut self) {
        while self.next_post().is_some() {}
    }

    /// How many orders were given. Right after [`Turn::step`] this is the index of that order, counted from 1. It is
    /// proved, as [`Member::entered`] is.
    #[must_use]
    pub fn entered(&mut self) -> u64 {
        self.member.entered()
    }

    /// Where a thread is.
    #[must_use]
    pub fn place(&mut self, thread: Thread) -> Place {
        let mut place = ffi::Place::default();
        // SAFETY: the handle is open, and nothing else has it.
        let code = unsafe { ffi::voldazpe_lib_member_place(self.member.handle(), thread.number(), &mut place) };
        assert_eq!(code, ffi::OK);
        Place::of_ffi(&place)
    }

    /// The thread that is on the core with this number, or `None` if the core is free or not managed.
    #[must_use]
    pub fn owner(&mut self, core: u16) -> Option<Thread> {
        let mut thread = 0;
        // SAFETY: the handle is open, and nothing else has it.
        let code = unsafe { ffi::voldazpe_lib_member_owner(self.member.handle(), core, &mut thread) };
        (code == ffi::OK).then(|| Thread::of_number(thread))
    }

    /// What an application has. This is no order. `None` if the application isn't below
    /// [`APPLICATIONS`](crate::APPLICATIONS).
    #[must_use]
    pub fn counts(&mut self, application: u8) -> Option<Counts> {
        let mut counts = ffi::Counts::default();
        // SAFETY: the handle is open, and nothing else has it.
        let code = unsafe { ffi::voldazpe_lib_member_counts(self.member.handle(), application.into(), &mut counts) };
        let ffi::Counts { due, owned, asked, waiting } = counts;
        (code == ffi::OK).then_some(Counts { due, owned, asked, waiting })
    }

    /// What an application asks for, as far as it counts: its last ask, cut at its cap if it has one. `None` if it
    /// hasn't joined, has left, or isn't below [`APPLICATIONS`](crate::APPLICATIONS).
    #[must_use]
    pub fn request(&mut self, application: u8) -> Option<Request> {
        let mut request = ffi::Request::default();
        // SAFETY: the handle is open, and nothing else has it.
        let code =
            unsafe { ffi::voldazpe_lib_member_requested(self.member.handle(), application.into(), &mut request) };
        (code == ffi::OK).then_some(Request::of_ffi(&request))
    }

    /// The latest moment of a tick, in microseconds; 0 before the first.
    #[must_use]
    pub fn clock(&mut self) -> u64 {
        let mut moment = 0;
        // SAFETY: the handle is open, and nothing else has it.
        let code = unsafe { ffi::voldazpe_lib_member_clock(self.member.handle(), &mut moment) };
        assert_eq!(code, ffi::OK);
        moment
    }

    /// Ends the turn, as dropping it does.
    pub fn end(self) {}
}

impl Drop for Turn<'_> {
    fn drop(&mut self) {
        self.member.post_and_give_back();
    }
}

impl fmt::Debug for Turn<'_> {
    fn fmt(&self, f: &mut fmt::Formatter<'_>) -> fmt::Result {
        f.debug_struct("Turn").finish_non_exhaustive()
    }
}
