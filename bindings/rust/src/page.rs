//! The page words, which any thread reads by one load.

use crate::{Thread, APPLICATIONS};
use std::fmt;
use std::sync::atomic::{AtomicU32, AtomicU64, Ordering};
use std::sync::{Condvar, Mutex};
use std::time::{Duration, Instant};

const WORDS: usize = 545;
const FIRST_RELEASE: usize = 1;
const FIRST_PLACE: usize = 33;
pub(crate) const ALL_THREADS: usize = WORDS - FIRST_PLACE;
const WAITING: u64 = 1;
const FIRST_CORE: u64 = 4;

/// A half of the positions. One word of an application shows which of its cores in that half are asked back.
#[derive(Clone, Copy, Debug, PartialEq, Eq)]
pub enum Half {
    /// The positions 0 to 63.
    Low,
    /// The positions 64 to 127.
    High,
}

/// What a page word says.
#[derive(Clone, Copy)]
pub(crate) enum Word {
    /// How many orders were given.
    Entered,
    /// Which cores of an application are asked back, in one half of the positions.
    Asked(u8, Half),
    /// Where a thread is.
    Place(Thread),
}

impl Word {
    /// The word with a number, 0 to 544.
    pub(crate) fn at(number: usize) -> Word {
        if number >= FIRST_PLACE {
            return Word::Place(Thread::of_number((number - FIRST_PLACE) as u32));
        }
        match number.checked_sub(FIRST_RELEASE) {
            None => Word::Entered,
            Some(release) => Word::Asked((release / 2) as u8, if release % 2 == 0 { Half::Low } else { Half::High }),
        }
    }

    /// Its number. The application is below [`APPLICATIONS`].
    pub(crate) fn number(self) -> usize {
        match self {
            Word::Entered => 0,
            Word::Asked(application, Half::Low) => FIRST_RELEASE + 2 * usize::from(application),
            Word::Asked(application, Half::High) => FIRST_RELEASE + 2 * usize::from(application) + 1,
            Word::Place(thread) => FIRST_PLACE + thread.number() as usize,
        }
    }
}

/// Whether a thread with this word must give its core back, or `None` if it is on no core.
pub(crate) fn must_release_of(word: u64) -> Option<bool> {
    (word >= FIRST_CORE).then_some(word & 1 == 1)
}

/// The position of the core that a thread with this word is on, or `None` if it is on no core.
pub(crate) fn position_of(word: u64) -> Option<u32> {
    (word >= FIRST_CORE).then(|| ((word - FIRST_CORE) / 2) as u32)
}

/// Where a thread sleeps until its word changes.
#[derive(Default)]
struct Bed {
    /// How many sleep here, or are about to.
    sleepers: AtomicU32,
    lock: Mutex<()>,
    woken: Condvar,
}

/// What an arbiter has posted: where each thread is, and which of each application's cores are asked back. Each reader
/// is one sequentially consistent load, and takes no lock.
///
/// The page is a copy of the library's words, which this package keeps: each post is stored in both, before another
/// order is given. That you read here what was posted is trusted. A [`Member`](crate::Member) reads the library's
/// words, for which it is proved.
pub struct Page {
    words: [AtomicU64; WORDS],
    beds: [Bed; ALL_THREADS],
}

impl Page {
    pub(crate) fn new() -> Page {
        Page { words: std::array::from_fn(|_| AtomicU64::new(0)), beds: std::array::from_fn(|_| Bed::default()) }
    }

    /// Stores a word. If the word said that its thread waits and no longer does, wakes the threads that sleep on it.
    pub(crate) fn store(&self, word: usize, value: u64) {
        if let Some(thread) = self.set(word, value) {
            self.wake(thread);
        }
    }

    /// Stores a word. If the word said that its thread waits and no longer does, and a thread sleeps on it, returns the
    /// thread's number, for [`Page::wake`].
    pub(crate) fn set(&self, word: usize, value: u64) -> Option<usize> {
        let before = self.words[word].swap(value, Ordering::SeqCst);
        let thread = word.checked_sub(FIRST_PLACE)?;
        let left = before == WAITING && value != WAITING;
        // a thread that isn't counted yet looks at the word later
        (left && self.beds[thread].sleepers.load(Ordering::SeqCst) != 0).then_some(thread)
    }

    /// Wakes the threads that sleep on a thread's word.
    pub(crate) fn wake(&self, thread: usize) {
        let bed = &self.beds[thread];
        // a thread that looked at the word before is asleep once the lock is free
        drop(bed.lock.lock().unwrap_or_else(|poisoned| poisoned.into_inner()));
        bed.woken.notify_all();
    }

    /// Takes all threads off their cores and wakes those that wait, since the arbiter is gone. The count of orders stays.
    pub(crate) fn clear(&self) {
        for word in FIRST_RELEASE..WORDS {
            self.store(word, 0);
        }
    }

    fn load(&self, word: Word) -> u64 {
        self.words[word.number()].load(Ordering::SeqCst)
    }

    /// How many orders were given.
    #[must_use]
    pub fn entered(&self) -> u64 {
        self.load(Word::Entered)
    }

    /// The word of a thread: 0 unmanaged, 1 waiting, 2 moved, or 4 + 2 * p + a. The last says that it is on the core at
    /// position p, which is asked back if a is 1.
    #[must_use]
    pub fn place_word(&self, thread: Thread) -> u64 {
        self.load(Word::Place(thread))
    }

    /// Whether a thread must give its core back, or `None` if it is on no core. A thread polls this between tasks, and
    /// goes on only while it is `Some(false)`. Otherwise the thread pins itself to unmanaged cores and gives an order
    /// to block. True may become false again, if the core is no longer wanted back.
    #[must_use]
    pub fn must_release(&self, thread: Thread) -> Option<bool> {
        must_release_of(self.place_word(thread))
    }

    /// The position of the core that a thread is on, or `None` if it is on no core.
    /// [`Arbiter::core_at`](crate::Arbiter::core_at) tells the number by which the operating system knows that core.
    #[must_use]
    pub fn position(&self, thread: Thread) -> Option<u32> {
        position_of(self.place_word(thread))
    }

    /// Which cores of an application are asked back, in one half of the positions. Bit c stands for position c in the
    /// low half, and for position 64 + c in the high half. `None` if there is no such application. Two halves are two
    /// loads, and may show two moments.
    #[must_use]
    pub fn asked_cores(&self, application: u8, half: Half) -> Option<u64> {
        (application < APPLICATIONS).then(|| self.load(Word::Asked(application, half)))
    }

    /// Sleeps until a thread's word no longer says that it waits, or until the limit is over; `None` is no limit. Call
    /// it after an order to block, outside of turns. Returns whether the word says something other than waiting. If so,
    /// [`Page::position`] tells the core, or `None`: the thread left, retired or was moved since, or the arbiter was
    /// dropped or reopened. At `None` the thread blocks again, with work or without, unless it is to end or its
    /// application has left. (After a leave the order to block is refused, and this returns at once.)
    ///
    /// If a [`LocalArbiter`](crate::LocalArbiter) has a lock around it, call this without that lock. In `match
    /// arbiter.lock().unwrap().give(..) { .. }` the lock is held to the end of the `match`, where a wait would never
    /// end: bind the reply first.
    pub fn wait(&self, thread: Thread, limit: Option<Duration>) -> bool {
        let end = limit.and_then(|limit| Instant::now().checked_add(limit));
        let bed = &self.beds[thread.number() as usize];
        if self.place_word(thread) != WAITING {
            return true;
        }
        bed.sleepers.fetch_add(1, Ordering::SeqCst);
        let left = self.sleep(thread, bed, end);
        bed.sleepers.fetch_sub(1, Ordering::SeqCst);
        left
    }

    /// Sleeps until a thread's word no longer says that it waits, or until a moment. Returns whether the word says
    /// something else.
    fn sleep(&self, thread: Thread, bed: &Bed, end: Option<Instant>) -> bool {
        let mut lock = bed.lock.lock().unwrap_or_else(|poisoned| poisoned.into_inner());
        while self.place_word(thread) == WAITING {
            lock = match end {
                None => bed.woken.wait(lock).unwrap_or_else(|poisoned| poisoned.into_inner()),
                Some(end) => {
                    let left = end.saturating_duration_since(Instant::now());
                    if left.is_zero() {
                        return false;
                    }
                    bed.woken.wait_timeout(lock, left).unwrap_or_else(|poisoned| poisoned.into_inner()).0
                }
            };
        }
        true
    }
}

impl fmt::Debug for Page {
    fn fmt(&self, f: &mut fmt::Formatter<'_>) -> fmt::Result {
        f.debug_struct("Page").field("entered", &self.entered()).finish_non_exhaustive()
    }
}
