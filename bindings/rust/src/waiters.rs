//! Where members wait until another one gives the arbiter back.

use std::sync::atomic::{AtomicBool, AtomicU32, Ordering};

/// The members of one arbiter that sleep, or are about to, until another one gives it back.
#[derive(Default)]
pub(crate) struct Waiters {
    /// Whether a member sleeps, or is about to.
    mark: AtomicBool,
    /// Members sleep on this: it changes when one is to wake.
    given: AtomicU32,
}

impl Waiters {
    /// Sleeps until `taken`, which tries to take the arbiter, says so.
    ///
    /// No wake is lost. The member reads `given`, marks that it waits, and then finds the arbiter taken, so the mark is
    /// seen later. A member that erases the mark then changes `given` and wakes a sleeper. No member sleeps past the
    /// change, and one that wakes marks again.
    #[cold]
    pub(crate) fn sleep_until(&self, mut taken: impl FnMut() -> bool) {
        loop {
            let seen = self.given.load(Ordering::SeqCst);
            self.mark.store(true, Ordering::SeqCst);
            if taken() {
                return;
            }
            futex::wait(&self.given, seen);
        }
    }

    /// Wakes one member that sleeps, if any does. A member calls this once it has given the arbiter back.
    pub(crate) fn wake_one(&self) {
        if self.mark.load(Ordering::SeqCst) {
            self.mark.store(false, Ordering::SeqCst);
            self.given.fetch_add(1, Ordering::SeqCst);
            futex::wake_one(&self.given);
        }
    }
}

#[cfg(all(target_os = "linux", any(target_arch = "x86_64", target_arch = "aarch64")))]
mod futex {
    use std::ffi::{c_int, c_long};
    use std::ptr;
    use std::sync::atomic::AtomicU32;

    const FUTEX: c_long = if cfg!(target_arch = "x86_64") { 202 } else { 98 };
    const WAIT_PRIVATE: c_int = 128;
    const WAKE_PRIVATE: c_int = 129;

    extern "C" {
        fn syscall(number: c_long, ...) -> c_long;
    }

    /// Sleeps while the word has the value that was seen. It may return without a cause.
    pub fn wait(word: &AtomicU32, seen: u32) {
        // SAFETY: the kernel reads the word, which is there until this returns, and is given no time limit.
        unsafe { syscall(FUTEX, word.as_ptr(), WAIT_PRIVATE, seen, ptr::null::<u8>()) };
    }

    pub fn wake_one(word: &AtomicU32) {
        // SAFETY: the kernel uses the address only as a name.
        unsafe { syscall(FUTEX, word.as_ptr(), WAKE_PRIVATE, 1 as c_int) };
    }
}

/// On other systems members don't sleep: they let other threads run.
#[cfg(not(all(target_os = "linux", any(target_arch = "x86_64", target_arch = "aarch64"))))]
mod futex {
    use std::sync::atomic::AtomicU32;
    use std::thread;

    pub fn wait(_word: &AtomicU32, _seen: u32) {
        thread::yield_now();
    }

    pub fn wake_one(_word: &AtomicU32) {}
}

#[cfg(all(test, target_os = "linux"))]
mod tests {
    use super::*;
    use std::sync::{mpsc, Arc};
    use std::thread::{self, JoinHandle};
    use std::time::{Duration, Instant};

    /// Sleeps in a thread of its own. The n-th look at the arbiter answers what `look(n)` says.
    fn sleeper(waiters: &Arc<Waiters>, mut look: impl FnMut(u32) -> bool + Send + 'static) -> JoinHandle<u32> {
        let waiters = Arc::clone(waiters);
        thread::spawn(move || {
            let mut looks = 0;
            waiters.sleep_until(|| {
                looks += 1;
                look(looks)
            });
            looks
        })
    }

    /// How often a sleeper looked. It may sleep on if something is wrong.
    fn looks(sleeper: JoinHandle<u32>) -> u32 {
        let end = Instant::now() + Duration::from_secs(60);
        while !sleeper.is_finished() {
            assert!(Instant::now() < end, "it sleeps on");
            thread::sleep(Duration::from_millis(1));
        }
        sleeper.join().unwrap()
    }

    #[test]
    fn one_that_finds_the_arbiter_free_doesnt_sleep() {
        let waiters = Arc::new(Waiters::default());
        waiters.wake_one(); // nobody
        assert_eq!(waiters.given.load(Ordering::SeqCst), 0);
        assert_eq!(looks(sleeper(&waiters, |_| true)), 1);
        waiters.wake_one();
        waiters.wake_one();
        assert!(waiters.given.load(Ordering::SeqCst) <= 1); // one wake for each that came to sleep
    }

    #[test]
    fn a_wake_between_the_look_and_the_sleep_isnt_lost() {
        for _ in 0..100 {
            let waiters = Arc::new(Waiters::default());
            let owner = Arc::clone(&waiters);
            let looking = move |number| {
                if number == 1 {
                    owner.wake_one(); // it was taken, and is given back right after
                }
                number == 2
            };
            assert_eq!(looks(sleeper(&waiters, looking)), 2);
        }
    }

    #[test]
    fn one_that_sleeps_is_woken_and_sleeps_again_where_another_was_faster() {
        let (waiters, (looked, look)) = (Arc::new(Waiters::default()), mpsc::channel());
        let sleeper = sleeper(&waiters, move |number| {
            looked.send(number).unwrap();
            number == 3
        });
        for number in 1..=2 {
            assert_eq!(look.recv_timeout(Duration::from_secs(60)), Ok(number));
            thread::sleep(Duration::from_millis(20));
            assert_eq!(look.try_recv(), Err(mpsc::TryRecvError::Empty));
            waiters.wake_one();
        }
        assert_eq!(looks(sleeper), 3);
    }

    #[test]
    fn each_of_many_is_served_where_each_wakes_one() {
        for _ in 0..20 {
            let (waiters, free) = (Arc::new(Waiters::default()), Arc::new(AtomicBool::new(false)));
            let sleepers: Vec<JoinHandle<u32>> = (0..4)
                .map(|_| {
                    let (waiters, free) = (Arc::clone(&waiters), Arc::clone(&free));
                    thread::spawn(move || {
                        waiters.sleep_until(|| free.swap(false, Ordering::SeqCst));
                        free.store(true, Ordering::SeqCst);
                        waiters.wake_one();
                        1
                    })
                })
                .collect();
            thread::sleep(Duration::from_millis(5));
            free.store(true, Ordering::SeqCst);
            waiters.wake_one();
            assert_eq!(sleepers.into_iter().map(looks).sum::<u32>(), 4);
        }
    }
}
