//! The core arbiter Voldazpe, for runtimes in Rust.
//!
//! Up to sixteen applications, each with up to 32 kernel threads, share the managed cores of one machine. An
//! application says how many cores it wants at each of eight levels. The arbiter says which of its threads are on which
//! cores, and which cores it wants back. The arbiter decides; your runtime pins threads, and gives cores back when it
//! is asked to. All applications of an arbiter live in one process.
//!
//! Threads share an [`Arbiter`]. Each thread that gives orders has a [`Member`], and takes no lock. Any thread reads
//! the arbiter's [`Page`], at any time, by one load:
//!
//! ```
//! use std::error::Error;
//! use std::thread;
//! use voldazpe::{Arbiter, Order, Request, Thread};
//!
//! /// The life of an application's only thread.
//! fn lives(arbiter: &Arbiter, me: Thread) -> Result<(), Box<dyn Error>> {
//!     let page = arbiter.page();
//!     let mut member = arbiter.member()?; // this thread's
//!     member.give(me, Order::Join)?;
//!     member.give(me, Order::Ask(Request::at(0, 1).unwrap()))?; // one core, at level 0
//!     member.give(me, Order::Block)?;
//!     page.wait(me, None);
//!     let core = arbiter.core_at(page.position(me).unwrap()); // to be pinned to
//!     assert!(core.is_some());
//!     assert_eq!(page.must_release(me), Some(false)); // asked between tasks
//!     member.give(me, Order::Leave)?;
//!     Ok(())
//! }
//!
//! let arbiter = Arbiter::open("[[socket]]\nmanaged = [1, 2]\nunmanaged = [0]\n")?;
//! thread::scope(|scope| {
//!     for application in 0..2 {
//!         let arbiter = &arbiter;
//!         scope.spawn(move || lives(arbiter, Thread::new(application, 0).unwrap()).unwrap());
//!     }
//! });
//! assert_eq!(arbiter.page().entered(), 8);
//! # Ok::<(), Box<dyn Error>>(())
//! ```
//!
//! However threads interleave, every reply is one that a single-threaded arbiter would give. This is proved of the
//! library below. If no other order may come between several steps, a member makes them in one [`Turn`]. A
//! single-threaded program, or one that has a lock of its own, keeps a [`LocalArbiter`].
//!
//! The life of an application and its threads: the application joins, by one order of any of its threads, and asks for
//! cores. Each thread blocks, waits until it is on a core ([`Page::wait`]), pins itself there, and polls between tasks.
//! It blocks again when the core is asked back or lost. A thread that ends retires, and an application that ends
//! leaves. One more thread gives ticks. Without ticks no thread that keeps a core is moved.
//!
//! What each order does is proved of the library, which this package calls by its C functions. The types here ensure
//! that these functions are called as they require. The page, a copy of the library's words that this package keeps, is
//! trusted, and with it sleeping and waking. A [`Member`] reads the words themselves, which is proved.
//!
//! `Arbiter::open` and `LocalArbiter::open` take up to 160 KB of stack.
//!
//! An arbiter takes orders without limit, unless the machine's text states `orders`. After that many orders comes
//! [`GiveError::Full`].

mod arbiter;
mod faults;
mod ffi;
#[cfg(voldazpe_house)]
pub mod house;
mod local;
mod member;
mod orders;
mod page;
mod turn;
mod waiters;

pub use arbiter::Arbiter;
pub use faults::{ConfigFault, GiveError, MemberError, OpenError, StepError};
#[cfg(voldazpe_house)]
pub use house::{House, HouseError};
pub use local::LocalArbiter;
pub use member::Member;
pub use orders::{Client, Order, Place, Refusal, Reply, Request, Thread};
pub use page::{Half, Page};
pub use turn::{Post, Turn};

/// The version of this package, and of the library that it is for.
pub const VERSION: &str = env!("CARGO_PKG_VERSION");
/// How many applications there may be, numbered from 0.
pub const APPLICATIONS: u8 = 16;
/// How many threads an application may have, numbered from 0.
pub const THREADS: u8 = 32;
/// How many levels a request has; level 0 is served first.
pub const LEVELS: usize = 8;
/// The most cores that one level of a request may ask for, and the largest cap.
pub const CORES: u8 = 128;

/// What a machine has.
#[derive(Clone, Copy, Debug, PartialEq, Eq)]
pub struct Machine {
    /// After how many microseconds a thread is moved from a core that is asked back.
    pub grace: u64,
    /// How many orders may be given, ticks and refused ones included. `None` if there is no limit.
    pub orders: Option<u32>,
    /// How many managed cores there are: as many as positions.
    pub managed: u16,
    /// How many sockets there are.
    pub sockets: u16,
}

impl Machine {
    fn of_ffi(machine: &ffi::Machine) -> Machine {
        let ffi::Machine { grace, orders, managed, sockets } = *machine;
        Machine { grace, orders: (orders != 0).then_some(orders), managed, sockets }
    }
}

/// A managed core.
#[derive(Clone, Copy, Debug, PartialEq, Eq)]
pub struct ManagedCore {
    /// Its number in the operating system.
    pub number: u16,
    /// The number of its socket, in the order of the text.
    pub socket: u8,
}

/// An unmanaged core.
#[derive(Clone, Copy, Debug, PartialEq, Eq)]
pub struct UnmanagedCore {
    /// Its number in the operating system.
    pub number: u16,
    /// The number of its socket, in the order of the text.
    pub socket: u8,
}

/// What an application has. All fields are 0 if it hasn't joined.
#[derive(Clone, Copy, Debug, Default, PartialEq, Eq)]
pub struct Counts {
    /// The cores due to it.
    pub due: u8,
    /// The cores that its threads are on.
    pub owned: u8,
    /// Those of them that are asked back.
    pub asked: u8,
    /// Its threads that wait for a core.
    pub waiting: u8,
}

/// The compiler reports an answer that is ignored.
///
/// ```
/// #![deny(unused_must_use)]
/// let arbiter = voldazpe::Arbiter::open("[[socket]]\nmanaged = [1]\nunmanaged = [0]\n").unwrap();
/// let mut member = arbiter.member().unwrap();
/// let me = voldazpe::Thread::new(0, 0).unwrap();
/// let _ = member.give(me, voldazpe::Order::Join);
/// let _ = arbiter.page().must_release(me);
/// ```
/// ```compile_fail
/// #![deny(unused_must_use)]
/// let arbiter = voldazpe::Arbiter::open("[[socket]]\nmanaged = [1]\nunmanaged = [0]\n").unwrap();
/// let mut member = arbiter.member().unwrap();
/// let me = voldazpe::Thread::new(0, 0).unwrap();
/// member.give(me, voldazpe::Order::Join);
/// ```
/// ```compile_fail
/// #![deny(unused_must_use)]
/// let arbiter = voldazpe::Arbiter::open("[[socket]]\nmanaged = [1]\nunmanaged = [0]\n").unwrap();
/// let me = voldazpe::Thread::new(0, 0).unwrap();
/// arbiter.page().must_release(me);
/// ```
/// ```compile_fail
/// #![deny(unused_must_use)]
/// let mut arbiter = voldazpe::LocalArbiter::open("[[socket]]\nmanaged = [1]\nunmanaged = [0]\n").unwrap();
/// let me = voldazpe::Thread::new(0, 0).unwrap();
/// arbiter.give(me, voldazpe::Order::Join);
/// ```
#[cfg(doctest)]
struct MustUse;
