//! A house through the safe interface: cores that are shared, each error, ends with threads inside, panics, hooks, and a
//! journal that `arbiter run` replays (the program that ARBITER names).
#![cfg(voldazpe_house)]

use std::cell::RefCell;
use std::env;
use std::fs;
use std::panic::{catch_unwind, AssertUnwindSafe};
use std::path::{Path, PathBuf};
use std::process::{self, Command, Stdio};
use std::sync::atomic::{AtomicBool, AtomicU32, AtomicU64, Ordering};
use std::sync::{Arc, Mutex, MutexGuard, OnceLock, PoisonError};
use std::thread;
use std::time::{Duration, Instant};
use voldazpe::house::{Application, ApplicationId, Event, HouseError, Options, Owner, Seat};
use voldazpe::{ConfigFault, House};

const THREE: &str = "[[socket]]\nmanaged = [1, 2, 3]\nunmanaged = [0]\n";
const ONE: &str = "[[socket]]\nmanaged = [1]\nunmanaged = [0]\n";
const LONG: Duration = Duration::from_secs(60);

/// A house of this machine's text, whose threads run where the operating system places them.
fn open(text: &str) -> House {
    Options::new().unpinned().open(text).unwrap()
}

/// Closes a house where a test fails, so that its threads end.
struct Closes<'house>(&'house House);

impl Drop for Closes<'_> {
    fn drop(&mut self) {
        let _ = self.0.close();
    }
}

fn until(what: &str, mut holds: impl FnMut() -> bool) {
    let end = Instant::now() + LONG;
    while !holds() {
        assert!(Instant::now() < end, "{what} never came");
        thread::sleep(Duration::from_micros(200));
    }
}

/// Which cores threads of all applications work on, so that two on one core are seen.
#[derive(Default)]
struct Cores {
    taken: [AtomicBool; 8],
    count: AtomicU32,
    most: AtomicU32,
}

impl Cores {
    /// Works on the core of a seat until it is asked back.
    fn work(&self, seat: &Seat, tasks: &AtomicU64) {
        let Some(core) = seat.core().map(usize::from) else { return };
        assert!(!self.taken[core].swap(true, Ordering::SeqCst), "two threads on core {core}");
        self.most.fetch_max(self.count.fetch_add(1, Ordering::SeqCst) + 1, Ordering::SeqCst);
        while seat.keep() {
            tasks.fetch_add(1, Ordering::Relaxed);
            thread::yield_now();
        }
        self.count.fetch_sub(1, Ordering::SeqCst);
        self.taken[core].store(false, Ordering::SeqCst);
    }
}

#[test]
fn two_applications_share_three_cores() {
    // a grace that no thread stays for, so that nobody is moved off a core that `Cores` counts
    let house = Options::new().unpinned().grace(LONG).open(THREE).unwrap();
    let (first, second) = (house.join("first").unwrap(), house.join("second").unwrap());
    assert_eq!((first.name(), second.name()), ("first", "second"));
    let (cores, tasks) = (Cores::default(), [AtomicU64::new(0), AtomicU64::new(0)]);
    let owned = |application: &Application| application.counts().unwrap().owned;
    thread::scope(|scope| {
        let _closes = Closes(&house);
        for number in 0..6 {
            let (application, tasks, cores) = ([&first, &second][number % 2], &tasks[number % 2], &cores);
            scope.spawn(move || {
                let seat = application.register().unwrap();
                while seat.wait(None).is_ok() {
                    cores.work(&seat, tasks);
                }
                assert_eq!((seat.wait(None), seat.keep(), seat.core()), (Err(HouseError::Closed), false, None));
            });
        }
        until("six threads", || house.state().unwrap().threads == 6);
        first.want(1, 3).unwrap();
        until("three cores of the first", || owned(&first) == 3 && owned(&second) == 0);
        // who owns a core may not have run on it yet
        until("three threads that work", || cores.count.load(Ordering::SeqCst) == 3);
        second.want(0, 2).unwrap(); // served before
        until("two cores of the second", || owned(&first) == 1 && owned(&second) == 2);
        until("a task of the second", || tasks[1].load(Ordering::SeqCst) > 0);
        let counts = first.counts().unwrap();
        assert_eq!((counts.due, counts.threads, counts.cap, counts.request), (1, 3, 128, [0, 3, 0, 0, 0, 0, 0, 0]));
        let owners = house.owners().unwrap();
        let who = |id: ApplicationId| {
            let has = |owner: &&Owner| owner.thread.is_some_and(|(application, _)| application == id);
            owners.iter().filter(has).count()
        };
        assert_eq!((owners.len(), owners[2].core, who(first.id()), who(second.id())), (3, 3, 1, 2));
        second.cap(1).unwrap();
        until("one core of the second", || owned(&first) == 2 && owned(&second) == 1);
        second.want_at_levels([0; 8]).unwrap();
        until("three cores of the first again", || owned(&first) == 3 && owned(&second) == 0);
        let done = tasks[0].load(Ordering::SeqCst);
        until("tasks of the first", || tasks[0].load(Ordering::SeqCst) > done + 1000);
        house.close().unwrap();
    });
    assert_eq!((cores.most.into_inner(), cores.count.into_inner()), (3, 0));
}

#[test]
fn each_error() {
    let refused = |text: &str| House::open(text).unwrap_err();
    assert_eq!(refused("managed = ["), HouseError::Config(ConfigFault::NotToml));
    assert_eq!(refused(""), HouseError::Config(ConfigFault::BadKey));
    assert_eq!(refused(&format!("speed = 1\n{ONE}")), HouseError::Config(ConfigFault::UnknownKey));
    assert_eq!(refused(&format!("grace = 0\n{ONE}")), HouseError::Config(ConfigFault::OutOfRange));
    assert_eq!(refused("socket = []\n"), HouseError::Config(ConfigFault::SocketCount));
    let twice = refused("[[socket]]\nmanaged = [7, 7]\nunmanaged = [0]\n");
    assert_eq!(
        (twice, twice.to_string().as_str()),
        (HouseError::Config(ConfigFault::CoreTwice(7)), "C6 core 7 listed twice")
    );
    assert_eq!(refused("[[socket]]\nmanaged = []\nunmanaged = [0]\n"), HouseError::Config(ConfigFault::ManagedCount));
    assert_eq!(refused("[[socket]]\nmanaged = [1]\nunmanaged = []\n"), HouseError::Config(ConfigFault::NoUnmanaged));
    assert_eq!(refused(&"#".repeat(65_537)), HouseError::TooLong);
    let limited = refused(&format!("orders = 1000000\n{ONE}"));
    let text = "the machine's text limits orders, and a house has no end";
    assert_eq!((limited, limited.to_string().as_str()), (HouseError::Limited, text));
    let grace_twice = Options::new().grace(LONG).open(&format!("grace = 5000\n{ONE}")).unwrap_err();
    assert_eq!(grace_twice, HouseError::Config(ConfigFault::NotToml));
    let nowhere = Options::new().unpinned().journal("/nowhere/at/all");
    assert_eq!(nowhere.open(ONE).unwrap_err(), HouseError::Journal);

    let house = open(ONE);
    assert_eq!(house.join("a\0b").unwrap_err(), HouseError::Name);
    let application = house.join("one").unwrap();
    assert_eq!(application.want(8, 1), Err(HouseError::NoLevel));
    assert_eq!(application.want(0, 129), Err(HouseError::TooManyCores));
    assert_eq!(application.want_at_levels([0, 0, 0, 0, 0, 0, 0, 129]), Err(HouseError::TooManyCores));
    assert_eq!(application.cap(129), Err(HouseError::TooManyCores));
    let seat = application.register().unwrap();
    assert_eq!(application.register().unwrap_err(), HouseError::Registered);
    assert_eq!((seat.keep(), seat.core(), seat.number()), (false, None, 0));
    assert_eq!(seat.wait(Some(Duration::ZERO)), Err(HouseError::TimedOut));
    let began = Instant::now();
    assert_eq!(seat.wait(Some(Duration::from_millis(5))), Err(HouseError::TimedOut));
    assert!(began.elapsed() >= Duration::from_millis(5));
    application.want(0, 1).unwrap();
    assert_eq!(seat.wait(Some(Duration::ZERO)), Ok(()));
    assert_eq!((seat.keep(), seat.core()), (true, Some(1)));
    seat.give_back().unwrap();
    assert_eq!((seat.keep(), seat.core()), (false, None));
    application.withdraw().unwrap();
    assert_eq!((seat.wait(None), seat.give_back()), (Err(HouseError::Withdrawn), Err(HouseError::Withdrawn)));
    assert_eq!(application.want(0, 1), Err(HouseError::Withdrawn));
    assert_eq!(application.counts().unwrap_err(), HouseError::Withdrawn);
    assert_eq!(application.register().unwrap_err(), HouseError::Registered); // until it leaves
    seat.leave();
    assert_eq!(application.register().unwrap_err(), HouseError::Withdrawn);

    let all: Vec<Application> = (0..16).map(|number| house.join(&number.to_string()).unwrap()).collect();
    assert_eq!(house.join("one more").unwrap_err(), HouseError::AllTaken);
    assert_eq!(house.state().unwrap().applications, 16);
    assert!(all.iter().all(|one| one.id() != application.id()));
    drop(all);
    let state = house.state().unwrap();
    assert_eq!((state.applications, state.threads, state.managed, state.sockets), (0, 0, 1, 1));
    assert_eq!((state.grace, state.journal_failed), (10_000, false));
    assert!(state.refused.is_none() && house.affinity() == Ok(()));
    house.close().unwrap();
    assert_eq!(house.close(), Err(HouseError::Closed));
    assert_eq!(house.join("late").unwrap_err(), HouseError::Closed);
    assert_eq!(house.state().unwrap_err(), HouseError::Closed);
    assert_eq!(HouseError::Closed.to_string(), "the house is closed");
}

#[test]
fn a_grace_is_whole_microseconds() {
    let opens = |grace: Duration| Options::new().unpinned().grace(grace).open(ONE);
    let microseconds = |grace: Duration| opens(grace).unwrap().state().unwrap().grace;
    assert_eq!(microseconds(Duration::from_micros(1_234_567)), 1_234_567);
    assert_eq!(microseconds(Duration::from_nanos(2_999)), 2);
    assert_eq!(microseconds(Duration::from_nanos(999)), 1); // at least one
    assert_eq!(microseconds(Duration::ZERO), 1);
    assert_eq!(microseconds(Duration::from_secs(1000)), 1_000_000_000);
    for too_long in [
        Duration::from_micros(1_000_000_001),
        Duration::MAX,
        Duration::from_micros(u64::MAX) + Duration::from_millis(2),
    ] {
        assert_eq!(opens(too_long).unwrap_err(), HouseError::Config(ConfigFault::OutOfRange));
    }
}

#[test]
fn cores_that_stay_unmanaged() {
    let managed = |options: Options| options.unpinned().own().open_own().unwrap().state().unwrap().managed;
    let one = managed(Options::new());
    assert_eq!((managed(Options::new().unmanaged(1)), managed(Options::new().unmanaged(10_000))), (one, 1));
    for more in 1..4 {
        assert_eq!(managed(Options::new().unmanaged(1 + more)), one.saturating_sub(more as u16).max(1));
    }
    if one == 1 {
        println!("house: skipped: cores that stay unmanaged: there is one to manage");
    }
}

#[test]
fn a_long_limit_is_long() {
    let house = open(ONE);
    let application = house.join("one").unwrap();
    let wraps = Duration::from_secs(18_446_744_073) + Duration::from_nanos(709_551_616 + 1_000); // 2^64 + 1000 ns
    let half = Duration::from_nanos(1 << 63) + Duration::from_nanos(1_000); // 2^63 + 1000 ns
    for limit in [wraps, half, Duration::MAX] {
        thread::scope(|scope| {
            let waits = scope.spawn(|| application.register().unwrap().wait(Some(limit)));
            until("a thread that waits", || application.counts().unwrap().waiting == 1 || waits.is_finished());
            thread::sleep(Duration::from_millis(30));
            assert!(!waits.is_finished(), "{limit:?}");
            application.want(0, 1).unwrap();
            assert_eq!(waits.join().unwrap(), Ok(()));
            application.want(0, 0).unwrap();
        });
    }
}

#[test]
fn refused_pinning_is_told() {
    let told = Arc::new(AtomicU32::new(0));
    let counted = Arc::clone(&told);
    let hook = move |event: &Event| {
        counted.fetch_add(u32::from(*event == Event::Refused), Ordering::SeqCst);
    };
    // a processor that no machine of this test has
    let house = Options::new().hook(hook).open("[[socket]]\nmanaged = [1000]\nunmanaged = [0]\n").unwrap();
    let application = house.join("one").unwrap();
    application.want(0, 1).unwrap();
    let seat = application.register().unwrap();
    assert_eq!((seat.wait(None), seat.core()), (Ok(()), Some(1000)));
    assert_eq!(house.affinity(), Err(HouseError::Unpinned));
    let refused = house.state().unwrap().refused.map(|error| error.raw_os_error());
    assert_eq!(refused, Some(Some(22))); // EINVAL
    for _ in 0..3 {
        seat.give_back().unwrap();
        seat.wait(None).unwrap();
        assert_eq!(told.load(Ordering::SeqCst), 1); // by the next order behind it, once
    }
    assert_eq!(HouseError::Unpinned.to_string(), "pinning was refused");
}

#[test]
fn a_hook_goes_with_its_house() {
    let kept = Arc::new(());
    let hooked = |options: Options| {
        let kept = Arc::clone(&kept);
        options.unpinned().hook(move |_| assert!(Arc::strong_count(&kept) > 1))
    };
    let house = hooked(Options::new()).open(ONE).unwrap();
    let application = house.join("one").unwrap();
    application.want(0, 1).unwrap();
    assert_eq!(Arc::strong_count(&kept), 2);
    house.close().unwrap();
    assert_eq!(Arc::strong_count(&kept), 1); // also while an application is there
    drop(hooked(Options::new()).open(ONE).unwrap());
    assert_eq!(Arc::strong_count(&kept), 1);
    assert!(hooked(Options::new()).open("").is_err());
    assert_eq!(Arc::strong_count(&kept), 1);
    let house = hooked(Options::new().own()).open_own().unwrap();
    assert_eq!(house.close(), Ok(()));
    drop((house, application));
    assert_eq!(Arc::strong_count(&kept), 1);
    drop(hooked(Options::new())); // which opens none
    assert_eq!(Arc::strong_count(&kept), 1);
}

#[test]
fn a_core_is_asked_back() {
    let house = Options::new().unpinned().grace(LONG).open(ONE).unwrap();
    let (low, high) = (house.join("low").unwrap(), house.join("high").unwrap());
    low.want(1, 1).unwrap();
    let seat = low.register().unwrap();
    seat.wait(None).unwrap();
    let owner = |asked| Owner { core: 1, socket: 0, thread: Some((low.id(), 0)), asked };
    assert_eq!((seat.keep(), seat.core(), house.owners().unwrap()), (true, Some(1), vec![owner(false)]));
    high.want(0, 1).unwrap();
    assert_eq!((seat.keep(), seat.core(), house.owners().unwrap()), (false, Some(1), vec![owner(true)]));
    let counts = low.counts().unwrap();
    assert_eq!((counts.due, counts.owned, counts.asked, counts.waiting), (0, 1, 1, 0));
    high.want(0, 0).unwrap(); // it is wanted back no longer
    assert_eq!((seat.keep(), seat.core()), (true, Some(1)));
    high.want(0, 1).unwrap();
    assert_eq!(seat.wait(Some(Duration::from_millis(1))), Err(HouseError::TimedOut));
    assert_eq!((seat.keep(), seat.core(), house.owners().unwrap()[0].thread), (false, None, None));
    let counts = high.counts().unwrap();
    assert_eq!((counts.due, counts.owned, counts.waiting, counts.threads), (1, 0, 0, 0));
}

#[test]
fn values_other_than_the_first() {
    let events = Arc::new(Mutex::new(Vec::new()));
    let noted = Arc::clone(&events);
    let hook = move |event: &Event| noted.lock().unwrap().push(*event);
    let text = "[[socket]]\nmanaged = [1]\nunmanaged = [0]\n[[socket]]\nmanaged = [300, 257]\nunmanaged = []\n";
    let house = Options::new().unpinned().grace(LONG).hook(hook).open(text).unwrap();
    let [first, second] = ["first", "second"].map(|name| house.join(name).unwrap());
    let request = [0, 0, 2, 0, 0, 0, 0, 1];
    second.want_at_levels(request).unwrap();
    let cores = Mutex::new(vec![None; 3]); // by the thread's number: the core that it has, or has given back
    let (came, gave_back) = (AtomicU32::new(0), AtomicU32::new(0));
    thread::scope(|scope| {
        let _closes = Closes(&house);
        for number in 0..3 {
            let (second, cores, came, gave_back) = (&second, &cores, &came, &gave_back);
            scope.spawn(move || {
                let seat = second.register().unwrap();
                assert_eq!(seat.number(), number);
                seat.wait(None).unwrap();
                cores.lock().unwrap()[number as usize] = seat.core();
                came.fetch_add(1, Ordering::SeqCst);
                while seat.keep() {
                    thread::sleep(Duration::from_micros(100));
                }
                assert!(seat.core().is_none() || seat.core() == cores.lock().unwrap()[number as usize]);
                if seat.core().is_some() {
                    gave_back.fetch_add(1, Ordering::SeqCst);
                    seat.give_back().unwrap();
                }
                assert_eq!(seat.wait(None), Err(HouseError::Closed));
            });
            until("a thread with a core", || came.load(Ordering::SeqCst) == number + 1);
        }
        let cores = cores.lock().unwrap().clone();
        let owner = |core: u16, socket: u8| Owner {
            core,
            socket,
            thread: Some((second.id(), cores.iter().position(|one| *one == Some(core)).unwrap() as u32)),
            asked: false,
        };
        assert_eq!(house.owners().unwrap(), [owner(1, 0), owner(300, 1), owner(257, 1)]);
        let counts = second.counts().unwrap();
        assert_eq!((counts.due, counts.owned, counts.asked, counts.waiting), (3, 3, 0, 0));
        assert_eq!((counts.threads, counts.cap, counts.request), (3, 128, request));
        assert_eq!((house.state().unwrap().managed, house.state().unwrap().sockets), (3, 2));
        first.want(0, 3).unwrap(); // all cores are asked back, and given back
        until("cores that were given back", || second.counts().unwrap().waiting == 3);
        assert_eq!(gave_back.load(Ordering::SeqCst), 3);
        let counts = second.counts().unwrap();
        assert_eq!((counts.due, counts.owned, counts.asked, counts.threads), (0, 0, 0, 3));
        let free = |core: u16, socket: u8| Owner { core, socket, thread: None, asked: false };
        assert_eq!(house.owners().unwrap(), [free(1, 0), free(300, 1), free(257, 1)]);
        let mut expected = vec![Event::Due { application: second.id(), cores: 3 }];
        for (number, core) in cores.iter().enumerate() {
            let (application, thread, core) = (second.id(), number as u32, core.unwrap());
            expected.push(Event::Got { application, thread, core });
            expected.push(Event::Asked { application, thread, core });
            expected.push(Event::Lost { application, thread, core, moved: false });
        }
        expected.push(Event::Due { application: first.id(), cores: 3 });
        expected.push(Event::Due { application: second.id(), cores: 0 });
        let mut told = events.lock().unwrap().clone();
        told.sort_by_key(|event| expected.iter().position(|one| one == event));
        assert_eq!(told, expected);
        house.close().unwrap();
    });
}

#[test]
fn what_outlives_its_house() {
    let house = open(ONE);
    let (kept, dropped) = (house.join("kept").unwrap(), house.join("dropped").unwrap());
    dropped.want(0, 1).unwrap();
    let seat = dropped.register().unwrap();
    seat.wait(None).unwrap();
    drop(dropped);
    assert_eq!((seat.keep(), seat.wait(None)), (false, Err(HouseError::Withdrawn)));
    assert_eq!(house.owners().unwrap()[0], Owner { core: 1, socket: 0, thread: None, asked: false });
    drop(house);
    assert_eq!((seat.keep(), seat.core()), (false, None));
    assert_eq!(kept.want(0, 1), Err(HouseError::Closed));
    assert_eq!(kept.register().unwrap_err(), HouseError::Closed);
    assert_eq!(kept.withdraw(), Err(HouseError::Closed));
}

#[test]
fn closes_with_threads_inside() {
    for round in 0..50 {
        let house = open(THREE);
        let applications = [house.join("a").unwrap(), house.join("b").unwrap()];
        applications[0].want(0, 3).unwrap();
        applications[1].want(0, 2).unwrap();
        let (working, ended) = (AtomicU32::new(0), AtomicU32::new(0));
        thread::scope(|scope| {
            let _closes = Closes(&house);
            for number in 0..8 {
                let (application, working, ended) = (&applications[number % 2], &working, &ended);
                scope.spawn(move || {
                    let seat = match application.register() {
                        Ok(seat) => seat,
                        Err(error) => return assert_eq!(error, HouseError::Closed),
                    };
                    let error = loop {
                        if let Err(error) = seat.wait(None) {
                            break error;
                        }
                        working.fetch_add(1, Ordering::SeqCst);
                        while seat.keep() {
                            thread::yield_now();
                        }
                    };
                    assert_eq!((error, seat.core()), (HouseError::Closed, None));
                    ended.fetch_add(1, Ordering::SeqCst);
                });
            }
            // the close comes where most wait, and in some rounds while they come
            until("threads that work", || working.load(Ordering::SeqCst) >= 3 || round % 4 == 3);
            let wanting = scope.spawn(|| {
                let mut cores = 0;
                while applications[0].want(0, cores % 4).is_ok() {
                    cores += 1;
                }
                applications[0].want(0, 1)
            });
            house.close().unwrap();
            assert_eq!(wanting.join().unwrap(), Err(HouseError::Closed));
        });
        assert!(round % 4 == 3 || ended.into_inner() > 0);
    }
}

#[test]
fn a_panic_leaves_the_house_as_it_is() {
    let house = open(ONE);
    let application = house.join("one").unwrap();
    application.want(0, 1).unwrap();
    thread::scope(|scope| {
        let panics = scope.spawn(|| {
            let seat = application.register().unwrap();
            seat.wait(None).unwrap();
            until("a thread that waits", || application.counts().unwrap().waiting == 1);
            panic!("a task that panics, as this test wants");
        });
        let waits = scope.spawn(|| {
            until("a thread that works", || application.counts().unwrap().owned == 1);
            let seat = application.register().unwrap();
            (seat.wait(Some(LONG)), seat.core())
        });
        assert!(panics.join().is_err());
        assert_eq!(waits.join().unwrap(), (Ok(()), Some(1)));
    });
    let counts = application.counts().unwrap();
    assert_eq!((counts.threads, counts.owned, counts.waiting), (0, 0, 0));
    // one that is caught within leaves the thread its core
    let seat = application.register().unwrap();
    seat.wait(None).unwrap();
    assert!(catch_unwind(AssertUnwindSafe(|| panic!("another one"))).is_err());
    assert_eq!((seat.keep(), seat.core()), (true, Some(1)));
}

#[test]
fn hooks_tell_what_happens() {
    static EVENTS: Mutex<Vec<Event>> = Mutex::new(Vec::new());
    let within: Arc<OnceLock<Arc<House>>> = Arc::default();
    let seen = Arc::clone(&within);
    let hook = move |event: &Event| {
        if let Some(house) = seen.get() {
            assert_eq!(house.state().unwrap().applications, 2); // a hook may call the house
            assert_eq!(house.close(), Err(HouseError::InHook));
        }
        EVENTS.lock().unwrap().push(*event);
    };
    let house = Arc::new(Options::new().unpinned().grace(Duration::from_millis(2)).hook(hook).open(ONE).unwrap());
    assert!(within.set(Arc::clone(&house)).is_ok());
    let (low, high) = (house.join("low").unwrap(), house.join("high").unwrap());
    low.want(1, 1).unwrap();
    let seat = low.register().unwrap();
    seat.wait(None).unwrap();
    thread::scope(|scope| {
        scope.spawn(|| {
            let seat = high.register().unwrap();
            high.want(0, 1).unwrap();
            seat.wait(Some(LONG)).unwrap(); // the other one stays past the grace
            seat.give_back().unwrap();
        });
    });
    assert_eq!((seat.keep(), seat.core(), house.state().unwrap().moved), (false, None, 1));
    // the house's own thread tells of the moved one while the other gets the core, or later
    until("eight events", || EVENTS.lock().unwrap().len() >= 8);
    drop(seat);
    house.close().unwrap();
    let (low, high, thread, core) = (low.id(), high.id(), 0, 1);
    let expected = [
        Event::Due { application: low, cores: 1 },
        Event::Due { application: low, cores: 0 }, // the other one's level is served first
        Event::Due { application: high, cores: 1 },
        Event::Got { application: low, thread, core },
        Event::Asked { application: low, thread, core },
        Event::Lost { application: low, thread, core, moved: true },
        Event::Got { application: high, thread, core },
        Event::Lost { application: high, thread, core, moved: false },
    ];
    let mut events = EVENTS.lock().unwrap().clone();
    events.sort_by_key(|event| expected.iter().position(|one| one == event));
    assert_eq!(events, expected);
}

thread_local! {
    /// A seat that a hook drops.
    static SEAT: RefCell<Option<Seat>> = const { RefCell::new(None) };
}

#[test]
fn a_hook_registers_nobody_and_drops_a_seat() {
    let within: Arc<OnceLock<Arc<[Application; 2]>>> = Arc::default();
    let dropped = Arc::new(AtomicU32::new(0));
    let (seen, counted) = (Arc::clone(&within), Arc::clone(&dropped));
    let hook = move |event: &Event| {
        let (Event::Due { .. }, Some(applications)) = (event, seen.get()) else { return };
        assert_eq!(applications[0].register().unwrap_err(), HouseError::InHook);
        if let Some(seat) = SEAT.take() {
            counted.fetch_add(1, Ordering::SeqCst);
            drop(seat);
        }
        if counted.load(Ordering::SeqCst) == 1 {
            counted.fetch_add(1, Ordering::SeqCst);
            applications[0].want(3, 2).unwrap(); // a hook in a hook, behind which the thread is still there
        }
        let there = if counted.load(Ordering::SeqCst) > 0 { 1 } else { 0 };
        assert_eq!(applications[1].counts().unwrap().threads, there);
    };
    let house = Options::new().unpinned().grace(LONG).hook(hook).open(THREE).unwrap();
    let applications = Arc::new([house.join("first").unwrap(), house.join("second").unwrap()]);
    let [first, second] = &*applications;
    second.want(0, 1).unwrap(); // before the hook knows them
    let seat = second.register().unwrap();
    seat.wait(None).unwrap();
    let counts = || (second.counts().unwrap().threads, second.counts().unwrap().owned);
    SEAT.set(Some(seat));
    assert!(within.set(Arc::clone(&applications)).is_ok());
    first.want(1, 1).unwrap(); // which tells the hook
    assert_eq!((dropped.load(Ordering::SeqCst), counts()), (2, (0, 0)));
    let seat = second.register().unwrap(); // the thread may register again
    dropped.store(3, Ordering::SeqCst);
    SEAT.set(Some(seat));
    first.want(1, 1).unwrap();
    assert_eq!((dropped.load(Ordering::SeqCst), counts()), (4, (0, 0)));
    // a thread that ends before it makes another call
    let thread = thread::spawn({
        let applications = Arc::clone(&applications);
        move || SEAT.set(Some(applications[1].register().unwrap()))
    });
    thread.join().unwrap();
    assert_eq!(counts(), (0, 0));
    house.close().unwrap();
}

#[test]
fn another_thread_ends_a_wait() {
    let house = open(ONE);
    let application = house.join("pool").unwrap();
    let ended = Mutex::new(Vec::new()); // the numbers of threads whose wait has ended
    thread::scope(|scope| {
        let ended = &ended;
        let waits = || {
            let seat = application.register().unwrap();
            let ending = seat.wait(Some(LONG));
            ended.lock().unwrap().push(seat.number());
            ending
        };
        let (one, other) = (scope.spawn(waits), scope.spawn(waits));
        until("two waiting", || application.counts().unwrap().waiting == 2);
        application.end_wait(1).unwrap();
        until("one waiting", || application.counts().unwrap().threads == 1);
        assert_eq!(*ended.lock().unwrap(), [1]);
        application.end_wait(1).unwrap(); // whose number no thread has now
        assert_eq!(application.counts().unwrap().waiting, 1);
        application.end_waits().unwrap();
        for thread in [one, other] {
            assert_eq!(thread.join().unwrap(), Err(HouseError::WaitEnded));
        }
    });
    application.withdraw().unwrap();
    assert_eq!(application.end_waits(), Err(HouseError::Withdrawn));
}

/// Tests that open this process's house, of those that pin nobody, take turns.
static SHARED: Mutex<()> = Mutex::new(());

fn alone() -> MutexGuard<'static, ()> {
    SHARED.lock().unwrap_or_else(PoisonError::into_inner) // also after a test that failed
}

#[test]
fn one_process_has_one_house() {
    // of those that pin nobody: other tests have theirs pinned
    let _alone = alone();
    let opens = |options: Options| options.unpinned().open_own();
    let one = opens(Options::new()).unwrap();
    let other = opens(Options::new().grace(Duration::from_millis(10))).unwrap();
    let application = one.join("one").unwrap();
    assert_eq!((other.state().unwrap().applications, other.state().unwrap().opens), (1, 2));
    assert_eq!(opens(Options::new().grace(Duration::from_millis(11))).unwrap_err(), HouseError::OtherOptions);
    assert_eq!(opens(Options::new().hook(|_| ())).unwrap_err(), HouseError::OtherOptions);
    let own = opens(Options::new().own().hook(|_| ())).unwrap();
    assert_eq!(own.state().unwrap().applications, 0);
    other.close().unwrap();
    assert_eq!(other.close(), Err(HouseError::Closed)); // its own share, once
    drop(other);
    application.want(0, 1).unwrap();
    assert_eq!(one.state().unwrap().opens, 1);
    one.close().unwrap();
    assert_eq!(application.want(0, 1), Err(HouseError::Closed));

    let text = "[[socket]]\nmanaged = [900]\nunmanaged = [0]\n";
    let pins = House::open(text).unwrap();
    assert_eq!(House::open(text).unwrap_err(), HouseError::CoreTaken(900));
    drop(pins);
    House::open(text).unwrap();
}

/// Says when it is dropped.
struct Dropped(Arc<AtomicU64>);

impl Drop for Dropped {
    fn drop(&mut self) {
        self.0.fetch_add(1, Ordering::SeqCst);
    }
}

#[test]
fn each_application_is_watched_by_its_own() {
    let house = Options::new().unpinned().open(THREE).unwrap();
    let (one, other) = (house.join("one").unwrap(), house.join("other").unwrap());
    let events = Arc::new(Mutex::new(Vec::new()));
    let dropped = Arc::new(AtomicU64::new(0));
    let watches = |application: &Application, name: &'static str| {
        let (events, flag) = (Arc::clone(&events), Dropped(Arc::clone(&dropped)));
        application.watch(move |event| {
            let _ = &flag;
            events.lock().unwrap().push((name, *event));
        })
    };
    watches(&one, "one").unwrap();
    watches(&other, "other").unwrap();
    one.want(0, 3).unwrap();
    other.want(3, 1).unwrap(); // nothing is left for it
    assert_eq!(*events.lock().unwrap(), [("one", Event::Due { application: one.id(), cores: 3 })]);
    watches(&one, "again").unwrap();
    assert_eq!(dropped.load(Ordering::SeqCst), 1);
    one.want(0, 2).unwrap();
    assert_eq!(
        events.lock().unwrap()[1..],
        [
            ("again", Event::Due { application: one.id(), cores: 2 }),
            ("other", Event::Due { application: other.id(), cores: 1 })
        ]
    );
    one.unwatch().unwrap();
    assert_eq!(dropped.load(Ordering::SeqCst), 2);
    one.want(0, 0).unwrap();
    assert_eq!(events.lock().unwrap().len(), 3);
    drop(other);
    assert_eq!(dropped.load(Ordering::SeqCst), 3);
    house.close().unwrap();
    assert_eq!(watches(&one, "late"), Err(HouseError::Closed));
    assert_eq!(dropped.load(Ordering::SeqCst), 4);
}

/// What a hook has, so that it is seen when that goes.
struct Kept {
    calls: Arc<AtomicU32>,
    inside: Arc<AtomicU32>,
    dropped: Arc<AtomicU32>, // how often, and 1000 more where a call went on
    there: AtomicBool,
}

impl Kept {
    fn call(&self, event: &Event) {
        self.inside.fetch_add(1, Ordering::SeqCst);
        if let Event::Lost { .. } = event {
            thread::sleep(Duration::from_micros(300));
        }
        self.calls.fetch_add(if self.there.load(Ordering::SeqCst) { 1 } else { 1000 }, Ordering::SeqCst);
        self.inside.fetch_sub(1, Ordering::SeqCst);
    }
}

impl Drop for Kept {
    fn drop(&mut self) {
        self.there.store(false, Ordering::SeqCst);
        let inside = self.inside.load(Ordering::SeqCst);
        self.dropped.fetch_add(if inside == 0 { 1 } else { 1000 }, Ordering::SeqCst);
    }
}

#[test]
fn a_hook_goes_with_the_last_opener() {
    let _alone = alone();
    for round in 0..600 {
        let (calls, inside, dropped) = (Arc::default(), Arc::default(), Arc::default());
        let (told, gone): (Arc<AtomicU32>, Arc<AtomicU32>) = (Arc::clone(&calls), Arc::clone(&dropped));
        let kept = Kept { calls, inside, dropped, there: AtomicBool::new(true) };
        let first = Options::new().unpinned().hook(move |event| kept.call(event)).open_own().unwrap();
        let second = Options::new().unpinned().open_own().unwrap();
        let application = second.join("one").unwrap();
        application.want(0, 1).unwrap(); // due
        let seat = application.register().unwrap();
        seat.wait(None).unwrap(); // got
        let seen = || (told.load(Ordering::SeqCst), gone.load(Ordering::SeqCst));
        assert_eq!(seen(), (2, 0));
        match round {
            0 | 1 => {
                let (one, other) = if round == 0 { (first, second) } else { (second, first) };
                drop(one);
                assert_eq!((other.state().unwrap().opens, seen()), (1, (2, 0)));
                application.want(0, 2).unwrap(); // due
                assert_eq!(seen(), (3, 0));
                drop(other);
                assert_eq!(seen(), (4, 1)); // lost
            }
            _ => {
                // the other one closes as soon as this one's close, which isn't the last, is counted
                let closes = thread::spawn(move || {
                    while second.state().unwrap().opens == 2 {}
                    drop(second);
                });
                drop(first);
                closes.join().unwrap();
                assert_eq!(seen(), (3, 1), "round {round}");
            }
        }
        drop((seat, application));
        assert_eq!(gone.load(Ordering::SeqCst), 1);
    }
}

#[test]
fn a_hook_that_panics_aborts() {
    const NAME: &str = "VOLDAZPE_TEST_HOOK_PANICS";
    if env::var_os(NAME).is_some() {
        let house = Options::new().unpinned().hook(|event| panic!("{event:?}")).open(ONE).unwrap();
        let application = house.join("one").unwrap();
        application.want(0, 1).unwrap();
        let _ = application.register().unwrap().wait(None);
        process::exit(0);
    }
    let mut child = Command::new(env::current_exe().unwrap());
    child.args(["--exact", "a_hook_that_panics_aborts", "--nocapture"]).env(NAME, "1");
    let status = child.stdout(Stdio::null()).stderr(Stdio::null()).status().unwrap();
    assert_eq!(std::os::unix::process::ExitStatusExt::signal(&status), Some(6));
    // SIGABRT
}

/// The processors that the calling thread may use.
fn allowed() -> String {
    let status = fs::read_to_string("/proc/thread-self/status").unwrap();
    let line = status.lines().find_map(|line| line.strip_prefix("Cpus_allowed_list:")).unwrap();
    line.trim().to_owned()
}

#[test]
fn threads_are_pinned_to_their_cores() {
    let before = allowed();
    let house = House::open_own().unwrap();
    let application = house.join("one").unwrap();
    application.want(0, 1).unwrap();
    let seat = application.register().unwrap();
    let unmanaged = allowed();
    seat.wait(None).unwrap();
    if house.affinity() == Ok(()) {
        assert_eq!(Some(allowed()), seat.core().map(|core| core.to_string()));
        seat.give_back().unwrap();
        assert_eq!(allowed(), unmanaged);
        assert!(house.owners().unwrap().iter().all(|owner| owner.thread.is_none()));
    } else {
        println!("house: skipped: pinning: it is refused here");
    }
    drop(seat);
    assert_eq!(allowed(), before);
}

/// A folder of this test's own.
fn folder() -> PathBuf {
    let folder = env::temp_dir().join(format!("voldazpe-house-{}", process::id()));
    let _ = fs::remove_dir_all(&folder); // of an earlier process with this number
    fs::create_dir(&folder).unwrap();
    folder
}

/// Whether `arbiter live --endless` of the journal's script prints its replies, to the byte.
fn replays(arbiter: &str, folder: &Path) {
    let file = |name: &str| folder.join(name);
    let mut live = Command::new(arbiter);
    live.args(["live", "--endless", "--config"]).arg(file("machine.toml"));
    let printed = live.stdin(fs::File::open(file("00000000.script")).unwrap()).output().unwrap();
    assert!(printed.status.success(), "{}", String::from_utf8_lossy(&printed.stderr));
    assert!(printed.stdout == fs::read(file("00000000.replies")).unwrap(), "the replies differ");
}

#[test]
fn the_journal_replays() {
    let folder = folder();
    let options = Options::new().unpinned().grace(Duration::from_millis(1)).journal(&folder);
    let house = options.open(THREE).unwrap();
    let applications = [house.join("a").unwrap(), house.join("b").unwrap(), house.join("c").unwrap()];
    let rounds = AtomicU32::new(0);
    thread::scope(|scope| {
        for number in 0..6 {
            let (application, rounds) = (&applications[number % 3], &rounds);
            scope.spawn(move || {
                while rounds.fetch_add(1, Ordering::SeqCst) < 3000 {
                    let seat = application.register().unwrap();
                    for _ in 0..4 {
                        let _ = seat.wait(Some(Duration::from_micros(100)));
                    }
                }
            });
        }
        scope.spawn(|| {
            let mut step = 0;
            while rounds.load(Ordering::SeqCst) < 3000 || step < 2100 {
                step += 1;
                applications[step % 3].want(step as u32 % 8, step as u32 % 4).unwrap();
            }
        });
    });
    let state = house.state().unwrap();
    assert!(state.orders > 2000 && !state.journal_failed, "{state:?}");
    house.close().unwrap();
    assert_eq!(Options::new().unpinned().journal(&folder).open(THREE).unwrap_err(), HouseError::JournalThere);
    let mut files: Vec<_> = fs::read_dir(&folder).unwrap().map(|entry| entry.unwrap().file_name()).collect();
    files.sort();
    assert_eq!(files, ["00000000.replies", "00000000.script", "machine.toml"]);
    let script = fs::read_to_string(folder.join("00000000.script")).unwrap();
    assert_eq!(script.lines().count() as u64, state.orders + 1);
    assert!(script.ends_with("\ncores\n"));
    match env::var("ARBITER") {
        Ok(arbiter) => replays(&arbiter, &folder),
        Err(_) => println!("house: skipped: the journal's replay: ARBITER names no program"),
    }
    fs::remove_dir_all(&folder).unwrap();
}

#[test]
fn what_goes_between_threads() {
    fn shared<T: Send + Sync>() {}
    shared::<House>();
    shared::<Application>();
    shared::<HouseError>();
}
