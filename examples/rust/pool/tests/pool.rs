//! All tasks end, whatever cores come and go. Never do more workers work than there are cores. Then a panic, and the
//! house's end.

use pool::{Pool, Scope};
use std::sync::atomic::{AtomicBool, AtomicU32, AtomicU64, Ordering::SeqCst};
use std::sync::Arc;
use std::thread;
use std::time::{Duration, Instant};
use voldazpe::house::{Event, Options};
use voldazpe::House;

const THREE: &str = "[[socket]]\nmanaged = [1, 2, 3]\nunmanaged = [0]\n";

fn until(what: &str, mut holds: impl FnMut() -> bool) {
    let end = Instant::now() + Duration::from_secs(60);
    while !holds() {
        assert!(Instant::now() < end, "{what} never came");
        thread::sleep(Duration::from_micros(200));
    }
}

fn work(value: u64) -> u64 {
    (0..1000u64).fold(value, |value, step| std::hint::black_box(value.wrapping_mul(31).wrapping_add(step)))
}

/// What tasks leave: how many there were, their sum, and how many workers worked at the same time.
#[derive(Default)]
struct Seen {
    tasks: AtomicU64,
    sum: AtomicU64,
    working: AtomicU32,
    most: AtomicU32,
}

impl Seen {
    fn task(&self, number: u64) {
        self.most.fetch_max(self.working.fetch_add(1, SeqCst) + 1, SeqCst);
        self.sum.fetch_add(work(number), SeqCst);
        self.tasks.fetch_add(1, SeqCst);
        self.working.fetch_sub(1, SeqCst);
    }

    /// Runs a task and the tasks below it: each number up to `count` once, as in a binary heap.
    fn tree(self: &Arc<Seen>, scope: &Scope, number: u64, count: u64) {
        self.task(number);
        for below in [2 * number, 2 * number + 1] {
            if below <= count {
                let seen = Arc::clone(self);
                scope.spawn(move |scope| seen.tree(scope, below, count));
            }
        }
    }

    /// Checks that each number up to `count` was there `times` times.
    fn check(&self, count: u64, times: u64) {
        assert_eq!(self.tasks.load(SeqCst), count * times);
        let sum = (1..=count).map(work).fold(0, u64::wrapping_add);
        assert_eq!(self.sum.load(SeqCst), sum.wrapping_mul(times));
    }
}

/// A house of three cores. Its threads run where the operating system places them, and none is moved.
fn house() -> House {
    Options::new().unpinned().grace(Duration::from_secs(60)).open(THREE).unwrap()
}

fn spawn_tree(pool: &Pool, seen: &Arc<Seen>, count: u64) {
    let seen = Arc::clone(seen);
    pool.spawn(move |scope| seen.tree(scope, 1, count));
}

#[test]
fn two_pools_end_while_cores_come_and_go() {
    let house = house();
    let third = house.join("takes").unwrap();
    let all = Arc::new(Seen::default());
    let ends = AtomicBool::new(false);
    thread::scope(|scope| {
        // takes up to all cores for a moment, again and again, before both pools
        for _ in 0..3 {
            scope.spawn(|| {
                let seat = third.register().unwrap();
                while !ends.load(SeqCst) {
                    if seat.wait(Some(Duration::from_millis(1))).is_ok() {
                        thread::sleep(Duration::from_micros(300));
                        seat.give_back().unwrap();
                    }
                }
            });
        }
        scope.spawn(|| {
            for turn in 0.. {
                if ends.load(SeqCst) {
                    break;
                }
                third.want(0, turn % 4).unwrap();
                thread::sleep(Duration::from_micros(500));
            }
        });
        let pools = [("one", 1), ("two", 2)].map(|(name, level)| Pool::start(house.join(name).unwrap(), level, 5));
        let seen = [Arc::clone(&all), Arc::new(Seen::default())];
        let orders = || house.state().unwrap().orders;
        let mut trees = 0;
        while trees == 0 || (orders() <= 1000 && trees < 1000) {
            trees += 1; // more than one if few cores came and went meanwhile
            for (pool, seen) in pools.iter().zip(&seen) {
                spawn_tree(pool, seen, 100_000);
            }
            pools.iter().for_each(Pool::wait);
        }
        ends.store(true, SeqCst);
        seen.iter().for_each(|seen| seen.check(100_000, trees));
        assert!(seen.iter().all(|seen| seen.most.load(SeqCst) <= 3));
        assert!(orders() > 1000);
    });
    assert_eq!(house.state().unwrap().moved, 0);
}

#[test]
fn all_workers_together_have_no_more_than_the_cores() {
    let house = house();
    let seen = Arc::new(Seen::default());
    let pools: Vec<Pool> = (0..3).map(|level| Pool::start(house.join("p").unwrap(), level, 4)).collect();
    for pool in &pools {
        // a task that ends once two workers work at the same time
        let seen = Arc::clone(&seen);
        pool.spawn(move |_| {
            seen.working.fetch_add(1, SeqCst);
            until("two at a time", || seen.working.load(SeqCst) >= 2 || seen.most.load(SeqCst) >= 2);
            seen.most.fetch_max(2, SeqCst);
            seen.working.fetch_sub(1, SeqCst);
        });
    }
    for number in 1..=30_000u64 {
        let seen = Arc::clone(&seen);
        pools[number as usize % 3].spawn(move |_| seen.task(number));
    }
    pools.iter().for_each(Pool::wait);
    seen.check(30_000, 1);
    let most = seen.most.load(SeqCst);
    assert!((2..=3).contains(&most), "{most} at a time");
    until("no core that is asked back", || house.owners().unwrap().iter().all(|owner| !owner.asked));
}

#[test]
fn an_idle_pool_wants_nothing() {
    let house = house();
    let application = house.join("idle").unwrap();
    let id = application.id();
    let pool = Pool::start(application, 0, 4);
    let seen = Arc::new(Seen::default());
    spawn_tree(&pool, &seen, 1000);
    pool.wait();
    seen.check(1000, 1);
    let has_cores = || house.owners().unwrap().iter().any(|owner| owner.thread.is_some_and(|(owner, _)| owner == id));
    until("idle workers without cores", || !has_cores());
    until("a while without an order", || {
        let orders = house.state().unwrap().orders;
        thread::sleep(Duration::from_millis(20)); // a worker may come late, and say that it is idle
        !has_cores() && house.state().unwrap().orders == orders
    });
}

#[test]
fn a_task_that_panics_ends() {
    let house = house();
    let pool = Pool::start(house.join("panics").unwrap(), 0, 2);
    let seen = Arc::new(Seen::default());
    pool.spawn(|_| panic!("as this test wants"));
    spawn_tree(&pool, &seen, 500);
    pool.wait();
    seen.check(500, 1);
}

#[test]
fn the_houses_end_ends_no_task() {
    let got = Arc::new(AtomicU32::new(0));
    let counts = Arc::clone(&got);
    let hook = move |event: &Event| {
        if let Event::Got { .. } = event {
            counts.fetch_add(1, SeqCst);
        }
    };
    let house = Options::new().unpinned().hook(hook).open(THREE).unwrap();
    let pool = Pool::start(house.join("late").unwrap(), 0, 4);
    let seen = Arc::new(Seen::default());
    spawn_tree(&pool, &seen, 20_000);
    while seen.tasks.load(SeqCst) < 100 {
        thread::yield_now();
    }
    house.close().unwrap();
    pool.wait();
    seen.check(20_000, 1);
    assert!(got.load(SeqCst) > 0);
    drop(house);
    spawn_tree(&pool, &seen, 0);
    drop(pool);
    assert_eq!(seen.tasks.load(SeqCst), 20_001);
}
