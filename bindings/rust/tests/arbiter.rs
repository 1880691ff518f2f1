//! The arbiter through the safe interface: a worked script, each fault, and threads.

use std::sync::atomic::{AtomicU32, Ordering};
use std::sync::{Arc, Mutex};
use std::thread;
use std::time::{Duration, Instant};
use voldazpe::{
    Client, ConfigFault, Counts, GiveError, Half, LocalArbiter, Machine, ManagedCore, OpenError, Order, Place, Refusal,
    Reply, Request, Thread, UnmanagedCore,
};

const TWO_SOCKETS: &str = "grace = 10000\n[[socket]]\nmanaged = [1, 2, 3]\nunmanaged = [0]\n\
                           [[socket]]\nmanaged = [5, 6, 7]\nunmanaged = [4]\n";

fn thread(application: u8, thread: u8) -> Thread {
    Thread::new(application, thread).unwrap()
}

fn cores(count: u8) -> Order {
    Order::Ask(Request::at(0, count).unwrap())
}

#[test]
fn three_applications_share_six_cores() {
    let mut arbiter = LocalArbiter::open(TWO_SOCKETS).unwrap();
    let page = arbiter.page();
    let orders: [(Client, Order, &str); 16] = [
        (thread(0, 0).into(), Order::Join, "joined"),
        (thread(0, 0).into(), cores(2), "due 2"),
        (thread(0, 0).into(), Order::Block, "now core 1"),
        (thread(0, 1).into(), Order::Block, "now core 2"),
        (thread(1, 0).into(), Order::Join, "joined"),
        (thread(1, 0).into(), cores(6), "due 4"),
        (thread(1, 0).into(), Order::Block, "now core 3"),
        (thread(1, 1).into(), Order::Block, "now core 5"),
        (thread(1, 2).into(), Order::Block, "now core 6"),
        (thread(1, 3).into(), Order::Block, "now core 7"),
        (thread(2, 0).into(), Order::Join, "joined"),
        (thread(2, 0).into(), cores(6), "due 2"),
        (thread(2, 0).into(), Order::Block, "now waiting"),
        (thread(1, 0).into(), Order::Block, "now waiting"),
        (Client::Clock, Order::Tick(10000), "moved 1"),
        (thread(1, 0).into(), Order::Status, "counts due 2 owned 2 asked 0 waiting 1"),
    ];
    for (count, (client, order, reply)) in orders.into_iter().enumerate() {
        assert_eq!(arbiter.give(client, order).unwrap().to_string(), reply);
        assert_eq!(page.entered(), count as u64 + 1);
        if count == 11 {
            assert_eq!(page.asked_cores(1, Half::Low), Some(36));
            assert_eq!(page.must_release(thread(1, 0)), Some(true));
            assert_eq!(page.place_word(thread(1, 0)), 9);
        }
    }
    assert_eq!(arbiter.owner(3), Some(thread(2, 0)));
    assert_eq!((arbiter.owner(7), arbiter.owner(0), arbiter.owner(9)), (None, None, None));
    assert_eq!(arbiter.place(thread(1, 3)), Place::Moved);
    assert_eq!(arbiter.place(thread(2, 0)), Place::On { core: 3, asked: false });
    assert_eq!(page.position(thread(2, 0)), Some(2));
    assert_eq!((page.position(thread(1, 0)), page.must_release(thread(1, 3))), (None, None));
    assert_eq!((page.asked_cores(15, Half::High), page.asked_cores(16, Half::Low)), (Some(0), None));
    assert_eq!((arbiter.orders(), arbiter.clock()), (16, 10000));
    assert_eq!((arbiter.count(thread(1, 0)), arbiter.count(Client::Clock), arbiter.count(thread(9, 9))), (5, 1, 0));
    assert_eq!(arbiter.machine(), Machine { grace: 10000, orders: None, managed: 6, sockets: 2 });
    assert_eq!(arbiter.core_at(3), Some(ManagedCore { number: 5, socket: 1 }));
    assert_eq!(arbiter.core_at(6), None);
    let unmanaged: Vec<UnmanagedCore> = (0..).map_while(|index| arbiter.unmanaged_at(index)).collect();
    assert_eq!(unmanaged, [UnmanagedCore { number: 0, socket: 0 }, UnmanagedCore { number: 4, socket: 1 }]);
    assert_eq!(arbiter.counts(1), Some(Counts { due: 2, owned: 2, asked: 0, waiting: 1 }));
    assert_eq!((arbiter.counts(9), arbiter.counts(16)), (Some(Counts::default()), None));
    assert_eq!(arbiter.request(0), Request::at(0, 2));
    assert_eq!((arbiter.request(9), arbiter.request(16)), (None, None));
    assert_eq!(arbiter.orders(), 16); // reading is no order
}

#[test]
fn a_request_is_read_cut_at_its_cap() {
    let mut arbiter = LocalArbiter::open(TWO_SOCKETS).unwrap();
    let me = thread(15, 31);
    assert_eq!(arbiter.request(15), None);
    arbiter.give(me, Order::Join).unwrap();
    assert_eq!(arbiter.request(15), Some(Request::default()));
    arbiter.give(me, Order::Ask(Request::new([1, 0, 4, 0, 0, 0, 0, 128]).unwrap())).unwrap();
    assert_eq!(arbiter.request(15).unwrap().entries(), [1, 0, 4, 0, 0, 0, 0, 128]);
    arbiter.give(me, Order::Cap(3)).unwrap();
    assert_eq!(arbiter.request(15).unwrap().entries(), [1, 0, 2, 0, 0, 0, 0, 0]);
    arbiter.give(me, Order::Leave).unwrap();
    assert_eq!((arbiter.request(15), arbiter.counts(15)), (None, Some(Counts::default())));
}

#[test]
fn a_core_or_none() {
    let mut arbiter = LocalArbiter::open("[[socket]]\nmanaged = [0]\nunmanaged = [1]\n").unwrap();
    let (me, other) = (thread(0, 0), thread(0, 1));
    assert_eq!(arbiter.give(me, Order::Block).unwrap().core(), None); // refused
    assert_eq!(arbiter.give(me, Order::Join).unwrap().core(), None);
    assert_eq!(arbiter.give(me, cores(2)).unwrap().core(), None);
    assert_eq!(arbiter.give(me, Order::Block).unwrap().core(), Some(0));
    assert_eq!(arbiter.give(other, Order::Block).unwrap().core(), None); // it waits
    assert_eq!((arbiter.place(me).core(), arbiter.place(other).core()), (Some(0), None));
}

#[test]
fn faults_of_texts() {
    let refused = |text: &str| LocalArbiter::open(text).unwrap_err();
    let one = "[[socket]]\nmanaged = [1]\nunmanaged = [0]\n";
    let faults = [
        ("managed = [".to_string(), ConfigFault::NotToml),
        (format!("{one}speed = 1\n"), ConfigFault::UnknownKey),
        (String::new(), ConfigFault::BadKey),
        (format!("grace = 0\n{one}"), ConfigFault::OutOfRange),
        ("socket = []\n".to_string(), ConfigFault::SocketCount),
        ("[[socket]]\nmanaged = [3, 3]\nunmanaged = [0]\n".to_string(), ConfigFault::CoreTwice(3)),
        ("[[socket]]\nmanaged = []\nunmanaged = [0]\n".to_string(), ConfigFault::ManagedCount),
        ("[[socket]]\nmanaged = [1]\nunmanaged = []\n".to_string(), ConfigFault::NoUnmanaged),
    ];
    for (text, fault) in faults {
        assert_eq!(refused(&text), OpenError::Config(fault));
    }
    assert_eq!(refused(&"#".repeat(65_537)), OpenError::TooLong);
    assert_eq!(refused("[[socket]]\nmanaged = [3, 3]\nunmanaged = [0]\n").to_string(), "C6 core 3 listed twice");
}

#[test]
fn refusals_and_the_limit() {
    let mut arbiter = LocalArbiter::open("orders = 7\n[[socket]]\nmanaged = [1]\nunmanaged = [0]\n").unwrap();
    let (me, other) = (thread(0, 0), thread(1, 0));
    assert_eq!(arbiter.machine().orders, Some(7));
    let mut refused = |client: Client, order| match arbiter.give(client, order) {
        Ok(Reply::Refused(refusal)) => refusal,
        reply => panic!("{reply:?}"),
    };
    assert_eq!(refused(Client::Clock, Order::Join), Refusal::NotAThread);
    assert_eq!(refused(other.into(), Order::Status), Refusal::NotJoined);
    assert_eq!(arbiter.give(me, Order::Join), Ok(Reply::Joined));
    assert_eq!(arbiter.give(me, Order::Cap(129)), Ok(Reply::Refused(Refusal::CapTooLarge)));
    assert_eq!(arbiter.give(Client::Clock, Order::Tick(5)), Ok(Reply::Moved(0)));
    let back = arbiter.give(Client::Clock, Order::Tick(4)).unwrap();
    assert_eq!((back, back.to_string().as_str()), (Reply::Refused(Refusal::ClockBack(5)), "refused 5 clock-back 5"));
    assert_eq!(arbiter.give(me, Order::Leave), Ok(Reply::Done));
    assert_eq!(arbiter.give(me, Order::Join), Err(GiveError::Full));
    assert_eq!(
        (Thread::new(16, 0), Thread::new(0, 32), Request::at(8, 1), Request::at(0, 129)),
        (None, None, None, None)
    );
}

#[test]
fn orders_have_no_end_where_the_text_has_none() {
    let mut arbiter = LocalArbiter::open(TWO_SOCKETS).unwrap();
    let (me, other, page) = (thread(0, 0), thread(3, 9), arbiter.page());
    for client in [me, other] {
        arbiter.give(client, Order::Join).unwrap();
    }
    arbiter.give(me, cores(1)).unwrap();
    arbiter.give(me, Order::Block).unwrap();
    let counts = Reply::Counts { due: 0, owned: 0, asked: 0, waiting: 0 };
    for count in 5..=2_000_010 {
        assert_eq!(arbiter.give(other, Order::Status), Ok(counts));
        assert_eq!(page.entered(), count);
    }
    assert_eq!((arbiter.orders(), arbiter.count(me), arbiter.count(other)), (2_000_010, 3, 2_000_007));
    assert_eq!((page.must_release(me), arbiter.place(me).core()), (Some(false), Some(1)));
}

#[test]
fn threads_hand_one_core_on() {
    let arbiter = LocalArbiter::open("[[socket]]\nmanaged = [1]\nunmanaged = [0]\n").unwrap();
    let page = arbiter.page();
    let arbiter = Arc::new(Mutex::new(arbiter));
    let on_core = Arc::new(AtomicU32::new(0));
    let give = |client: Thread, order| arbiter.lock().unwrap().give(client, order).unwrap();
    give(thread(0, 0), Order::Join);
    give(thread(0, 0), cores(1));
    thread::scope(|scope| {
        for number in 0..4 {
            let (give, page, on_core) = (&give, &page, &on_core);
            scope.spawn(move || {
                let me = thread(0, number);
                for _ in 0..500 {
                    give(me, Order::Block);
                    assert!(page.wait(me, None));
                    assert_eq!(page.position(me), Some(0));
                    assert_eq!(on_core.swap(1, Ordering::SeqCst), 0);
                    assert_eq!(on_core.swap(0, Ordering::SeqCst), 1);
                    give(me, Order::Retire);
                }
            });
        }
    });
    give(thread(0, 0), Order::Block);
    give(thread(0, 1), Order::Block);
    assert!(!page.wait(thread(0, 1), Some(Duration::from_millis(2))));
    give(thread(0, 0), Order::Leave);
    assert!(page.wait(thread(0, 1), Some(Duration::from_secs(60))));
    assert_eq!(page.must_release(thread(0, 1)), None);
    drop(arbiter);
    assert_eq!(page.entered(), 2 + 4 * 500 * 2 + 3);
}

#[test]
fn a_dropped_arbiter_wakes_who_sleeps() {
    let mut arbiter = LocalArbiter::open("[[socket]]\nmanaged = [1]\nunmanaged = [0]\n").unwrap();
    let page = arbiter.page();
    let (first, second) = (thread(0, 0), thread(0, 1));
    arbiter.give(first, Order::Join).unwrap();
    arbiter.give(first, cores(1)).unwrap();
    arbiter.give(first, Order::Block).unwrap();
    assert_eq!(arbiter.give(second, Order::Block), Ok(Reply::Now(Place::Waiting)));
    thread::scope(|scope| {
        let sleeper = scope.spawn(|| page.wait(second, None));
        thread::sleep(Duration::from_millis(20));
        assert_eq!(page.must_release(first), Some(false));
        drop(arbiter);
        assert!(sleeper.join().unwrap());
    });
    assert_eq!((page.position(second), page.must_release(first)), (None, None));
    assert!(page.wait(second, None));
    assert_eq!(page.entered(), 4);
}

#[test]
fn a_reopened_arbiter_has_the_same_page() {
    let text = "orders = 4\n[[socket]]\nmanaged = [1]\nunmanaged = [0]\n";
    let mut arbiter = LocalArbiter::open(text).unwrap();
    let page = arbiter.page();
    let (first, second) = (thread(0, 0), thread(0, 1));
    for order in [Order::Join, cores(1), Order::Block] {
        arbiter.give(first, order).unwrap();
    }
    assert_eq!(arbiter.give(second, Order::Block), Ok(Reply::Now(Place::Waiting)));
    assert_eq!(arbiter.give(first, Order::Block), Err(GiveError::Full));
    assert_eq!((arbiter.request(0), arbiter.counts(0).unwrap().owned), (Request::at(0, 1), 1)); // still readable

    // a text that is refused changes nothing
    assert_eq!(arbiter.reopen("managed = ["), Err(OpenError::Config(ConfigFault::NotToml)));
    assert_eq!((page.must_release(first), page.entered(), arbiter.orders()), (Some(false), 4, 4));

    thread::scope(|scope| {
        let sleeper = scope.spawn(|| page.wait(second, Some(Duration::from_secs(60))));
        thread::sleep(Duration::from_millis(20));
        assert!(!sleeper.is_finished());
        arbiter.reopen(text).unwrap();
        assert!(sleeper.join().unwrap());
    });
    assert_eq!((page.position(first), page.position(second), page.entered()), (None, None, 0));
    assert_eq!((arbiter.orders(), arbiter.request(0), arbiter.owner(1)), (0, None, None));
    for order in [Order::Join, cores(1), Order::Block] {
        arbiter.give(second, order).unwrap();
    }
    assert_eq!((page.position(second), page.must_release(first), page.entered()), (Some(0), None, 3));
    assert!(Arc::ptr_eq(&page, &arbiter.page()));
}

#[test]
fn ticks_whose_moment_is_read_under_the_lock_are_never_refused() {
    let start = Instant::now();
    let arbiter = Mutex::new(LocalArbiter::open(TWO_SOCKETS).unwrap());
    thread::scope(|scope| {
        for _ in 0..4 {
            scope.spawn(|| {
                for _ in 0..2000 {
                    let mut arbiter = arbiter.lock().unwrap();
                    let moment = start.elapsed().as_micros() as u64;
                    assert_eq!(arbiter.give(Client::Clock, Order::Tick(moment)), Ok(Reply::Moved(0)));
                }
            });
        }
    });
    let moment = arbiter.lock().unwrap().clock() + 1;
    assert_eq!(arbiter.lock().unwrap().give(Client::Clock, Order::Tick(moment + 1)), Ok(Reply::Moved(0)));
    let late = arbiter.lock().unwrap().give(Client::Clock, Order::Tick(moment)); // read before, given behind another's
    assert_eq!(late, Ok(Reply::Refused(Refusal::ClockBack(moment + 1))));
}
