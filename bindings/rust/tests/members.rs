//! Members of an arbiter: a worked script, each error, turns, waiting for each other, and one history of what threads do
//! without a lock.

use std::panic::{catch_unwind, AssertUnwindSafe};
use std::sync::atomic::{AtomicU32, Ordering};
use std::sync::Arc;
use std::thread::{self, JoinHandle};
use std::time::{Duration, Instant};
use std::{collections::BTreeMap, mem};
use voldazpe::{
    Arbiter, Client, ConfigFault, Counts, GiveError, Half, LocalArbiter, Machine, ManagedCore, Member, MemberError,
    OpenError, Order, Page, Place, Post, Refusal, Reply, Request, StepError, Thread, UnmanagedCore,
};

const ONE_CORE: &str = "[[socket]]\nmanaged = [1]\nunmanaged = [0]\n";
const TWO_SOCKETS: &str = "grace = 10000\n[[socket]]\nmanaged = [1, 2, 3]\nunmanaged = [0]\n\
                           [[socket]]\nmanaged = [5, 6, 7]\nunmanaged = [4]\n";

fn thread(application: u8, thread: u8) -> Thread {
    Thread::new(application, thread).unwrap()
}

fn threads() -> impl Iterator<Item = Thread> {
    (0..16).flat_map(|application| (0..32).map(move |number| thread(application, number)))
}

fn cores(count: u8) -> Order {
    Order::Ask(Request::at(0, count).unwrap())
}

/// What a thread answers, which may hang where something is wrong.
fn answer<T>(handle: JoinHandle<T>) -> T {
    let end = Instant::now() + Duration::from_secs(60);
    while !handle.is_finished() {
        assert!(Instant::now() < end, "a thread hangs");
        thread::sleep(Duration::from_millis(1));
    }
    handle.join().unwrap()
}

/// Each reader of the page answers as that of the member, which reads the library's words.
fn assert_page_is_as_read(page: &Page, member: &mut Member) {
    assert_eq!(page.entered(), member.entered());
    for thread in threads() {
        assert_eq!(page.place_word(thread), member.place_word(thread), "{thread}");
        assert_eq!(page.must_release(thread), member.must_release(thread), "{thread}");
        assert_eq!(page.position(thread), member.position(thread), "{thread}");
    }
    for (application, half) in (0..17).flat_map(|application| [(application, Half::Low), (application, Half::High)]) {
        assert_eq!(page.asked_cores(application, half), member.asked_cores(application, half));
    }
}

#[test]
fn threads_may_share_them() {
    fn is_sync<T: Sync>() {}
    fn is_send<T: Send>() {}
    is_sync::<Arbiter>();
    is_send::<Arbiter>();
    is_send::<Member>();
    is_sync::<Page>();
}

#[test]
fn three_members_share_six_cores() {
    let arbiter = Arbiter::open(TWO_SOCKETS).unwrap();
    let page = arbiter.page();
    let mut first = arbiter.member().unwrap();
    let mut members = [first.another().unwrap(), arbiter.member().unwrap(), first];
    let orders: [(Client, Order, &str); 16] = [
        (thread(0, 0).into(), Order::Join, "joined"),
        (thread(0, 0).into(), cores(2), "due 2"),
        (thread(0, 0).into(), Order::Block, "now core 1"),
        (thread(0, 1).into(), Order::Block, "now core 2"),
        (thread(1, 0).into(), Order::Join, "joined"),
        (thread(1, 0).into(), cores(6), "due 4"),
        (thread(1, 0).into(), Order::Block, "now core 3"),
        (thread(1, 1).into(), Order::Block, "now core 5"),
        (thread(1, 2).into(), Order::Block, "now core 6"),
        (thread(1, 3).into(), Order::Block, "now core 7"),
        (thread(2, 0).into(), Order::Join, "joined"),
        (thread(2, 0).into(), cores(6), "due 2"),
        (thread(2, 0).into(), Order::Block, "now waiting"),
        (thread(1, 0).into(), Order::Block, "now waiting"),
        (Client::Clock, Order::Tick(10000), "moved 1"),
        (thread(1, 0).into(), Order::Status, "counts due 2 owned 2 asked 0 waiting 1"),
    ];
    for (count, (client, order, reply)) in orders.into_iter().enumerate() {
        let member = &mut members[count % 3];
        let given = match count % 4 {
            0 => member.try_give(client, order).unwrap(),
            1 => member.begin().step(client, order).unwrap(),
            _ => member.give(client, order).unwrap(),
        };
        assert_eq!(given.to_string(), reply);
        assert_eq!(page.entered(), count as u64 + 1);
        assert_page_is_as_read(&page, &mut members[(count + 1) % 3]);
        if count == 11 {
            assert_eq!(members[0].asked_cores(1, Half::Low), Some(36));
            assert_eq!(members[1].must_release(thread(1, 0)), Some(true));
            assert_eq!(members[2].place_word(thread(1, 0)), 9);
        }
    }
    assert_eq!(members[0].position(thread(2, 0)), Some(2));
    assert_eq!((members[0].asked_cores(15, Half::High), members[0].asked_cores(16, Half::Low)), (Some(0), None));
    let mut turn = members[1].begin();
    assert_eq!(turn.owner(3), Some(thread(2, 0)));
    assert_eq!((turn.owner(7), turn.owner(0), turn.owner(9)), (None, None, None));
    assert_eq!(turn.place(thread(1, 3)), Place::Moved);
    assert_eq!(turn.place(thread(2, 0)), Place::On { core: 3, asked: false });
    assert_eq!((turn.entered(), turn.clock()), (16, 10000));
    assert_eq!(turn.counts(1), Some(Counts { due: 2, owned: 2, asked: 0, waiting: 1 }));
    assert_eq!((turn.counts(9), turn.counts(16)), (Some(Counts::default()), None));
    assert_eq!(turn.request(0), Request::at(0, 2));
    assert_eq!((turn.request(9), turn.request(16)), (None, None));
    assert_eq!((turn.next_post(), turn.entered()), (None, 16)); // reading is no order
    turn.end();
    assert_eq!(arbiter.machine(), Machine { grace: 10000, orders: None, managed: 6, sockets: 2 });
    let managed: Vec<ManagedCore> = (0..).map_while(|position| arbiter.core_at(position)).collect();
    let core = |number, socket| ManagedCore { number, socket };
    assert_eq!(managed, [core(1, 0), core(2, 0), core(3, 0), core(5, 1), core(6, 1), core(7, 1)]);
    let unmanaged: Vec<UnmanagedCore> = (0..).map_while(|index| arbiter.unmanaged_at(index)).collect();
    assert_eq!(unmanaged, [UnmanagedCore { number: 0, socket: 0 }, UnmanagedCore { number: 4, socket: 1 }]);
    assert!(Arc::ptr_eq(&page, &members[0].page()));
}

#[test]
fn faults_of_texts() {
    let refused = |text: &str| Arbiter::open(text).unwrap_err();
    let faults = [
        ("managed = [".to_string(), ConfigFault::NotToml),
        (format!("{ONE_CORE}speed = 1\n"), ConfigFault::UnknownKey),
        (String::new(), ConfigFault::BadKey),
        (format!("grace = 0\n{ONE_CORE}"), ConfigFault::OutOfRange),
        ("socket = []\n".to_string(), ConfigFault::SocketCount),
        ("[[socket]]\nmanaged = [3, 3]\nunmanaged = [0]\n".to_string(), ConfigFault::CoreTwice(3)),
        ("[[socket]]\nmanaged = []\nunmanaged = [0]\n".to_string(), ConfigFault::ManagedCount),
        ("[[socket]]\nmanaged = [1]\nunmanaged = []\n".to_string(), ConfigFault::NoUnmanaged),
    ];
    for (text, fault) in faults {
        assert_eq!(refused(&text), OpenError::Config(fault));
    }
    assert_eq!(refused(&"#".repeat(65_537)), OpenError::TooLong);
}

#[test]
fn a_full_arbiter() {
    let arbiter = Arbiter::open(&format!("orders = 3\n{ONE_CORE}")).unwrap();
    let (mut member, page, me) = (arbiter.member().unwrap(), arbiter.page(), thread(0, 0));
    assert_eq!(arbiter.machine().orders, Some(3));
    assert_eq!(member.give(me, Order::Join), Ok(Reply::Joined));
    assert_eq!(member.give(Client::Clock, Order::Join), Ok(Reply::Refused(Refusal::NotAThread)));
    assert_eq!(member.give(me, cores(1)), Ok(Reply::Due(1)));
    assert_eq!(member.give(me, Order::Block), Err(GiveError::Full));
    assert_eq!(member.try_give(me, Order::Block), Err(GiveError::Full));
    assert_eq!(member.begin().step(me, Order::Block), Err(StepError::Full));
    assert_eq!((member.entered(), member.place_word(me)), (3, 0));
    assert_page_is_as_read(&page, &mut member);
    assert_eq!(member.begin().request(0), Request::at(0, 1)); // still readable
    let mut other = arbiter.member().unwrap();
    assert_eq!(other.give(me, Order::Leave), Err(GiveError::Full));
}

#[test]
fn an_arbiter_that_another_member_has_is_taken() {
    let arbiter = Arbiter::open(ONE_CORE).unwrap();
    let (mut first, mut second) = (arbiter.member().unwrap(), arbiter.member().unwrap());
    let me = thread(0, 0);
    let mut turn = first.begin();
    assert_eq!(second.try_give(me, Order::Join), Err(GiveError::Taken));
    assert!(second.try_begin().is_none());
    assert_eq!((second.entered(), turn.entered()), (0, 0));
    assert_eq!(turn.step(me, Order::Join), Ok(Reply::Joined));
    assert_eq!(second.try_give(me, Order::Join), Err(GiveError::Taken));
    assert_eq!(second.entered(), 1);
    let mut third = second.another().unwrap(); // which wants no turn
    assert_eq!(arbiter.member().unwrap().try_give(me, Order::Status), Err(GiveError::Taken));
    turn.end();
    assert_eq!(third.try_give(me, Order::Join), Ok(Reply::Refused(Refusal::AlreadyJoined)));
    assert_eq!(second.try_begin().unwrap().entered(), 2);
}

#[test]
fn a_turn_posts_before_its_next_order() {
    let arbiter = Arbiter::open(ONE_CORE).unwrap();
    let (mut member, page, me) = (arbiter.member().unwrap(), arbiter.page(), thread(0, 0));
    let mut turn = member.begin();
    turn.step(me, Order::Join).unwrap();
    turn.step(me, cores(1)).unwrap();
    assert_eq!(turn.step(me, Order::Block).unwrap().core(), Some(1));
    assert_eq!((page.entered(), page.place_word(me)), (3, 0)); // its count alone is posted
    assert_eq!(turn.step(me, Order::Retire), Err(StepError::Stale));
    assert_eq!((turn.entered(), turn.place(me).core()), (3, Some(1)));
    turn.post_all();
    assert_eq!((page.entered(), page.place_word(me)), (3, 4));
    assert_eq!(turn.step(me, Order::Retire), Ok(Reply::Done));
    turn.end();
    assert_eq!((page.entered(), page.place_word(me)), (4, 0));
}

/// 65 managed cores, 1 to 65.
fn wide() -> String {
    let numbers: Vec<String> = (1..=65).map(|number: u32| number.to_string()).collect();
    format!("[[socket]]\nmanaged = [{}]\nunmanaged = [0]\n", numbers.join(", "))
}

#[test]
fn posts_are_told() {
    let arbiter = Arbiter::open(&wide()).unwrap();
    let (mut member, page) = (arbiter.member().unwrap(), arbiter.page());
    let (last, claimer) = (thread(2, 31), thread(15, 31));
    for application in [0, 1] {
        member.give(thread(application, 0), Order::Join).unwrap();
        member.give(thread(application, 0), cores(32)).unwrap();
    }
    member.give(last, Order::Join).unwrap();
    member.give(last, Order::Ask(Request::at(7, 1).unwrap())).unwrap();
    for (position, blocked) in threads().take(64).chain([last]).enumerate() {
        let mut turn = member.begin();
        assert_eq!(turn.step(blocked, Order::Block).unwrap().core(), Some(position as u16 + 1));
        assert_eq!(turn.next_post(), Some(Post::Place { thread: blocked, word: 4 + 2 * position as u64 }));
        assert_eq!(page.place_word(blocked), 4 + 2 * position as u64); // by the post, and before the turn's end
        assert_eq!(turn.next_post(), None);
    }
    member.give(claimer, Order::Join).unwrap();
    let mut turn = member.begin();
    assert_eq!(turn.step(claimer, cores(1)), Ok(Reply::Due(1)));
    let asked = Post::Asked { application: 2, half: Half::High, cores: 1 };
    let place = Post::Place { thread: last, word: 4 + 2 * 64 + 1 };
    let mut posts = [turn.next_post().unwrap(), turn.next_post().unwrap()];
    posts.sort_by_key(|post| matches!(post, Post::Place { .. }));
    assert_eq!((posts, turn.next_post()), ([asked, place], None));
    assert_eq!(page.asked_cores(2, Half::High), Some(1));
    turn.step(thread(0, 0), cores(31)).unwrap();
    turn.step(last, Order::Block).unwrap_err(); // stale: a core of application 0 is asked back, in the low half
    let posts: Vec<Post> = std::iter::from_fn(|| turn.next_post()).collect();
    let low = posts.iter().find(|post| matches!(post, Post::Asked { application: 0, .. }));
    assert!(matches!(low, Some(Post::Asked { half: Half::Low, cores, .. }) if cores.is_power_of_two()), "{posts:?}");
    turn.end();
    assert_page_is_as_read(&page, &mut member);
}

/// An arbiter with one core, which the first thread has, and for which the second one waits.
fn one_on_and_one_waiting() -> (Arbiter, Member, Thread, Thread) {
    let arbiter = Arbiter::open(ONE_CORE).unwrap();
    let mut member = arbiter.member().unwrap();
    let (first, second) = (thread(0, 0), thread(0, 1));
    member.give(first, Order::Join).unwrap();
    member.give(first, cores(1)).unwrap();
    assert_eq!(member.give(first, Order::Block).unwrap().core(), Some(1));
    assert_eq!(member.give(second, Order::Block), Ok(Reply::Now(Place::Waiting)));
    (arbiter, member, first, second)
}

#[test]
fn a_turn_that_is_dropped_in_the_middle_posts_the_rest_and_ends() {
    let (arbiter, mut member, first, second) = one_on_and_one_waiting();
    let (page, mut other) = (arbiter.page(), arbiter.member().unwrap());
    let mut turn = member.begin();
    assert_eq!(turn.step(first, Order::Retire), Ok(Reply::Done));
    assert!(turn.next_post().is_some()); // one of two
    assert_ne!((page.place_word(first), page.place_word(second)), (0, 4));
    drop(turn);
    assert_eq!((page.place_word(first), page.place_word(second)), (0, 4));
    assert_page_is_as_read(&page, &mut other);
    assert_eq!(other.try_give(first, Order::Block), Ok(Reply::Now(Place::Waiting)));

    let panicked = catch_unwind(AssertUnwindSafe(|| {
        let mut turn = member.begin();
        turn.step(second, Order::Retire).unwrap();
        panic!("as a test");
    }));
    assert!(panicked.is_err());
    assert_eq!((page.place_word(first), page.place_word(second)), (4, 0));
    assert_page_is_as_read(&page, &mut other);
    assert_eq!(other.try_give(first, Order::Retire), Ok(Reply::Done));
    assert_eq!(member.try_give(first, Order::Retire), Ok(Reply::Done));
}

#[test]
fn a_turn_that_was_forgotten_goes_on() {
    let (arbiter, mut member, first, second) = one_on_and_one_waiting();
    let (page, mut other) = (arbiter.page(), arbiter.member().unwrap());
    let mut turn = member.begin();
    turn.step(first, Order::Retire).unwrap();
    mem::forget(turn);
    assert_eq!(member.give(first, Order::Block), Err(GiveError::InTurn));
    assert_eq!(member.try_give(first, Order::Block), Err(GiveError::InTurn));
    assert_eq!(member.another().unwrap_err(), MemberError::InTurn);
    assert_eq!((member.entered(), member.place_word(second)), (5, 1));
    assert_eq!(other.try_give(first, Order::Block), Err(GiveError::Taken));
    let mut turn = member.begin();
    assert_eq!(turn.step(first, Order::Block), Err(StepError::Stale));
    mem::forget(turn);
    member.try_begin().unwrap().end();
    assert_eq!((page.place_word(first), page.place_word(second)), (0, 4));
    assert_eq!(other.try_give(first, Order::Block), Ok(Reply::Now(Place::Waiting)));

    // one that is dropped in such a turn ends it
    let mut turn = member.begin();
    turn.step(second, Order::Retire).unwrap();
    mem::forget(turn);
    assert_eq!(other.try_give(first, Order::Status), Err(GiveError::Taken));
    drop(member);
    assert_eq!((page.place_word(first), page.place_word(second)), (4, 0));
    assert_eq!(other.try_give(first, Order::Retire), Ok(Reply::Done));
}

#[test]
fn members_wait_until_a_turn_ends() {
    let arbiter = Arbiter::open(ONE_CORE).unwrap();
    let (mut owner, me) = (arbiter.member().unwrap(), thread(0, 0));
    owner.give(me, Order::Join).unwrap();
    for round in 0..20 {
        let turn = owner.begin();
        let waiting: Vec<JoinHandle<u64>> = (0..4)
            .map(|number| {
                let mut member = arbiter.member().unwrap();
                thread::spawn(move || {
                    if number % 2 == 0 {
                        member.give(me, Order::Status).unwrap();
                        return 0;
                    }
                    let mut turn = member.begin();
                    turn.step(me, Order::Status).unwrap();
                    turn.entered()
                })
            })
            .collect();
        thread::sleep(Duration::from_millis(10)); // they sleep by now
        assert_eq!(arbiter.page().entered(), 1 + 4 * round);
        assert!(waiting.iter().all(|handle| !handle.is_finished()));
        turn.end();
        let mut indices: Vec<u64> = waiting.into_iter().map(answer).filter(|&index| index != 0).collect();
        indices.sort_unstable();
        assert!(indices.len() == 2 && indices[0] < indices[1]);
        assert!(indices.iter().all(|index| (2 + 4 * round..=5 + 4 * round).contains(index)), "{indices:?}");
        assert_eq!(arbiter.page().entered(), 5 + 4 * round);
    }
}

#[test]
fn a_turn_wakes_who_waits_for_a_core() {
    let (arbiter, mut member, first, second) = one_on_and_one_waiting();
    for round in 0..20 {
        let (on, waits) = if round % 2 == 0 { (first, second) } else { (second, first) };
        let page = arbiter.page();
        let sleeper = thread::spawn(move || page.wait(waits, None));
        thread::sleep(Duration::from_millis(5));
        assert!(!sleeper.is_finished());
        let mut turn = member.begin();
        turn.step(on, Order::Retire).unwrap();
        turn.end();
        assert!(answer(sleeper));
        assert_eq!(arbiter.page().position(waits), Some(0));
        assert_eq!(member.give(on, Order::Block), Ok(Reply::Now(Place::Waiting)));
    }
}

#[test]
fn a_turn_wakes_all_whose_words_it_posted() {
    let arbiter = Arbiter::open(ONE_CORE).unwrap();
    let (mut member, page) = (arbiter.member().unwrap(), arbiter.page());
    let on: Vec<Thread> = (0..16).map(|application| thread(application, 2 * application + 1)).collect();
    let first = thread(0, 0);
    member.give(first, Order::Join).unwrap();
    member.give(first, cores(1)).unwrap();
    assert_eq!(member.give(first, Order::Block).unwrap().core(), Some(1));
    for &waits in &on {
        member.give(waits, Order::Join).unwrap();
        assert_eq!(member.give(waits, Order::Block), Ok(Reply::Now(Place::Waiting)));
    }
    let sleepers: Vec<JoinHandle<bool>> = on
        .iter()
        .map(|&waits| {
            let page = Arc::clone(&page);
            thread::spawn(move || page.wait(waits, None))
        })
        .collect();
    thread::sleep(Duration::from_millis(20));
    assert!(sleepers.iter().all(|sleeper| !sleeper.is_finished()));
    let mut turn = member.begin();
    for &waits in &on {
        assert_eq!(turn.step(waits, Order::Retire), Ok(Reply::Done));
        turn.post_all();
    }
    turn.end();
    assert!(sleepers.into_iter().all(answer));
    assert_page_is_as_read(&page, &mut member);
}

#[test]
fn a_dropped_arbiter_lives_on_in_its_members() {
    let (arbiter, mut member, first, second) = one_on_and_one_waiting();
    let (page, mut other) = (arbiter.page(), arbiter.member().unwrap());
    drop(arbiter);
    assert_eq!((page.place_word(first), page.place_word(second)), (4, 1));
    assert_eq!(member.give(first, Order::Status).unwrap().to_string(), "counts due 1 owned 1 asked 0 waiting 1");
    let mut third = member.another().unwrap();
    drop(member);
    assert_eq!((page.place_word(first), page.place_word(second)), (4, 1));
    assert_eq!(third.give(second, Order::Block), Ok(Reply::Refused(Refusal::AlreadyWaiting)));
    assert_page_is_as_read(&page, &mut third);

    let waiting = Arc::clone(&page);
    let sleeper = thread::spawn(move || waiting.wait(second, None));
    thread::sleep(Duration::from_millis(20));
    drop(third);
    thread::sleep(Duration::from_millis(20));
    assert!(!sleeper.is_finished());
    assert_eq!((other.entered(), page.must_release(first)), (6, Some(false)));
    drop(other); // the last one
    assert!(answer(sleeper));
    assert!(threads().all(|thread| page.place_word(thread) == 0));
    assert_eq!(page.entered(), 6);
}

#[test]
fn threads_hand_one_core_on() {
    let arbiter = Arbiter::open(ONE_CORE).unwrap();
    let (page, on_core) = (arbiter.page(), AtomicU32::new(0));
    let mut member = arbiter.member().unwrap();
    member.give(thread(0, 0), Order::Join).unwrap();
    member.give(thread(0, 0), cores(1)).unwrap();
    thread::scope(|scope| {
        for number in 0..4 {
            let (arbiter, page, on_core) = (&arbiter, &page, &on_core);
            scope.spawn(move || {
                let (mut member, me) = (arbiter.member().unwrap(), thread(0, number));
                for _ in 0..2000 {
                    member.give(me, Order::Block).unwrap();
                    assert!(page.wait(me, None));
                    assert_eq!(page.position(me), Some(0));
                    assert_eq!(on_core.swap(1, Ordering::SeqCst), 0);
                    assert_eq!(on_core.swap(0, Ordering::SeqCst), 1);
                    member.give(me, Order::Retire).unwrap();
                }
            });
        }
    });
    assert_eq!(member.entered(), 2 + 4 * 2000 * 2);
}

#[test]
fn ticks_whose_moment_is_read_in_the_turn_are_never_refused() {
    let (start, arbiter) = (Instant::now(), Arbiter::open(TWO_SOCKETS).unwrap());
    thread::scope(|scope| {
        for _ in 0..4 {
            scope.spawn(|| {
                let mut member = arbiter.member().unwrap();
                for _ in 0..2000 {
                    let mut turn = member.begin();
                    let moment = start.elapsed().as_micros() as u64;
                    assert_eq!(turn.step(Client::Clock, Order::Tick(moment)), Ok(Reply::Moved(0)));
                    assert_eq!(turn.clock(), moment);
                }
            });
        }
    });
    assert_eq!(arbiter.page().entered(), 8000);
}

// ---- one history of two threads

const ORDERS: u64 = 100_000;

/// A number below `bound`, by xorshift.
fn below(random: &mut u64, bound: u64) -> u64 {
    *random ^= *random << 13;
    *random ^= *random >> 7;
    *random ^= *random << 17;
    (*random >> 32) % bound
}

/// Four threads of each application give orders.
fn any_thread(random: &mut u64) -> Thread {
    thread(below(random, 16) as u8, below(random, 4) as u8)
}

/// Each kind of order comes but a tick.
fn any_order(random: &mut u64) -> Order {
    let order = draw(random);
    match order {
        Order::Join | Order::Ask(_) | Order::Cap(_) | Order::Block | Order::Retire | Order::Leave | Order::Status => {
            order
        }
        Order::Tick(_) => unreachable!("no tick is drawn"),
    }
}

fn draw(random: &mut u64) -> Order {
    match below(random, 1000) {
        0..=49 => Order::Join,
        50..=199 => {
            let mut entries = [0; 8];
            (0..2).for_each(|_| entries[below(random, 8) as usize] = below(random, 4) as u8);
            Order::Ask(Request::new(entries).unwrap())
        }
        200..=229 => Order::Cap(below(random, 130) as u8),
        230..=749 => Order::Block,
        750..=899 => Order::Retire,
        900..=909 => Order::Leave,
        _ => Order::Status,
    }
}

struct Given {
    client: Thread,
    order: Order,
    reply: Reply,
    told: Told,
}

/// What is told of an order beside its reply.
enum Told {
    /// Where its client is, in its turn.
    Place(Place),
    /// The counts of orders that were read before and after it.
    Between(u64, u64),
}

/// A thread's word, and the counts of orders that were read before and after it.
struct Reading {
    thread: Thread,
    word: u64,
    between: (u64, u64),
}

fn read(readings: &mut Vec<Reading>, random: &mut u64, member: &mut Member, page: &Page) {
    let thread = any_thread(random);
    let read = if below(random, 2) == 0 {
        let before = member.entered();
        (before, member.place_word(thread), member.entered())
    } else {
        let before = page.entered();
        (before, page.place_word(thread), page.entered())
    };
    readings.push(Reading { thread, word: read.1, between: (read.0, read.2) });
}

/// One thread gives its orders by turns, which tell the index of each. The other one gives them by one call each, and so
/// has the indices that are left, in their order; each lies between the counts that it read before and after.
#[test]
fn two_threads_without_a_lock_have_one_history() {
    let arbiter = Arbiter::open(TWO_SOCKETS).unwrap();
    let (in_turns, by_calls) = thread::scope(|scope| {
        let in_turns = scope.spawn(|| gives_in_turns(&arbiter, 1));
        let by_calls = scope.spawn(|| gives_by_calls(&arbiter, 2));
        (in_turns.join().unwrap(), by_calls.join().unwrap())
    });
    let (mut history, mut readings) = in_turns;
    assert_eq!(history.len() as u64, ORDERS);
    let left: Vec<u64> = (1..=2 * ORDERS).filter(|index| !history.contains_key(index)).collect();
    assert_eq!(left.len(), by_calls.0.len());
    history.extend(left.into_iter().zip(by_calls.0));
    readings.extend(by_calls.1);
    replays(&history, &readings);
    assert_page_is_as_read(&arbiter.page(), &mut arbiter.member().unwrap());
}

fn gives_in_turns(arbiter: &Arbiter, mut random: u64) -> (BTreeMap<u64, Given>, Vec<Reading>) {
    let (mut member, page) = (arbiter.member().unwrap(), arbiter.page());
    let (mut history, mut readings, mut latest) = (BTreeMap::new(), Vec::new(), 0);
    for count in 0..ORDERS {
        let (client, order) = (any_thread(&mut random), any_order(&mut random));
        let mut turn = member.begin();
        let reply = turn.step(client, order).unwrap();
        let index = turn.entered();
        let told = Told::Place(turn.place(client));
        if count % 5000 == 0 {
            thread::sleep(Duration::from_millis(1)); // the other one sleeps meanwhile
        }
        assert_eq!((turn.entered(), page.entered()), (index, index));
        turn.end();
        assert!(index > latest, "{index} after {latest}");
        latest = index;
        history.insert(index, Given { client, order, reply, told });
        read(&mut readings, &mut random, &mut member, &page);
    }
    (history, readings)
}

fn gives_by_calls(arbiter: &Arbiter, mut random: u64) -> (Vec<Given>, Vec<Reading>) {
    let (mut member, page) = (arbiter.member().unwrap(), arbiter.page());
    let (mut all, mut readings) = (Vec::new(), Vec::new());
    for _ in 0..ORDERS {
        let (client, order) = (any_thread(&mut random), any_order(&mut random));
        let before = member.entered();
        let reply = member.give(client, order).unwrap();
        assert!(page.entered() > before);
        all.push(Given { client, order, reply, told: Told::Between(before, member.entered()) });
        read(&mut readings, &mut random, &mut member, &page);
    }
    (all, readings)
}

/// An arbiter of one thread answers the same, and each reading is the word's value at a point between its counts.
fn replays(history: &BTreeMap<u64, Given>, readings: &[Reading]) {
    let mut arbiter = LocalArbiter::open(TWO_SOCKETS).unwrap();
    let page = arbiter.page();
    // of each thread that gives orders: from which count of orders on its word has which value
    let threads: Vec<Thread> = threads().filter(|thread| thread.thread() < 4).collect();
    let mut values: Vec<Vec<(u64, u64)>> = threads.iter().map(|_| vec![(0, 0)]).collect();
    for (count, (&index, given)) in (1..).zip(history) {
        assert_eq!(index, count);
        assert_eq!(arbiter.give(given.client, given.order), Ok(given.reply), "order {index}");
        match given.told {
            Told::Place(place) => assert_eq!(arbiter.place(given.client), place, "order {index}"),
            Told::Between(before, after) => assert!(before < index && index <= after, "{before} {index} {after}"),
        }
        for (&thread, values) in threads.iter().zip(&mut values) {
            let word = page.place_word(thread);
            if values.last().unwrap().1 != word {
                values.push((index, word));
            }
        }
    }
    for Reading { thread, word, between: (before, after) } in readings {
        let values = &values[4 * usize::from(thread.application()) + usize::from(thread.thread())];
        // the posts of the order that counted `before` may come after that count was read
        let first = values.partition_point(|&(since, _)| since <= before.saturating_sub(1)) - 1;
        let mut at = values[first..].iter().take_while(|&&(since, _)| since <= *after);
        assert!(at.any(|(_, value)| value == word), "{thread} read as {word} between {before} and {after}");
    }
}
