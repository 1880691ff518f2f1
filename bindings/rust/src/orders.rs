//! Clients, orders and replies.

use crate::{ffi, APPLICATIONS, CORES, LEVELS, THREADS};
use std::error::Error;
use std::fmt;

/// A thread of an application.
#[derive(Clone, Copy, Debug, PartialEq, Eq, Hash)]
pub struct Thread {
    number: u16,
}

impl Thread {
    /// The thread of an application, or `None` if the application isn't below [`APPLICATIONS`] or the thread isn't
    /// below [`THREADS`].
    #[must_use]
    pub fn new(application: u8, thread: u8) -> Option<Thread> {
        let number = u16::from(THREADS) * u16::from(application) + u16::from(thread);
        (application < APPLICATIONS && thread < THREADS).then_some(Thread { number })
    }

    /// The application's number.
    #[must_use]
    pub fn application(self) -> u8 {
        (self.number / u16::from(THREADS)) as u8
    }

    /// The number of the thread within its application.
    #[must_use]
    pub fn thread(self) -> u8 {
        (self.number % u16::from(THREADS)) as u8
    }

    pub(crate) fn number(self) -> u32 {
        u32::from(self.number)
    }

    pub(crate) fn of_number(number: u32) -> Thread {
        Thread { number: number as u16 }
    }
}

impl fmt::Display for Thread {
    fn fmt(&self, f: &mut fmt::Formatter<'_>) -> fmt::Result {
        write!(f, "{}.{}", self.application(), self.thread())
    }
}

/// A giver of orders.
#[derive(Clone, Copy, Debug, PartialEq, Eq, Hash)]
pub enum Client {
    Thread(Thread),
    /// Gives ticks. Threads may give them too.
    Clock,
}

impl Client {
    pub(crate) fn number(self) -> u32 {
        match self {
            Client::Thread(thread) => thread.number(),
            Client::Clock => u32::from(APPLICATIONS) * u32::from(THREADS),
        }
    }
}

impl From<Thread> for Client {
    fn from(thread: Thread) -> Client {
        Client::Thread(thread)
    }
}

/// How many cores an application wants at each level, in addition to those at the levels before. The default wants
/// none.
#[derive(Clone, Copy, Debug, Default, PartialEq, Eq, Hash)]
pub struct Request {
    entries: [u8; LEVELS],
}

impl Request {
    /// The request with these entries, or `None` if one is above [`CORES`].
    #[must_use]
    pub fn new(entries: [u8; LEVELS]) -> Option<Request> {
        entries.iter().all(|&cores| cores <= CORES).then_some(Request { entries })
    }

    /// A request for cores at one level, and for none at the others. `None` if the level isn't below [`LEVELS`] or the
    /// number is above [`CORES`].
    #[must_use]
    pub fn at(level: usize, cores: u8) -> Option<Request> {
        let mut entries = [0; LEVELS];
        *entries.get_mut(level)? = cores;
        Request::new(entries)
    }

    /// How many cores it wants at each level.
    #[must_use]
    pub fn entries(self) -> [u8; LEVELS] {
        self.entries
    }

    pub(crate) fn of_ffi(request: &ffi::Request) -> Request {
        Request { entries: request.cores }
    }
}

/// What a client orders.
///
/// Where these docs speak of one hold of the lock, a [`Member`](crate::Member) uses one [`Turn`](crate::Turn).
#[derive(Clone, Copy, Debug, PartialEq, Eq)]
pub enum Order {
    /// The thread's application joins, with a request for no core and no cap. Answered `Joined`.
    Join,
    /// The application's request becomes this one. Answered `Due`.
    Ask(Request),
    /// Caps the application at 0 to 128 cores, whatever it asks for later. What it asks for beyond the cap doesn't
    /// count; level 0 counts first. A leave ends the cap. Answered `Due`.
    Cap(u8),
    /// The thread gives its core back, if it has one, and waits for a core. Then it waits, or is on a core, perhaps the
    /// same one. Answered `Now`. The thread pins itself to unmanaged cores before: from the order on, its core may be
    /// another thread's.
    ///
    /// Only the thread itself gives this order, since [`Page::must_release`](crate::Page::must_release) doesn't tell it
    /// that its core has become another one. If a thread is stuck, in a system call say, another thread may take its
    /// core. It pins the stuck thread to unmanaged cores and gives that thread's order to retire, under one hold of the
    /// lock. The stuck thread then reads that it is on no core, and blocks. If fewer cores were asked for meanwhile, it
    /// asks again first.
    Block,
    /// The thread becomes unmanaged: it gives its core back if it has one, and waits for none. Answered `Done`. Pin the
    /// thread to unmanaged cores before, as for a `Block`.
    ///
    /// You may also end a thread that sleeps in [`Page::wait`](crate::Page::wait): this order, from another thread,
    /// wakes it. Set a flag of your own under the lock before. The thread must look at that flag and block under one
    /// hold of the lock. Otherwise it may block after this order, and sleep on. Another thread may have its number only
    /// once the thread has seen the flag and no longer reads its word. If the thread may be on a core, pin it to
    /// unmanaged cores and give the order under one hold of the lock.
    Retire,
    /// The application leaves, and all its threads become unmanaged, as by `Retire`. It may join again. Answered
    /// `Done`. A thread that is on a core runs on there until it looks. So end such threads before, or pin all of them
    /// to unmanaged cores and give this order under one hold of the lock. Otherwise a thread that sleeps may get a core
    /// in between. As for `Retire`, another thread may have a thread's number only once that one no longer reads its
    /// word.
    Leave,
    /// Asks what the application has. Answered `Counts`.
    Status,
    /// Tells the arbiter the present moment, in microseconds since a start of your own, the same for all ticks of an
    /// arbiter. A thread that has kept a core for the grace or longer since it was asked back is moved. Answered
    /// `Moved`.
    ///
    /// Read the moment and give the tick under one hold of the lock. With a moment that was read before, you may wait
    /// for the lock while another thread gives a later tick. Then your tick is refused (`ClockBack`), and threads that
    /// have stayed too long aren't moved.
    ///
    /// The arbiter itself pins no thread. Look for threads whose place is `Moved`, and pin those to unmanaged cores,
    /// under the same hold of the lock. A core counts as asked back from the last tick before that, or from 0 if there
    /// was none. So give one tick before all other orders, and make the grace several ticks long.
    Tick(u64),
}

impl Order {
    pub(crate) fn to_ffi(self) -> ffi::Order {
        let of_kind = |kind| ffi::Order { kind, ..ffi::Order::default() };
        match self {
            Order::Join => of_kind(0),
            Order::Ask(request) => ffi::Order { request: request.entries, ..of_kind(1) },
            Order::Cap(cap) => ffi::Order { cap, ..of_kind(2) },
            Order::Block => of_kind(3),
            Order::Retire => of_kind(4),
            Order::Leave => of_kind(5),
            Order::Status => of_kind(6),
            Order::Tick(moment) => ffi::Order { moment, ..of_kind(7) },
        }
    }
}

/// Where a thread is.
#[derive(Clone, Copy, Debug, PartialEq, Eq)]
pub enum Place {
    /// The ordinary scheduler has it.
    Unmanaged,
    /// It waits for a core.
    Waiting,
    /// It kept its core for the grace or longer since it was asked back, and lost it: it belongs on the unmanaged
    /// cores.
    Moved,
    /// It is on the core of this number, which may be asked back.
    On { core: u16, asked: bool },
}

impl Place {
    /// The number of the core that the thread is on, or `None` if it is on none.
    #[must_use]
    pub fn core(self) -> Option<u16> {
        match self {
            Place::On { core, .. } => Some(core),
            Place::Unmanaged | Place::Waiting | Place::Moved => None,
        }
    }

    pub(crate) fn of_ffi(place: &ffi::Place) -> Place {
        match place.kind {
            0 => Place::Unmanaged,
            1 => Place::Waiting,
            2 => Place::Moved,
            3 => Place::On { core: place.core, asked: place.asked == 1 },
            kind => unreachable!("a thread is at a place of the kind {kind}"),
        }
    }
}

impl fmt::Display for Place {
    fn fmt(&self, f: &mut fmt::Formatter<'_>) -> fmt::Result {
        match self {
            Place::Unmanaged => f.write_str("unmanaged"),
            Place::Waiting => f.write_str("waiting"),
            Place::Moved => f.write_str("moved"),
            Place::On { core, asked: false } => write!(f, "core {core}"),
            Place::On { core, asked: true } => write!(f, "core {core} asked"),
        }
    }
}

/// Why an order is refused. As a text each has its number; the number 3 isn't used.
#[derive(Clone, Copy, Debug, PartialEq, Eq)]
pub enum Refusal {
    AlreadyJoined,
    NotJoined,
    AlreadyWaiting,
    /// The moment lies before the clock, which has this value, in microseconds.
    ClockBack(u64),
    /// The clock gives no such order.
    NotAThread,
    /// The cap is above [`CORES`].
    CapTooLarge,
}

impl Refusal {
    fn of_ffi(reply: &ffi::Reply) -> Refusal {
        match reply.refusal {
            1 => Refusal::AlreadyJoined,
            2 => Refusal::NotJoined,
            4 => Refusal::AlreadyWaiting,
            5 => Refusal::ClockBack(reply.clock),
            6 => Refusal::NotAThread,
            7 => Refusal::CapTooLarge,
            number => unreachable!("an order is refused by the number {number}"),
        }
    }
}

impl fmt::Display for Refusal {
    fn fmt(&self, f: &mut fmt::Formatter<'_>) -> fmt::Result {
        match self {
            Refusal::AlreadyJoined => f.write_str("1 already-joined"),
            Refusal::NotJoined => f.write_str("2 not-joined"),
            Refusal::AlreadyWaiting => f.write_str("4 already-waiting"),
            Refusal::ClockBack(clock) => write!(f, "5 clock-back {clock}"),
            Refusal::NotAThread => f.write_str("6 not-a-thread"),
            Refusal::CapTooLarge => f.write_str("7 cap-too-large"),
        }
    }
}

impl Error for Refusal {}

/// The answer to an order.
#[derive(Clone, Copy, Debug, PartialEq, Eq)]
pub enum Reply {
    Joined,
    /// The cores due to the application.
    Due(u8),
    /// Where the thread is now.
    Now(Place),
    Done,
    /// Of the application: the cores due, owned and asked back, and the threads that wait.
    Counts {
        due: u8,
        owned: u8,
        asked: u8,
        waiting: u8,
    },
    /// How many threads the tick moved.
    Moved(u8),
    /// The order was refused, and changed nothing but the counts of orders.
    Refused(Refusal),
}

impl Reply {
    /// The number of the core that an order to block gave the thread. `None` if the thread waits, the order was
    /// refused, or this is the reply to another order.
    #[must_use]
    pub fn core(self) -> Option<u16> {
        match self {
            Reply::Now(place) => place.core(),
            Reply::Joined
            | Reply::Due(_)
            | Reply::Done
            | Reply::Counts { .. }
            | Reply::Moved(_)
            | Reply::Refused(_) => None,
        }
    }

    pub(crate) fn of_ffi(reply: &ffi::Reply) -> Reply {
        match reply.kind {
            0 => Reply::Joined,
            1 => Reply::Due(reply.due),
            2 => Reply::Now(Place::of_ffi(&reply.place)),
            3 => Reply::Done,
            4 => Reply::Counts { due: reply.due, owned: reply.owned, asked: reply.asked, waiting: reply.waiting },
            5 => Reply::Moved(reply.moved),
            6 => Reply::Refused(Refusal::of_ffi(reply)),
            kind => unreachable!("an order is answered by a reply of the kind {kind}"),
        }
    }
}

impl fmt::Display for Reply {
    fn fmt(&self, f: &mut fmt::Formatter<'_>) -> fmt::Result {
        match self {
            Reply::Joined => f.write_str("joined"),
            Reply::Due(due) => write!(f, "due {due}"),
            Reply::Now(place) => write!(f, "now {place}"),
            Reply::Done => f.write_str("done"),
            Reply::Counts { due, owned, asked, waiting } => {
                write!(f, "counts due {due} owned {owned} asked {asked} waiting {waiting}")
            }
            Reply::Moved(moved) => write!(f, "moved {moved}"),
            Reply::Refused(refusal) => write!(f, "refused {refusal}"),
        }
    }
}

/// Numbers and texts are those of the C header, which is the one that was installed with the library.
#[cfg(test)]
mod tests {
    use super::*;
    use std::fs;

    /// The names that the header gives numbers in an enum, each with the word that a function of the header tells.
    fn of_header(named: &str, function: &str) -> Vec<(u32, String)> {
        let header = fs::read_to_string(env!("VOLDAZPE_HEADER")).unwrap();
        let behind = |start: &str| header.split_once(start).unwrap_or_else(|| panic!("{start}")).1;
        let (values, _) = behind(&format!("typedef enum {named} {{")).split_once('}').unwrap();
        let (cases, _) = behind(&format!("*{function}(uint32_t ")).split_once("\n}").unwrap();
        let value = |line: &str| {
            let (name, number) = line.trim().split_once(" = ")?;
            let digits = number.chars().take_while(char::is_ascii_digit).collect::<String>();
            let (_, case) = cases.split_once(&format!("case {name}: return \"")).unwrap_or_else(|| panic!("{name}"));
            Some((digits.parse().unwrap(), case.split_once('"').unwrap().0.to_owned()))
        };
        let all = values.lines().filter_map(value).collect::<Vec<_>>();
        assert!(!all.is_empty(), "{named}");
        all
    }

    fn first_word(text: &impl fmt::Display) -> String {
        text.to_string().split(' ').next().unwrap().to_owned()
    }

    #[test]
    fn orders_have_the_numbers_of_the_header() {
        let request = Request::at(0, 1).unwrap();
        let orders = [
            Order::Join,
            Order::Ask(request),
            Order::Cap(2),
            Order::Block,
            Order::Retire,
            Order::Leave,
            Order::Status,
            Order::Tick(3),
        ];
        let of_rust = orders.map(|order| {
            let shown = format!("{order:?}").to_lowercase();
            (order.to_ffi().kind, shown.chars().take_while(char::is_ascii_alphabetic).collect())
        });
        assert_eq!(of_header("voldazpe_order_kind", "voldazpe_order_name"), of_rust);
    }

    #[test]
    fn places_have_the_words_of_the_header() {
        for (kind, word) in of_header("voldazpe_place_kind", "voldazpe_place_name") {
            let place = ffi::Place { kind, core: 7, asked: 1 };
            assert_eq!(first_word(&Place::of_ffi(&place)), word);
        }
    }

    #[test]
    fn replies_have_the_words_of_the_header() {
        for (kind, word) in of_header("voldazpe_reply_kind", "voldazpe_reply_name") {
            let reply = ffi::Reply { kind, refusal: 1, ..ffi::Reply::default() };
            assert_eq!(first_word(&Reply::of_ffi(&reply)), word);
        }
    }

    #[test]
    fn refusals_have_the_words_of_the_header() {
        for (refusal, word) in of_header("voldazpe_refusal", "voldazpe_refusal_name") {
            let reply = ffi::Reply { refusal, clock: 9, ..ffi::Reply::default() };
            let shown = Refusal::of_ffi(&reply).to_string();
            assert_eq!(shown.trim_end_matches(" 9"), format!("{refusal} {word}"));
        }
    }
}
