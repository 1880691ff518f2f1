//! The house's functions and types, as `include/voldazpe_house.h` declares them.

use std::ffi::{c_char, c_int, c_void};
use std::mem::{offset_of, size_of};
use std::ptr;
use std::sync::atomic::AtomicI32;

pub const VERSION: u32 = 2;

pub const OK: u32 = 0;
pub const ENTRY_TOO_LARGE: u32 = 5;
pub const TOO_LONG: u32 = 12;
pub const OUT_OF_MEMORY: u32 = 14;
pub const NOT_TOML: u32 = 21;
pub const UNKNOWN_KEY: u32 = 22;
pub const BAD_KEY: u32 = 23;
pub const OUT_OF_RANGE: u32 = 24;
pub const SOCKET_COUNT: u32 = 25;
pub const CORE_TWICE: u32 = 26;
pub const MANAGED_COUNT: u32 = 27;
pub const NO_UNMANAGED: u32 = 28;
pub const TIMED_OUT: u32 = 33;
pub const CLOSED: u32 = 41;
pub const WITHDRAWN: u32 = 42;
pub const FORKED: u32 = 43;
pub const ALL_TAKEN: u32 = 44;
pub const REGISTERED: u32 = 45;
pub const LIMITED: u32 = 47;
pub const UNPINNED: u32 = 48;
pub const NO_THREAD: u32 = 49;
pub const NO_PROCESSORS: u32 = 50;
pub const IN_HOOK: u32 = 51;
pub const JOURNAL: u32 = 52;
pub const JOURNAL_THERE: u32 = 53;
pub const NO_LEVEL: u32 = 54;
pub const WAIT_ENDED: u32 = 55;
pub const CORE_TAKEN: u32 = 56;
pub const OTHER_OPTIONS: u32 = 57;
pub const OTHER_VERSION: u32 = 58;

pub const GOT: u32 = 1;
pub const ASKED: u32 = 2;
pub const LOST: u32 = 3;
pub const REFUSED: u32 = 4;
pub const DUE: u32 = 5;

/// In place of a thread's number: all threads of the application.
pub const ALL: u32 = u32::MAX;

/// A house. Only the library knows what it is.
#[repr(C)]
pub struct House {
    _bytes: [u8; 0],
}

#[repr(C)]
pub struct Thread {
    pub word: AtomicI32,
    pub number: u32,
}

#[repr(C)]
pub struct Event {
    pub application: u64,
    pub kind: u32,
    pub thread: u32,
    pub core: u16,
    pub moved: bool,
    pub due: u8,
}

pub type Hook = unsafe extern "C" fn(context: *mut c_void, event: *const Event);
pub type Done = unsafe extern "C" fn(context: *mut c_void);
pub type Journal = unsafe extern "C" fn(context: *mut c_void, text: u32, bytes: *const c_char, length: usize);

#[repr(C)]
pub struct Options {
    pub grace: u64,
    pub unmanaged: u32,
    pub unpinned: bool,
    pub own: bool,
    pub hook: Option<Hook>,
    pub hook_context: *mut c_void,
    pub journal_folder: *const c_char,
    pub journal: Option<Journal>,
    pub journal_context: *mut c_void,
    pub named: *mut u16,
    pub done: Option<Done>,
}

impl Options {
    pub const USUAL: Options = Options {
        grace: 0,
        unmanaged: 0,
        unpinned: false,
        own: false,
        hook: None,
        hook_context: ptr::null_mut(),
        journal_folder: ptr::null(),
        journal: None,
        journal_context: ptr::null_mut(),
        named: ptr::null_mut(),
        done: None,
    };
}

#[repr(C)]
#[derive(Default)]
pub struct Counts {
    pub due: u8,
    pub owned: u8,
    pub asked: u8,
    pub waiting: u8,
    pub threads: u8,
    pub cap: u8,
    pub request: [u8; 8],
}

#[repr(C)]
#[derive(Clone, Copy, Default)]
pub struct Owner {
    pub application: u64,
    pub thread: u32,
    pub core: u16,
    pub socket: u8,
    pub asked: bool,
}

#[repr(C)]
#[derive(Default)]
pub struct State {
    pub orders: u64,
    pub moved: u64,
    pub grace: u64,
    pub applications: u32,
    pub threads: u32,
    pub managed: u16,
    pub sockets: u16,
    pub refused: c_int,
    pub journal_failed: bool,
    pub opens: u32,
}

// sizes and offsets as in the header
const _: () = {
    assert!(size_of::<usize>() == 8 && size_of::<bool>() == 1 && size_of::<Option<Hook>>() == 8);
    assert!(size_of::<Thread>() == 8 && offset_of!(Thread, word) == 0 && offset_of!(Thread, number) == 4);
    assert!(size_of::<Event>() == 24 && offset_of!(Event, application) == 0 && offset_of!(Event, kind) == 8);
    assert!(offset_of!(Event, thread) == 12 && offset_of!(Event, core) == 16 && offset_of!(Event, moved) == 18);
    assert!(offset_of!(Event, due) == 19 && offset_of!(Options, own) == 13 && offset_of!(State, opens) == 44);
    assert!(size_of::<Options>() == 72 && offset_of!(Options, grace) == 0 && offset_of!(Options, unmanaged) == 8);
    assert!(offset_of!(Options, unpinned) == 12 && offset_of!(Options, hook) == 16);
    assert!(offset_of!(Options, hook_context) == 24 && offset_of!(Options, journal_folder) == 32);
    assert!(offset_of!(Options, journal) == 40 && offset_of!(Options, journal_context) == 48);
    assert!(offset_of!(Options, named) == 56 && offset_of!(Options, done) == 64);
    assert!(size_of::<Counts>() == 14 && offset_of!(Counts, due) == 0 && offset_of!(Counts, owned) == 1);
    assert!(offset_of!(Counts, asked) == 2 && offset_of!(Counts, waiting) == 3 && offset_of!(Counts, threads) == 4);
    assert!(offset_of!(Counts, cap) == 5 && offset_of!(Counts, request) == 6);
    assert!(size_of::<Owner>() == 16 && offset_of!(Owner, application) == 0 && offset_of!(Owner, thread) == 8);
    assert!(offset_of!(Owner, core) == 12 && offset_of!(Owner, socket) == 14 && offset_of!(Owner, asked) == 15);
    assert!(size_of::<State>() == 48 && offset_of!(State, orders) == 0 && offset_of!(State, moved) == 8);
    assert!(offset_of!(State, grace) == 16 && offset_of!(State, applications) == 24);
    assert!(offset_of!(State, threads) == 28 && offset_of!(State, managed) == 32);
    assert!(offset_of!(State, sockets) == 34 && offset_of!(State, refused) == 36);
    assert!(offset_of!(State, journal_failed) == 40);
};

extern "C" {
    pub fn voldazpe_house_open_version(
        version: u32,
        text: *const c_char,
        length: usize,
        options: *const Options,
        house: *mut *mut House,
    ) -> u32;
    pub fn voldazpe_house_close(house: *mut House) -> u32;
    pub fn voldazpe_house_hold(house: *mut House);
    pub fn voldazpe_house_let_go(house: *mut House);
    pub fn voldazpe_house_join(house: *mut House, name: *const c_char, application: *mut u64) -> u32;
    pub fn voldazpe_house_withdraw(house: *mut House, application: u64) -> u32;
    pub fn voldazpe_house_want(house: *mut House, application: u64, level: u32, cores: u32) -> u32;
    pub fn voldazpe_house_want_at_levels(house: *mut House, application: u64, cores: *const u8) -> u32;
    pub fn voldazpe_house_cap(house: *mut House, application: u64, cores: u32) -> u32;
    pub fn voldazpe_house_register(house: *mut House, application: u64, thread: *mut *mut Thread) -> u32;
    pub fn voldazpe_house_leave(thread: *mut Thread) -> u32;
    pub fn voldazpe_house_wait(thread: *mut Thread, nanoseconds: i64) -> u32;
    pub fn voldazpe_house_give_back(thread: *mut Thread) -> u32;
    pub fn voldazpe_house_end_wait(house: *mut House, application: u64, thread: u32) -> u32;
    pub fn voldazpe_house_watch(
        house: *mut House,
        application: u64,
        hook: Option<Hook>,
        context: *mut c_void,
        done: Option<Done>,
    ) -> u32;
    pub fn voldazpe_house_counts(house: *mut House, application: u64, counts: *mut Counts) -> u32;
    pub fn voldazpe_house_owners(house: *mut House, owners: *mut Owner, room: usize, count: *mut usize) -> u32;
    pub fn voldazpe_house_state(house: *mut House, state: *mut State) -> u32;
    pub fn voldazpe_house_affinity(house: *mut House) -> u32;
}
