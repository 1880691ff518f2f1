//! The library's functions and types, as `include/voldazpe.h` declares them.

use std::mem::{offset_of, size_of};
use std::ptr;

pub const OK: u32 = 0;
pub const STALE: u32 = 6;
pub const FULL: u32 = 7;
pub const SETTLED: u32 = 8;
pub const TOO_LONG: u32 = 12;
pub const OUT_OF_MEMORY: u32 = 14;
pub const TAKEN: u32 = 17;
pub const IN_TURN: u32 = 18;
pub const NOT_TOML: u32 = 21;
pub const UNKNOWN_KEY: u32 = 22;
pub const BAD_KEY: u32 = 23;
pub const OUT_OF_RANGE: u32 = 24;
pub const SOCKET_COUNT: u32 = 25;
pub const CORE_TWICE: u32 = 26;
pub const MANAGED_COUNT: u32 = 27;
pub const NO_UNMANAGED: u32 = 28;

/// What the library keeps of an arbiter; zero bytes are a closed one.
#[repr(C)]
pub struct Handle {
    held: *mut u8,
    live: bool,
}

impl Handle {
    pub const CLOSED: Handle = Handle { held: ptr::null_mut(), live: false };
}

/// What the library keeps of a member of an arbiter; zero bytes are a closed one.
#[repr(C)]
pub struct MemberHandle {
    held: *mut u8,
    live: bool,
}

impl MemberHandle {
    pub const CLOSED: MemberHandle = MemberHandle { held: ptr::null_mut(), live: false };
}

#[repr(C)]
#[derive(Default)]
pub struct Order {
    pub moment: u64,
    pub kind: u32,
    pub cap: u8,
    pub request: [u8; 8],
}

#[repr(C)]
#[derive(Default)]
pub struct Place {
    pub kind: u32,
    pub core: u16,
    pub asked: u8,
}

#[repr(C)]
#[derive(Default)]
pub struct Reply {
    pub clock: u64,
    pub kind: u32,
    pub refusal: u32,
    pub place: Place,
    pub due: u8,
    pub owned: u8,
    pub asked: u8,
    pub waiting: u8,
    pub moved: u8,
}

#[repr(C)]
#[derive(Default)]
pub struct Post {
    pub value: u64,
    pub word: u32,
}

#[repr(C)]
#[derive(Default)]
pub struct Machine {
    pub grace: u64,
    pub orders: u32,
    pub managed: u16,
    pub sockets: u16,
}

#[repr(C)]
#[derive(Default)]
pub struct Core {
    pub number: u16,
    pub socket: u8,
}

#[repr(C)]
#[derive(Default)]
pub struct Counts {
    pub due: u8,
    pub owned: u8,
    pub asked: u8,
    pub waiting: u8,
}

#[repr(C)]
#[derive(Default)]
pub struct Request {
    pub cores: [u8; 8],
}

// sizes and offsets as in the header
const _: () = {
    assert!(size_of::<usize>() == 8 && size_of::<bool>() == 1);
    assert!(size_of::<Handle>() == 16 && offset_of!(Handle, held) == 0 && offset_of!(Handle, live) == 8);
    assert!(size_of::<MemberHandle>() == 16 && offset_of!(MemberHandle, held) == 0);
    assert!(offset_of!(MemberHandle, live) == 8);
    assert!(size_of::<Order>() == 24 && offset_of!(Order, moment) == 0 && offset_of!(Order, kind) == 8);
    assert!(offset_of!(Order, cap) == 12 && offset_of!(Order, request) == 13);
    assert!(size_of::<Place>() == 8 && offset_of!(Place, kind) == 0);
    assert!(offset_of!(Place, core) == 4 && offset_of!(Place, asked) == 6);
    assert!(size_of::<Reply>() == 32 && offset_of!(Reply, clock) == 0 && offset_of!(Reply, kind) == 8);
    assert!(offset_of!(Reply, refusal) == 12 && offset_of!(Reply, place) == 16 && offset_of!(Reply, due) == 24);
    assert!(offset_of!(Reply, owned) == 25 && offset_of!(Reply, asked) == 26);
    assert!(offset_of!(Reply, waiting) == 27 && offset_of!(Reply, moved) == 28);
    assert!(size_of::<Post>() == 16 && offset_of!(Post, value) == 0 && offset_of!(Post, word) == 8);
    assert!(size_of::<Machine>() == 16 && offset_of!(Machine, grace) == 0 && offset_of!(Machine, orders) == 8);
    assert!(offset_of!(Machine, managed) == 12 && offset_of!(Machine, sockets) == 14);
    assert!(size_of::<Core>() == 4 && offset_of!(Core, number) == 0 && offset_of!(Core, socket) == 2);
    assert!(size_of::<Counts>() == 4 && offset_of!(Counts, due) == 0 && offset_of!(Counts, owned) == 1);
    assert!(offset_of!(Counts, asked) == 2 && offset_of!(Counts, waiting) == 3);
    assert!(size_of::<Request>() == 8 && offset_of!(Request, cores) == 0);
};

extern "C" {
    pub fn voldazpe_lib_open(handle: *mut Handle, text: *const u8, length: usize, named: *mut u16) -> u32;
    pub fn voldazpe_lib_close(handle: *mut Handle) -> u32;
    pub fn voldazpe_lib_step(handle: *mut Handle, client: u32, order: *const Order, reply: *mut Reply) -> u32;
    pub fn voldazpe_lib_post(handle: *mut Handle, post: *mut Post) -> u32;
    pub fn voldazpe_lib_posted(handle: *mut Handle, word: u32, value: *mut u64) -> u32;
    pub fn voldazpe_lib_place(handle: *mut Handle, thread: u32, place: *mut Place) -> u32;
    pub fn voldazpe_lib_owner(handle: *mut Handle, core: u16, thread: *mut u32) -> u32;
    pub fn voldazpe_lib_count(handle: *mut Handle, client: u32, count: *mut u64) -> u32;
    pub fn voldazpe_lib_orders(handle: *mut Handle, count: *mut u64) -> u32;
    pub fn voldazpe_lib_clock(handle: *mut Handle, moment: *mut u64) -> u32;
    pub fn voldazpe_lib_machine(handle: *mut Handle, machine: *mut Machine) -> u32;
    pub fn voldazpe_lib_core_at(handle: *mut Handle, position: u32, core: *mut Core) -> u32;
    pub fn voldazpe_lib_unmanaged_at(handle: *mut Handle, index: u32, core: *mut Core) -> u32;
    pub fn voldazpe_lib_counts(handle: *mut Handle, application: u32, counts: *mut Counts) -> u32;
    pub fn voldazpe_lib_requested(handle: *mut Handle, application: u32, request: *mut Request) -> u32;
    pub fn voldazpe_lib_member_open(handle: *mut MemberHandle, text: *const u8, length: usize, named: *mut u16) -> u32;
    pub fn voldazpe_lib_member_another(handle: *mut MemberHandle, other: *mut MemberHandle) -> u32;
    pub fn voldazpe_lib_member_close(handle: *mut MemberHandle) -> u32;
    pub fn voldazpe_lib_member_begin(handle: *mut MemberHandle) -> u32;
    pub fn voldazpe_lib_member_begin_with(
        handle: *mut MemberHandle,
        client: u32,
        order: *const Order,
        reply: *mut Reply,
    ) -> u32;
    pub fn voldazpe_lib_member_step(
        handle: *mut MemberHandle,
        client: u32,
        order: *const Order,
        reply: *mut Reply,
    ) -> u32;
    pub fn voldazpe_lib_member_post(handle: *mut MemberHandle, post: *mut Post) -> u32;
    pub fn voldazpe_lib_member_post_or_end(handle: *mut MemberHandle, post: *mut Post) -> u32;
    pub fn voldazpe_lib_member_read(handle: *mut MemberHandle, word: u32, value: *mut u64) -> u32;
    pub fn voldazpe_lib_member_place(handle: *mut MemberHandle, thread: u32, place: *mut Place) -> u32;
    pub fn voldazpe_lib_member_owner(handle: *mut MemberHandle, core: u16, thread: *mut u32) -> u32;
    pub fn voldazpe_lib_member_counts(handle: *mut MemberHandle, application: u32, counts: *mut Counts) -> u32;
    pub fn voldazpe_lib_member_requested(handle: *mut MemberHandle, application: u32, request: *mut Request) -> u32;
    pub fn voldazpe_lib_member_clock(handle: *mut MemberHandle, moment: *mut u64) -> u32;
    pub fn voldazpe_lib_member_machine(handle: *mut MemberHandle, machine: *mut Machine) -> u32;
    pub fn voldazpe_lib_member_core_at(handle: *mut MemberHandle, position: u32, core: *mut Core) -> u32;
    pub fn voldazpe_lib_member_unmanaged_at(handle: *mut MemberHandle, index: u32, core: *mut Core) -> u32;
}
