//! Allocations of the library that fail, and what it takes goes back. This program has its own `malloc`, which the library
//! calls: a process of its own, for the GNU C library.
#![cfg(all(target_os = "linux", target_env = "gnu"))]

use std::cell::Cell;
use std::ffi::c_void;
use voldazpe::{Arbiter, GiveError, Member, MemberError, OpenError, Order, Reply, Thread};

const ONE: &str = "[[socket]]\nmanaged = [1]\nunmanaged = [0]\n";

thread_local! {
    /// How many more allocations of this thread succeed; `None` is all.
    static LEFT: Cell<Option<u32>> = const { Cell::new(None) };
    /// How many blocks this thread took and didn't give back.
    static BLOCKS: Cell<i64> = const { Cell::new(0) };
}

extern "C" {
    fn __libc_malloc(size: usize) -> *mut c_void;
    fn __libc_realloc(block: *mut c_void, size: usize) -> *mut c_void;
    fn __libc_free(block: *mut c_void);
}

/// Whether an allocation is to fail.
fn fails() -> bool {
    let left = LEFT.get();
    LEFT.set(left.map(|left| left.saturating_sub(1)));
    left == Some(0)
}

/// # Safety
/// As C's.
#[no_mangle]
pub unsafe extern "C" fn malloc(size: usize) -> *mut c_void {
    if fails() {
        return std::ptr::null_mut();
    }
    BLOCKS.set(BLOCKS.get() + 1);
    unsafe { __libc_malloc(size) }
}

/// # Safety
/// As C's.
#[no_mangle]
pub unsafe extern "C" fn realloc(block: *mut c_void, size: usize) -> *mut c_void {
    if fails() {
        return std::ptr::null_mut();
    }
    BLOCKS.set(BLOCKS.get() + i64::from(block.is_null()));
    unsafe { __libc_realloc(block, size) }
}

/// # Safety
/// As C's.
#[no_mangle]
pub unsafe extern "C" fn free(block: *mut c_void) {
    BLOCKS.set(BLOCKS.get() - i64::from(!block.is_null()));
    unsafe { __libc_free(block) }
}

/// What a call answers where so many allocations succeed.
fn with_left<T>(left: u32, call: impl FnOnce() -> T) -> T {
    LEFT.set(Some(left));
    let answer = call();
    LEFT.set(None);
    answer
}

#[test]
fn a_member_without_memory() {
    let arbiter = Arbiter::open(ONE).unwrap();
    let (mut member, me) = (arbiter.member().unwrap(), Thread::new(0, 0).unwrap());
    let blocks = BLOCKS.get();
    let mut refused = 0;
    let other: Member = loop {
        match with_left(refused, || member.another()) {
            Ok(other) => break other,
            Err(error) => assert_eq!(error, MemberError::OutOfMemory),
        }
        assert_eq!(with_left(refused, || arbiter.member()).unwrap_err(), MemberError::OutOfMemory);
        assert_eq!(BLOCKS.get(), blocks); // nothing is kept
        refused += 1;
    };
    assert!(refused > 0 && BLOCKS.get() > blocks);
    drop(other);
    assert_eq!(BLOCKS.get(), blocks);
    assert_eq!(member.give(me, Order::Join), Ok(Reply::Joined));
}

#[test]
fn no_order_takes_memory() {
    let arbiter = Arbiter::open(&format!("orders = 3\n{ONE}")).unwrap();
    let (mut member, me) = (arbiter.member().unwrap(), Thread::new(0, 0).unwrap());
    let replies = with_left(0, || {
        let given = member.give(me, Order::Join);
        let mut turn = member.begin();
        let stepped = turn.step(me, Order::Block);
        turn.end();
        (given, stepped, member.try_give(me, Order::Leave), member.give(me, Order::Leave))
    });
    assert_eq!(replies.0, Ok(Reply::Joined));
    assert_eq!(replies.1.unwrap().to_string(), "now waiting");
    assert_eq!((replies.2, replies.3), (Ok(Reply::Done), Err(GiveError::Full)));
}

#[test]
fn an_arbiter_without_memory() {
    let mut refused = 0;
    loop {
        let blocks = BLOCKS.get();
        // the library's allocations come before those of this package, which would end the program
        let error = with_left(refused, || Arbiter::open("[[socket]]\nmanaged = [1]\nunmanaged = []\n")).unwrap_err();
        assert_eq!(BLOCKS.get(), blocks);
        if error != OpenError::OutOfMemory {
            break;
        }
        refused += 1;
    }
    assert!(refused > 0);
}

#[test]
fn closed_members_and_arbiters_take_nothing() {
    let blocks = BLOCKS.get();
    for _ in 0..100 {
        let arbiter = Arbiter::open(ONE).unwrap();
        let mut members: Vec<Member> = (0..10).map(|_| arbiter.member().unwrap()).collect();
        members[3].begin().step(Thread::new(0, 0).unwrap(), Order::Join).unwrap();
        drop(arbiter);
    }
    assert_eq!(BLOCKS.get(), blocks);
}
