//! Functions that a house or an application tells of events, as C is handed them.

use super::{ffi, Event};
use std::ffi::c_void;
use std::panic::{self, AssertUnwindSafe};
use std::process;

pub(super) type Hook = Box<dyn Fn(&Event) + Send + Sync>;

/// The context of a hook, as C gets it. C hands it to `call` and, once and last, to `done`.
pub(super) fn handed(hook: Hook) -> *mut Hook {
    Box::into_raw(Box::new(hook))
}

/// Calls a hook.
pub(super) unsafe extern "C" fn call(context: *mut c_void, event: *const ffi::Event) {
    let told = panic::catch_unwind(AssertUnwindSafe(|| {
        // SAFETY: the context is that of a hook that `done` hasn't dropped yet; the event is readable.
        let (hook, event) = unsafe { (&*context.cast::<Hook>(), &*event) };
        if let Some(event) = Event::of_ffi(event) {
            hook(&event);
        }
    }));
    if told.is_err() {
        process::abort();
    }
}

/// Drops a hook, which isn't called any more.
pub(super) unsafe extern "C" fn done(context: *mut c_void) {
    // SAFETY: it comes from `handed`, and this is called once.
    let hook = unsafe { Box::from_raw(context.cast::<Hook>()) };
    if panic::catch_unwind(AssertUnwindSafe(|| drop(hook))).is_err() {
        process::abort();
    }
}
