//! A guard that turns recursion without end into a panic that can be caught.
//!
//! The worker thread sets the lowest address that its stack may reach; the
//! stand-ins call `check` where the crate's endless recursions pass (hashing of an
//! atom, look-ups in the graph). The limit 0, the default, never fires.

use std::sync::atomic::AtomicUsize;
use std::sync::atomic::Ordering::Relaxed;

static LIMIT: AtomicUsize = AtomicUsize::new(0);

/// Allows the current thread to grow its stack by `room` bytes from here.
pub fn allow(room: usize) {
    let probe = 0u8;
    LIMIT.store((&raw const probe as usize).saturating_sub(room), Relaxed);
}

#[inline]
pub fn check() {
    let probe = 0u8;
    if (&raw const probe as usize) < LIMIT.load(Relaxed) {
        overflow();
    }
}

#[cold]
fn overflow() -> ! {
    panic!("stack");
}
