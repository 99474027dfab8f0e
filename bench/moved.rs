//! Bytes that the library moves. tools/bench renames memcpy, memmove and memset inside the library to these, which count the
//! bytes and hand the call on. What the compiler moves without a call, up to some hundred bytes, is not counted.

use std::ffi::c_void;
use std::sync::atomic::{AtomicUsize, Ordering};

static MOVED: AtomicUsize = AtomicUsize::new(0);

/// The bytes moved since this was asked last.
pub fn taken() -> usize {
    MOVED.swap(0, Ordering::Relaxed)
}

fn count(bytes: usize) {
    MOVED.store(MOVED.load(Ordering::Relaxed) + bytes, Ordering::Relaxed);
}

extern "C" {
    fn memcpy(to: *mut c_void, from: *const c_void, bytes: usize) -> *mut c_void;
    fn memmove(to: *mut c_void, from: *const c_void, bytes: usize) -> *mut c_void;
    fn memset(to: *mut c_void, value: i32, bytes: usize) -> *mut c_void;
}

// SAFETY, of all three: the caller's arguments are handed on.

#[no_mangle]
pub unsafe extern "C" fn counted_memcpy(to: *mut c_void, from: *const c_void, bytes: usize) -> *mut c_void {
    count(bytes);
    memcpy(to, from, bytes)
}

#[no_mangle]
pub unsafe extern "C" fn counted_memmove(to: *mut c_void, from: *const c_void, bytes: usize) -> *mut c_void {
    count(bytes);
    memmove(to, from, bytes)
}

#[no_mangle]
pub unsafe extern "C" fn counted_memset(to: *mut c_void, value: i32, bytes: usize) -> *mut c_void {
    count(bytes);
    memset(to, value, bytes)
}
