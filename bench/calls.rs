//! The library's calls by value, as include/scm.h declares them, and nothing around them: those that take no master.

use crate::library::{Message, MessageReading, Object, Placed, Profile, Rewritten, Shown, Verdict, Written};
use crate::stack::note;

extern "C" {
    fn scm_pool_check(pool: *const u8, len: usize) -> Verdict;
    fn scm_profile_of(pool: *const u8, len: usize) -> Profile;
    fn scm_object_at(pool: *const u8, len: usize, place: usize) -> Object;
    fn scm_pool_rewrite(pool: *const u8, len: usize, out: *mut u8, out_len: usize) -> Rewritten;
    fn scm_write_object(object: Object, place: usize, out: *mut u8, out_len: usize) -> Placed;
    fn scm_read(side: u32, bytes: *const u8, len: usize) -> MessageReading;
    fn scm_write(message: Message, out: *mut u8, len: usize) -> Written;
    fn scm_write_transfer(pool: *const u8, pool_len: usize, out: *mut u8, len: usize) -> Written;
    fn scm_shown_of(value: u32, offset: i32, scale: f32) -> Shown;
    fn scm_shown_bits(value: u32, offset: i32, scale: u32) -> Shown;
    fn scm_write_shown(value: u32, offset: i32, scale: f32, decimals: u32, out: *mut u8, out_len: usize) -> Written;
    fn scm_version() -> u32;
}

// SAFETY, of every call below: the structs are those of the interface, and each pointer and length are those of one
// slice, lent for the call. None is inlined, so that the frame noted is that of the call's own caller.

/// Makes a call and notes the frame before and after it, so that it cannot become a jump out of the frame.
#[inline(always)]
pub fn noted<T>(call: impl FnOnce() -> T) -> T {
    note(0);
    let given = call();
    note(0);
    given
}

#[inline(never)]
pub fn pool_check(pool: &[u8]) -> Verdict {
    noted(|| unsafe { scm_pool_check(pool.as_ptr(), pool.len()) })
}

#[inline(never)]
pub fn profile_of(pool: &[u8]) -> Profile {
    noted(|| unsafe { scm_profile_of(pool.as_ptr(), pool.len()) })
}

#[inline(never)]
pub fn object_at(pool: &[u8], place: usize) -> Object {
    noted(|| unsafe { scm_object_at(pool.as_ptr(), pool.len(), place) })
}

#[inline(never)]
pub fn pool_rewrite(pool: &[u8], out: &mut [u8]) -> Rewritten {
    noted(|| unsafe { scm_pool_rewrite(pool.as_ptr(), pool.len(), out.as_mut_ptr(), out.len()) })
}

#[inline(never)]
pub fn write_object(object: &Object, place: usize, out: &mut [u8]) -> Placed {
    noted(|| unsafe { scm_write_object(*object, place, out.as_mut_ptr(), out.len()) })
}

#[inline(never)]
pub fn read(side: u32, bytes: &[u8]) -> MessageReading {
    noted(|| unsafe { scm_read(side, bytes.as_ptr(), bytes.len()) })
}

#[inline(never)]
pub fn write(message: &Message, out: &mut [u8]) -> Written {
    noted(|| unsafe { scm_write(*message, out.as_mut_ptr(), out.len()) })
}

#[inline(never)]
pub fn write_transfer(pool: &[u8], out: &mut [u8]) -> Written {
    noted(|| unsafe { scm_write_transfer(pool.as_ptr(), pool.len(), out.as_mut_ptr(), out.len()) })
}

#[inline(never)]
pub fn shown_of(value: u32, offset: i32, scale: f32) -> Shown {
    noted(|| unsafe { scm_shown_of(value, offset, scale) })
}

#[inline(never)]
pub fn shown_bits(value: u32, offset: i32, scale: u32) -> Shown {
    noted(|| unsafe { scm_shown_bits(value, offset, scale) })
}

#[inline(never)]
pub fn write_shown(value: u32, offset: i32, scale: f32, decimals: u32, out: &mut [u8]) -> Written {
    noted(|| unsafe { scm_write_shown(value, offset, scale, decimals, out.as_mut_ptr(), out.len()) })
}

#[inline(never)]
pub fn version() -> u32 {
    noted(|| unsafe { scm_version() })
}
