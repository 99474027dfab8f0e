//! The wrappers with NULL for an out-parameter, under their names: what is left is the number, and what is lent or handed over.

use super::*;
use std::ptr::null_mut;

pub fn object_write(object: &Object, place: usize, out: &mut [u8]) -> u8 {
    unsafe { through_object_write(object, place, out.as_mut_ptr(), out.len(), null_mut()) }
}

pub fn message_read(side: u32, bytes: &[u8]) -> u8 {
    unsafe { through_message_read(side, bytes.as_ptr(), bytes.len(), null_mut()) }
}

pub fn message_write(message: &Message, out: &mut [u8]) -> u8 {
    unsafe { through_message_write(message, out.as_mut_ptr(), out.len(), null_mut()) }
}

pub fn transfer_write(pool: &[u8], out: &mut [u8]) -> u8 {
    unsafe { through_transfer_write(pool.as_ptr(), pool.len(), out.as_mut_ptr(), out.len(), null_mut()) }
}

pub fn shown(value: u32, offset: i32, scale: f32) -> u8 {
    unsafe { through_shown(value, offset, scale, null_mut()) }
}

pub fn shown_text(value: u32, offset: i32, scale: f32, decimals: u32, text: &mut [u8]) -> u8 {
    unsafe { through_shown_text(value, offset, scale, decimals, text.as_mut_ptr().cast(), text.len(), null_mut()) }
}

/// Code and object are not written where they are not wanted.
pub fn attach(m: &mut Master, slot: usize, name: u64, pool: &[u8], code: Option<&mut u8>, object: Option<&mut u16>) -> u8 {
    let code = code.map_or(null_mut(), |code| code as *mut u8);
    let object = object.map_or(null_mut(), |object| object as *mut u16);
    unsafe { through_attach(m, slot, name, pool.as_ptr(), pool.len(), code, object) }
}

pub fn tick(m: &mut Master, mm: u32, frames: &mut [u8]) -> u8 {
    unsafe { through_tick(m, mm, frames.as_mut_ptr(), frames.len(), null_mut()) }
}

pub fn store(m: &Master, blocks: &mut [u8]) -> u8 {
    unsafe { through_store(m, blocks.as_mut_ptr(), blocks.len(), null_mut()) }
}

pub fn slot(m: &Master, slot: usize) -> u8 {
    unsafe { through_slot(m, slot, null_mut()) }
}

pub fn step(m: &Master, i: usize) -> u8 {
    unsafe { through_step(m, i, null_mut()) }
}

pub fn client(m: &Master, slot: usize) -> u8 {
    unsafe { through_client(m, slot, null_mut()) }
}

pub fn taken(m: &Master, i: usize) -> u8 {
    unsafe { through_taken(m, i, null_mut()) }
}

pub fn sent(m: &Master, i: usize) -> u8 {
    unsafe { through_sent(m, i, null_mut()) }
}

pub fn verify(m: &Master) -> u8 {
    unsafe { through_verify(m, null_mut()) }
}
