//! The master's calls by value, as include/scm.h declares them, and nothing around them.

use crate::calls::noted;
use crate::event::Event;
use crate::library::{CheckResult, ClientResult, Master, Outcome, Playback, ProgressView, Recording};
use crate::library::{SentResult, Sequence, SlotResult, StepResult, TakenResult};
use crate::stack::note;
use std::arch::asm;
use std::mem::{size_of, MaybeUninit};
use std::ptr::addr_of;

extern "C" {
    fn scm_master_new() -> Master;
    fn scm_master_on(m: Master) -> Outcome;
    fn scm_master_off(m: Master) -> Outcome;
    fn scm_master_attach(m: Master, slot: usize, name: u64, pool: *const u8, pool_len: usize) -> Outcome;
    fn scm_master_enable(m: Master, slot: usize, out: *mut u8, out_len: usize) -> Outcome;
    fn scm_master_disable(m: Master, slot: usize, out: *mut u8, out_len: usize) -> Outcome;
    fn scm_master_report(m: Master, slot: usize, report: u32) -> Outcome;
    fn scm_master_lost(m: Master, slot: usize) -> Outcome;
    fn scm_master_record(m: Master) -> Outcome;
    fn scm_master_stop(m: Master) -> Outcome;
    fn scm_master_cancel(m: Master) -> Outcome;
    fn scm_master_indication(m: Master, slot: usize, msg: *const u8, msg_len: usize, out: *mut u8, out_len: usize) -> Outcome;
    fn scm_master_client_abort(m: Master, slot: usize, msg: *const u8, msg_len: usize) -> Outcome;
    fn scm_master_start(m: Master) -> Outcome;
    fn scm_master_abort(m: Master) -> Outcome;
    fn scm_master_tick(m: Master, mm: u32, frames: *mut u8, frames_len: usize) -> Outcome;
    fn scm_master_answer(m: Master, slot: usize, msg: *const u8, msg_len: usize, out: *mut u8, out_len: usize) -> Outcome;
    fn scm_master_store(m: Master, blocks: *mut u8, blocks_len: usize) -> Outcome;
    fn scm_master_load(m: Master, blocks: *const u8, blocks_len: usize) -> Outcome;
    fn scm_master_edition(m: Master, edition: u32) -> Outcome;
    fn scm_master_state(state: u8) -> u8;
    fn scm_master_slot(m: Master, slot: usize) -> SlotResult;
    fn scm_master_step_count(sequence: Sequence) -> usize;
    fn scm_master_sequence_edition(sequence: Sequence) -> u32;
    fn scm_master_step(sequence: Sequence, i: usize) -> StepResult;
    fn scm_master_client(sequence: Sequence, slot: usize) -> ClientResult;
    fn scm_master_progress(state: u8, recording: Recording, playback: Playback) -> ProgressView;
    fn scm_master_taken(recording: Recording, i: usize) -> TakenResult;
    fn scm_master_sent(playback: Playback, i: usize) -> SentResult;
    fn scm_master_verify(m: Master) -> CheckResult;
}

// SAFETY, of every call below: the structs are those of the interface, and each pointer and length are those of one
// slice, lent for the call.

/// Hands a struct over by value, a master or a part of it: one copy, to where the C convention has it, below the caller's frame, at a multiple of 16.
/// (Rust's compilers make one copy or two, by their age.) The other arguments, numbers, go in six registers; two are given back.
#[inline(never)]
unsafe fn hand_over<T>(call: *const (), it: &T, arguments: [usize; 6]) -> [u64; 2] {
    let (first, second);
    let room = (size_of::<T>() + 15) / 16 * 16;
    note(room);
    asm!(
        "sub rsp, r15",
        "mov rdi, rsp",
        "rep movsq",
        "mov rdi, r12",
        "mov rsi, r13",
        "mov rcx, r14",
        "call rax",
        "add rsp, r15",
        in("r15") room,
        in("rsi") it,
        in("rcx") size_of::<T>() / 8,
        in("r12") arguments[0],
        in("r13") arguments[1],
        inlateout("rdx") arguments[2] => second,
        in("r14") arguments[3],
        in("r8") arguments[4],
        in("r9") arguments[5],
        inlateout("rax") call => first,
        clobber_abi("C"),
    );
    [first, second]
}

#[inline(never)]
pub fn new() -> Master {
    noted(|| unsafe { scm_master_new() })
}

#[inline(never)]
pub fn state(m: &Master) -> u8 {
    noted(|| unsafe { scm_master_state(m.state) })
}

/// A struct of 16 bytes comes back in the two registers.
pub fn slot(m: &Master, slot: usize) -> SlotResult {
    let given = unsafe { hand_over(scm_master_slot as *const (), m, [slot, 0, 0, 0, 0, 0]) };
    unsafe { *given.as_ptr().cast() }
}

pub fn step_count(m: &Master) -> usize {
    unsafe { hand_over(scm_master_step_count as *const (), &m.sequence, [0; 6])[0] as usize }
}

pub fn sequence_edition(m: &Master) -> u32 {
    unsafe { hand_over(scm_master_sequence_edition as *const (), &m.sequence, [0; 6])[0] as u32 }
}

/// A struct of 16 bytes comes back in the two registers.
pub fn step(m: &Master, i: usize) -> StepResult {
    let given = unsafe { hand_over(scm_master_step as *const (), &m.sequence, [i, 0, 0, 0, 0, 0]) };
    unsafe { *given.as_ptr().cast() }
}

/// Where a larger struct is written, which is the first argument.
unsafe fn written<T, R>(call: *const (), it: &T, argument: usize) -> R {
    let mut given = MaybeUninit::<R>::uninit();
    hand_over(call, it, [given.as_mut_ptr() as usize, argument, 0, 0, 0, 0]);
    given.assume_init()
}

pub fn client(m: &Master, slot: usize) -> ClientResult {
    unsafe { written(scm_master_client as *const (), &m.sequence, slot) }
}

/// Two parts, one behind the other, as they stand in the master and as the C convention has them.
#[repr(C)]
pub struct Parts {
    recording: Recording,
    playback: Playback,
}

pub fn progress(m: &Master) -> ProgressView {
    let master: *const Master = m;
    let parts = unsafe { &*addr_of!((*master).recording).cast::<Parts>() };
    let given = unsafe { hand_over(scm_master_progress as *const (), parts, [usize::from(m.state), 0, 0, 0, 0, 0]) };
    unsafe { *given.as_ptr().cast() }
}

pub fn taken(m: &Master, i: usize) -> TakenResult {
    unsafe { written(scm_master_taken as *const (), &m.recording, i) }
}

/// A struct of 12 bytes comes back in the two registers.
pub fn sent(m: &Master, i: usize) -> SentResult {
    let given = unsafe { hand_over(scm_master_sent as *const (), &m.playback, [i, 0, 0, 0, 0, 0]) };
    unsafe { *given.as_ptr().cast() }
}

pub fn verify(m: &Master) -> CheckResult {
    unsafe { written(scm_master_verify as *const (), m, 0) }
}

/// The outcome is written where it is wanted, which is the first argument.
pub fn event(event: &Event, m: &Master, out: &mut [u8], outcome: &mut Outcome) {
    let (o, room) = (out.as_mut_ptr() as usize, out.len());
    let (i, length) = (event.handed().as_ptr() as usize, event.handed().len());
    let (call, others): (*const (), [usize; 5]) = match *event {
        Event::On => (scm_master_on as _, [0; 5]),
        Event::Off => (scm_master_off as _, [0; 5]),
        Event::Attach { slot, name, .. } => (scm_master_attach as _, [slot, name as usize, i, length, 0]),
        Event::Enable { slot, .. } => (scm_master_enable as _, [slot, o, room, 0, 0]),
        Event::Disable { slot, .. } => (scm_master_disable as _, [slot, o, room, 0, 0]),
        Event::Report { slot, report } => (scm_master_report as _, [slot, report as usize, 0, 0, 0]),
        Event::Lost { slot } => (scm_master_lost as _, [slot, 0, 0, 0, 0]),
        Event::Record => (scm_master_record as _, [0; 5]),
        Event::Stop => (scm_master_stop as _, [0; 5]),
        Event::Cancel => (scm_master_cancel as _, [0; 5]),
        Event::Indication { slot, .. } => (scm_master_indication as _, [slot, i, length, o, room]),
        Event::ClientAbort { slot, .. } => (scm_master_client_abort as _, [slot, i, length, 0, 0]),
        Event::Start => (scm_master_start as _, [0; 5]),
        Event::Abort => (scm_master_abort as _, [0; 5]),
        Event::Tick { millimetres, .. } => (scm_master_tick as _, [millimetres as usize, o, room, 0, 0]),
        Event::Answer { slot, .. } => (scm_master_answer as _, [slot, i, length, o, room]),
        Event::Store { .. } => (scm_master_store as _, [o, room, 0, 0, 0]),
        Event::Load { .. } => (scm_master_load as _, [i, length, 0, 0, 0]),
        Event::Edition { edition } => (scm_master_edition as _, [edition as usize, 0, 0, 0, 0]),
    };
    let [a, b, c, d, e] = others;
    unsafe { hand_over(call, m, [outcome as *mut Outcome as usize, a, b, c, d, e]) };
}

/// An outcome to be written over.
pub fn blank_outcome() -> Box<Outcome> {
    Box::new(Outcome { number: 0, code: 0, object: 0, count: 0, master: new() })
}
