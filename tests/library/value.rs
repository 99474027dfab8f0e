//! The calls by value that the wrappers stand over, under the wrappers' names.

use super::{into, CheckResult, ClientResult, Master, Message, MessageReading, Object, Outcome, Placed, Playback, ProgressView, Recording};
use super::{SentResult, Sequence, Shown, SlotResult, StepResult, TakenResult, Written};

extern "C" {
    fn value_write_object(object: *const Object, place: usize, out: *mut u8, out_len: usize, placed: *mut Placed);
    fn value_read(side: u32, bytes: *const u8, len: usize, reading: *mut MessageReading);
    fn value_write(message: *const Message, out: *mut u8, out_len: usize, written: *mut Written);
    fn value_write_transfer(pool: *const u8, len: usize, out: *mut u8, out_len: usize, written: *mut Written);
    fn value_shown_of(value: u32, offset: i32, scale: f32, shown: *mut Shown);
    fn value_write_shown(value: u32, offset: i32, scale: f32, decimals: u32, out: *mut u8, out_len: usize, written: *mut Written);
    fn value_on(m: *const Master, o: *mut Outcome);
    fn value_off(m: *const Master, o: *mut Outcome);
    fn value_attach(m: *const Master, slot: usize, name: u64, pool: *const u8, len: usize, o: *mut Outcome);
    fn value_enable(m: *const Master, slot: usize, out: *mut u8, out_len: usize, o: *mut Outcome);
    fn value_disable(m: *const Master, slot: usize, out: *mut u8, out_len: usize, o: *mut Outcome);
    fn value_report(m: *const Master, slot: usize, report: u32, o: *mut Outcome);
    fn value_lost(m: *const Master, slot: usize, o: *mut Outcome);
    fn value_record(m: *const Master, o: *mut Outcome);
    fn value_stop(m: *const Master, o: *mut Outcome);
    fn value_cancel(m: *const Master, o: *mut Outcome);
    fn value_indication(m: *const Master, slot: usize, msg: *const u8, len: usize, out: *mut u8, out_len: usize, o: *mut Outcome);
    fn value_client_abort(m: *const Master, slot: usize, msg: *const u8, len: usize, o: *mut Outcome);
    fn value_start(m: *const Master, o: *mut Outcome);
    fn value_abort(m: *const Master, o: *mut Outcome);
    fn value_tick(m: *const Master, mm: u32, frames: *mut u8, frames_len: usize, o: *mut Outcome);
    fn value_answer(m: *const Master, slot: usize, msg: *const u8, len: usize, out: *mut u8, out_len: usize, o: *mut Outcome);
    fn value_store(m: *const Master, blocks: *mut u8, len: usize, o: *mut Outcome);
    fn value_load(m: *const Master, blocks: *const u8, len: usize, o: *mut Outcome);
    fn value_edition(m: *const Master, edition: u32, o: *mut Outcome);
    fn value_state(state: u8) -> u8;
    fn value_slot(m: *const Master, slot: usize, r: *mut SlotResult);
    fn value_step_count(sequence: *const Sequence) -> usize;
    fn value_sequence_edition(sequence: *const Sequence) -> u32;
    fn value_step(sequence: *const Sequence, i: usize, r: *mut StepResult);
    fn value_client(sequence: *const Sequence, slot: usize, r: *mut ClientResult);
    fn value_progress(state: u8, recording: *const Recording, playback: *const Playback, r: *mut ProgressView);
    fn value_taken(recording: *const Recording, i: usize, r: *mut TakenResult);
    fn value_sent(playback: *const Playback, i: usize, r: *mut SentResult);
    fn value_verify(m: *const Master, r: *mut CheckResult);
}

pub fn object_write(object: &Object, place: usize, out: &mut [u8]) -> Placed {
    into(|placed| unsafe { value_write_object(object, place, out.as_mut_ptr(), out.len(), placed) })
}

pub fn message_read(side: u32, bytes: &[u8]) -> MessageReading {
    into(|reading| unsafe { value_read(side, bytes.as_ptr(), bytes.len(), reading) })
}

pub fn message_write(message: &Message, out: &mut [u8]) -> Written {
    into(|written| unsafe { value_write(message, out.as_mut_ptr(), out.len(), written) })
}

pub fn transfer_write(pool: &[u8], out: &mut [u8]) -> Written {
    into(|written| unsafe { value_write_transfer(pool.as_ptr(), pool.len(), out.as_mut_ptr(), out.len(), written) })
}

pub fn shown(value: u32, offset: i32, scale: f32) -> Shown {
    into(|shown| unsafe { value_shown_of(value, offset, scale, shown) })
}

pub fn shown_text(value: u32, offset: i32, scale: f32, decimals: u32, out: &mut [u8]) -> Written {
    into(|written| unsafe { value_write_shown(value, offset, scale, decimals, out.as_mut_ptr(), out.len(), written) })
}

pub fn on(m: &Master) -> Outcome {
    into(|o| unsafe { value_on(m, o) })
}

pub fn off(m: &Master) -> Outcome {
    into(|o| unsafe { value_off(m, o) })
}

pub fn attach(m: &Master, slot: usize, name: u64, pool: &[u8]) -> Outcome {
    into(|o| unsafe { value_attach(m, slot, name, pool.as_ptr(), pool.len(), o) })
}

pub fn enable(m: &Master, slot: usize, out: &mut [u8]) -> Outcome {
    into(|o| unsafe { value_enable(m, slot, out.as_mut_ptr(), out.len(), o) })
}

pub fn disable(m: &Master, slot: usize, out: &mut [u8]) -> Outcome {
    into(|o| unsafe { value_disable(m, slot, out.as_mut_ptr(), out.len(), o) })
}

pub fn report(m: &Master, slot: usize, report: u32) -> Outcome {
    into(|o| unsafe { value_report(m, slot, report, o) })
}

pub fn lost(m: &Master, slot: usize) -> Outcome {
    into(|o| unsafe { value_lost(m, slot, o) })
}

pub fn record(m: &Master) -> Outcome {
    into(|o| unsafe { value_record(m, o) })
}

pub fn stop(m: &Master) -> Outcome {
    into(|o| unsafe { value_stop(m, o) })
}

pub fn cancel(m: &Master) -> Outcome {
    into(|o| unsafe { value_cancel(m, o) })
}

pub fn indication(m: &Master, slot: usize, message: &[u8], out: &mut [u8]) -> Outcome {
    into(|o| unsafe { value_indication(m, slot, message.as_ptr(), message.len(), out.as_mut_ptr(), out.len(), o) })
}

pub fn client_abort(m: &Master, slot: usize, message: &[u8]) -> Outcome {
    into(|o| unsafe { value_client_abort(m, slot, message.as_ptr(), message.len(), o) })
}

pub fn start(m: &Master) -> Outcome {
    into(|o| unsafe { value_start(m, o) })
}

pub fn abort(m: &Master) -> Outcome {
    into(|o| unsafe { value_abort(m, o) })
}

pub fn tick(m: &Master, mm: u32, frames: &mut [u8]) -> Outcome {
    into(|o| unsafe { value_tick(m, mm, frames.as_mut_ptr(), frames.len(), o) })
}

pub fn answer(m: &Master, slot: usize, message: &[u8], out: &mut [u8]) -> Outcome {
    into(|o| unsafe { value_answer(m, slot, message.as_ptr(), message.len(), out.as_mut_ptr(), out.len(), o) })
}

pub fn store(m: &Master, blocks: &mut [u8]) -> Outcome {
    into(|o| unsafe { value_store(m, blocks.as_mut_ptr(), blocks.len(), o) })
}

pub fn load(m: &Master, blocks: &[u8]) -> Outcome {
    into(|o| unsafe { value_load(m, blocks.as_ptr(), blocks.len(), o) })
}

pub fn edition(m: &Master, edition: u32) -> Outcome {
    into(|o| unsafe { value_edition(m, edition, o) })
}

pub fn state(state: u8) -> u8 {
    unsafe { value_state(state) }
}

pub fn slot(m: &Master, slot: usize) -> SlotResult {
    into(|r| unsafe { value_slot(m, slot, r) })
}

pub fn step_count(sequence: &Sequence) -> usize {
    unsafe { value_step_count(sequence) }
}

pub fn sequence_edition(sequence: &Sequence) -> u32 {
    unsafe { value_sequence_edition(sequence) }
}

pub fn step(sequence: &Sequence, i: usize) -> StepResult {
    into(|r| unsafe { value_step(sequence, i, r) })
}

pub fn client(sequence: &Sequence, slot: usize) -> ClientResult {
    into(|r| unsafe { value_client(sequence, slot, r) })
}

pub fn progress(state: u8, recording: &Recording, playback: &Playback) -> ProgressView {
    into(|r| unsafe { value_progress(state, recording, playback, r) })
}

pub fn taken(recording: &Recording, i: usize) -> TakenResult {
    into(|r| unsafe { value_taken(recording, i, r) })
}

pub fn sent(playback: &Playback, i: usize) -> SentResult {
    into(|r| unsafe { value_sent(playback, i, r) })
}

pub fn verify(m: &Master) -> CheckResult {
    into(|r| unsafe { value_verify(m, r) })
}
