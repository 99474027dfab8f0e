//! The library as include/scm.h has it: its structs, and thin safe functions over the functions of tests/header.c, which hand the header on.
//!
//! A wrapper writes what it gives to the memory that is handed over, in any case: so that memory holds POISON before each call.

#[path = "library/unwanted.rs"]
pub mod unwanted;
#[path = "library/value.rs"]
pub mod value;

use std::ffi::CStr;
use std::mem::{size_of, MaybeUninit};
use std::os::raw::c_char;
use std::ptr::addr_of;

pub const POISON: u8 = 0xA5;

/// A row of the layout: a struct's size, or where a field of it stands, of how many bytes it is and of which type here.
#[derive(Clone)]
pub struct Row {
    pub structure: &'static str,
    pub field: &'static str,
    pub at: usize,
    pub bytes: usize,
    pub kind: &'static str,
}

fn bytes_at<T>(_: *const T) -> usize {
    size_of::<T>()
}

/// The structs, each with its name in the header, and their layout as it is here.
macro_rules! structs {
    ($($(#[$note:meta])* $structure:literal $name:ident { $($field:ident: $type:ty,)* })*) => {
        $(
            $(#[$note])*
            #[repr(C)]
            #[derive(Clone, Copy, Debug, PartialEq)]
            pub struct $name {
                $(pub $field: $type,)*
            }
        )*

        pub fn layout() -> Vec<Row> {
            let mut rows = Vec::new();
            $(
                let bytes = size_of::<$name>();
                rows.push(Row { structure: $structure, field: "", at: bytes, bytes, kind: stringify!($name) });
                let cell = MaybeUninit::<$name>::uninit();
                let start = cell.as_ptr();
                $(
                    // SAFETY: the address of a field is taken; nothing is read.
                    let field = unsafe { addr_of!((*start).$field) };
                    let at = field as usize - start as usize;
                    let (field, bytes) = (stringify!($field), bytes_at(field));
                    rows.push(Row { structure: $structure, field, at, bytes, kind: stringify!($type) });
                )*
            )*
            rows
        }
    };
}

structs! {
    "scm_verdict" Verdict {
        code: u8,
        object: u16,
    }

    /// An object, numbers only: kind 0 a base, 1 a function, 2 a state, 255 none that can be read at the place.
    "scm_object" Object {
        kind: u8,
        place: usize,
        next: usize,
        number: u16,
        standard: u8,
        master: u64,
        mask: u64,
        name: u16,
        picture: u16,
        function: u8,
        trigger: u8,
        attribute: u8,
        minimum: u32,
        maximum: u32,
        offset: u32,
        scale: u32,
        decimals: u8,
        unit: u16,
        state: u8,
        n: u8,
        m: u8,
        count: u8,
        version: [u8; 63],
        configuration: [u8; 63],
        list: [u16; 255],
    }

    "scm_placed" Placed {
        number: u8,
        next: usize,
    }

    "scm_rewritten" Rewritten {
        number: u8,
        code: u8,
        object: u16,
    }

    "scm_label" Label {
        length: u8,
        bytes: [u8; 63],
    }

    "scm_profile" Profile {
        master: u64,
        mask: u64,
        version: Label,
        configuration: Label,
        trigger: [u8; 256],
        states: [u64; 256],
    }

    "scm_capability" Capability {
        version: u8,
        width: u8,
        height: u8,
        characters: u16,
        colour: u8,
        size: u8,
        font: u8,
        style: u8,
    }

    "scm_message_step" MessageStep {
        function: u8,
        state: u8,
        status: u8,
        error: u8,
        tan: u8,
        value: u32,
    }

    "scm_message" Message {
        kind: u8,
        code: u8,
        reason: u8,
        object: u16,
        memory: u32,
        capability: Capability,
        step: MessageStep,
        label: Label,
    }

    "scm_message_reading" MessageReading {
        number: u8,
        message: Message,
    }

    "scm_written" Written {
        number: u8,
        length: usize,
    }

    "scm_shown_value" Shown {
        number: u8,
        exact: u8,
        value: f64,
    }

    "scm_slot_state" Slot {
        taken: u8,
        wanted: u8,
        report: u8,
        name: u64,
        profile: Profile,
    }

    "scm_client_record" Client {
        used: u8,
        name: u64,
        master: u64,
        version: Label,
        configuration: Label,
    }

    "scm_sequence_step" Step {
        slot: u8,
        function: u8,
        state: u8,
        distance: u8,
        value: u32,
        mark: u32,
    }

    "scm_taken_step" Taken {
        step: Step,
        tan: u8,
        status: u8,
    }

    "scm_sent_step" Sent {
        tan: u8,
        answer: u8,
        left: u32,
    }

    "scm_sequence" Sequence {
        count: usize,
        edition: u32,
        steps: [Step; 64],
        clients: [Client; 8],
    }

    "scm_recording" Recording {
        ticks: u32,
        distance: u32,
        count: usize,
        steps: [Taken; 64],
        clients: [Client; 8],
    }

    "scm_playback" Playback {
        ticks: u32,
        distance: u32,
        sent: usize,
        commands: [Sent; 64],
    }

    "scm_master" Master {
        state: u8,
        tan: u8,
        slots: [Slot; 8],
        sequence: Sequence,
        recording: Recording,
        playback: Playback,
    }

    /// What an event gives: code and object come from an attachment, count from a tick or a store; with any other wrapper they are 0 here.
    "scm_outcome" Outcome {
        number: u8,
        code: u8,
        object: u16,
        count: u32,
        master: Master,
    }

    "scm_slot_result" SlotResult {
        number: u8,
        taken: u8,
        wanted: u8,
        report: u8,
        name: u64,
    }

    "scm_step_result" StepResult {
        number: u8,
        step: Step,
    }

    "scm_client_result" ClientResult {
        number: u8,
        client: Client,
    }

    "scm_taken_result" TakenResult {
        number: u8,
        taken: Taken,
    }

    "scm_sent_result" SentResult {
        number: u8,
        sent: Sent,
    }

    "scm_check_result" CheckResult {
        number: u8,
        slot: usize,
        step: usize,
    }

    "scm_progress_view" ProgressView {
        ticks: u32,
        distance: u32,
        count: usize,
    }

    "scm_slot_view" SlotView {
        taken: u8,
        wanted: u8,
        report: u8,
        name: u64,
    }

    "scm_client_view" ClientView {
        used: u8,
        name: u64,
        master_name: u64,
        version_length: u8,
        version: [u8; 63],
        configuration_length: u8,
        configuration: [u8; 63],
    }

    "scm_check_view" CheckView {
        slot: usize,
        step: usize,
    }
}

pub const NO_LABEL: Label = Label { length: 0, bytes: [0; 63] };
pub const NO_PROFILE: Profile =
    Profile { master: 0, mask: 0, version: NO_LABEL, configuration: NO_LABEL, trigger: [0; 256], states: [0; 256] };
pub const NO_MESSAGE: Message = Message {
    kind: 0,
    code: 0,
    reason: 0,
    object: 0,
    memory: 0,
    capability: Capability { version: 0, width: 0, height: 0, characters: 0, colour: 0, size: 0, font: 0, style: 0 },
    step: MessageStep { function: 0, state: 0, status: 0, error: 0, tan: 0, value: 0 },
    label: NO_LABEL,
};
pub const NO_SLOT: Slot = Slot { taken: 0, wanted: 0, report: 0, name: 0, profile: NO_PROFILE };
pub const NO_CLIENT: Client = Client { used: 0, name: 0, master: 0, version: NO_LABEL, configuration: NO_LABEL };
pub const NO_STEP: Step = Step { slot: 0, function: 0, state: 0, distance: 0, value: 0, mark: 0 };
pub const NO_TAKEN: Taken = Taken { step: NO_STEP, tan: 0, status: 0 };
pub const NO_SENT: Sent = Sent { tan: 0, answer: 0, left: 0 };
pub const NO_SEQUENCE: Sequence = Sequence { count: 0, edition: 0, steps: [NO_STEP; 64], clients: [NO_CLIENT; 8] };
pub const NO_RECORDING: Recording =
    Recording { ticks: 0, distance: 0, count: 0, steps: [NO_TAKEN; 64], clients: [NO_CLIENT; 8] };
pub const NO_PLAYBACK: Playback = Playback { ticks: 0, distance: 0, sent: 0, commands: [NO_SENT; 64] };
pub const NO_MASTER: Master = Master {
    state: 0,
    tan: 0,
    slots: [NO_SLOT; 8],
    sequence: NO_SEQUENCE,
    recording: NO_RECORDING,
    playback: NO_PLAYBACK,
};

impl Master {
    /// The same with its sequence in this edition.
    pub fn in_edition(&self, edition: u32) -> Master {
        Master { sequence: Sequence { edition, ..self.sequence }, ..*self }
    }
}

/// Structs of numbers alone, for which all bytes are a value.
pub trait Plain: Copy {
    fn poisoned() -> Self {
        Self::made(|| POISON)
    }

    /// All bytes, one after the other, those between fields too.
    fn made(mut next: impl FnMut() -> u8) -> Self {
        let mut cell = MaybeUninit::<Self>::uninit();
        let start = cell.as_mut_ptr() as *mut u8;
        for at in 0..size_of::<Self>() {
            // SAFETY: the byte is one of the cell's.
            unsafe { start.add(at).write(next()) }
        }
        // SAFETY: all bytes of the cell are written, and any bytes are a value of the type.
        unsafe { cell.assume_init() }
    }

    /// The bytes of a field, which stand there and are so many.
    fn field(&self, at: usize, bytes: usize) -> &[u8] {
        assert!(at + bytes <= size_of::<Self>());
        // SAFETY: they are within the struct, and a field's bytes are written ones.
        unsafe { std::slice::from_raw_parts((self as *const Self as *const u8).add(at), bytes) }
    }
}

macro_rules! plain {
    ($($name:ty)*) => { $(impl Plain for $name {})* };
}

plain! { u8 u16 u32 usize f64 Verdict Object Placed Rewritten Profile Message MessageReading Written Shown Master Outcome Step Taken Sent }
plain! { SlotResult StepResult ClientResult TakenResult SentResult CheckResult ProgressView SlotView ClientView CheckView }

/// What a call writes to memory that is handed over: the memory holds POISON before.
fn into<T: Plain>(call: impl FnOnce(&mut T)) -> T {
    let mut cell = T::poisoned();
    call(&mut cell);
    cell
}

/// The same, with the number that the call gives.
fn numbered<T: Plain>(call: impl FnOnce(&mut T) -> u8) -> (u8, T) {
    let mut cell = T::poisoned();
    let number = call(&mut cell);
    (number, cell)
}

// SAFETY, of every call in this file: the structs are those of the header, as the part `layout` shows, and each pointer and length are those
// of one slice, lent for the call.

/// What C has as text.
fn text(from: *const c_char) -> String {
    unsafe { CStr::from_ptr(from) }.to_string_lossy().into_owned()
}

/// A table of the header: two names (the second may be none), and a number.
fn table(rows: *const HeaderRow, count: usize) -> Vec<(String, String, usize)> {
    let rows = unsafe { std::slice::from_raw_parts(rows, count) };
    rows.iter().map(|row| (text(row.first), text(row.second), row.number)).collect()
}

#[repr(C)]
struct HeaderRow {
    first: *const c_char,
    second: *const c_char,
    number: usize,
}

extern "C" {
    static through_layout: [HeaderRow; 0];
    static through_layout_rows: usize;
    static through_names: [HeaderRow; 0];
    static through_names_rows: usize;
}

/// Struct, field (none for the size), and the number.
pub fn header_layout() -> Vec<(String, String, usize)> {
    unsafe { table(addr_of!(through_layout).cast(), through_layout_rows) }
}

/// The sizes, limits and codes by their names.
pub fn header_names() -> Vec<(String, usize)> {
    let rows = unsafe { table(addr_of!(through_names).cast(), through_names_rows) };
    rows.into_iter().map(|(name, _, number)| (name, number)).collect()
}

// ---- The version

extern "C" {
    fn through_header_version() -> u32;
    fn through_version() -> u32;
}

pub fn header_version() -> u32 {
    unsafe { through_header_version() }
}

pub fn version() -> u32 {
    unsafe { through_version() }
}

// ---- Texts

extern "C" {
    fn through_number_text(number: u8) -> *const c_char;
    fn through_pool_code_text(code: u8) -> *const c_char;
    fn through_state_text(state: u8) -> *const c_char;
    fn through_report_text(report: u8) -> *const c_char;
    fn through_status_text(status: u8) -> *const c_char;
    fn through_reason_text(reason: u8) -> *const c_char;
    fn through_abort_text(error: u8) -> *const c_char;
    fn through_indication_error_text(error: u8) -> *const c_char;
    fn through_answer_error_text(error: u8) -> *const c_char;
}

pub fn number_text(number: u8) -> String {
    text(unsafe { through_number_text(number) })
}

pub fn pool_code_text(code: u8) -> String {
    text(unsafe { through_pool_code_text(code) })
}

pub fn state_text(state: u8) -> String {
    text(unsafe { through_state_text(state) })
}

pub fn report_text(report: u8) -> String {
    text(unsafe { through_report_text(report) })
}

pub fn status_text(status: u8) -> String {
    text(unsafe { through_status_text(status) })
}

pub fn reason_text(reason: u8) -> String {
    text(unsafe { through_reason_text(reason) })
}

pub fn abort_text(error: u8) -> String {
    text(unsafe { through_abort_text(error) })
}

pub fn indication_error_text(error: u8) -> String {
    text(unsafe { through_indication_error_text(error) })
}

pub fn answer_error_text(error: u8) -> String {
    text(unsafe { through_answer_error_text(error) })
}

// ---- The pool

extern "C" {
    fn through_pool_check(pool: *const u8, len: usize, verdict: *mut Verdict);
    fn through_profile_of(pool: *const u8, len: usize, profile: *mut Profile);
    fn through_object_at(pool: *const u8, len: usize, place: usize, object: *mut Object);
    fn through_pool_rewrite(pool: *const u8, len: usize, out: *mut u8, out_len: usize, answer: *mut Rewritten);
    fn through_object_write(object: *const Object, place: usize, out: *mut u8, out_len: usize, next: *mut usize) -> u8;
}

pub fn pool_check(pool: &[u8]) -> Verdict {
    into(|verdict| unsafe { through_pool_check(pool.as_ptr(), pool.len(), verdict) })
}

pub fn profile_of(pool: &[u8]) -> Profile {
    into(|profile| unsafe { through_profile_of(pool.as_ptr(), pool.len(), profile) })
}

pub fn object_at(pool: &[u8], place: usize) -> Object {
    into(|object| unsafe { through_object_at(pool.as_ptr(), pool.len(), place, object) })
}

pub fn pool_rewrite(pool: &[u8], out: &mut [u8]) -> Rewritten {
    into(|answer| unsafe { through_pool_rewrite(pool.as_ptr(), pool.len(), out.as_mut_ptr(), out.len(), answer) })
}

/// The number, and the next place.
pub fn object_write(object: &Object, place: usize, out: &mut [u8]) -> (u8, usize) {
    numbered(|next| unsafe { through_object_write(object, place, out.as_mut_ptr(), out.len(), next) })
}

// ---- Messages

extern "C" {
    fn through_message_read(side: u32, bytes: *const u8, len: usize, message: *mut Message) -> u8;
    fn through_message_write(message: *const Message, out: *mut u8, out_len: usize, length: *mut usize) -> u8;
    fn through_transfer_write(pool: *const u8, len: usize, out: *mut u8, out_len: usize, length: *mut usize) -> u8;
}

/// The number, and the message.
pub fn message_read(side: u32, bytes: &[u8]) -> (u8, Message) {
    numbered(|message| unsafe { through_message_read(side, bytes.as_ptr(), bytes.len(), message) })
}

/// The number, and the length.
pub fn message_write(message: &Message, out: &mut [u8]) -> (u8, usize) {
    numbered(|length| unsafe { through_message_write(message, out.as_mut_ptr(), out.len(), length) })
}

/// The number, and the length.
pub fn transfer_write(pool: &[u8], out: &mut [u8]) -> (u8, usize) {
    let (from, to) = (pool.as_ptr(), out.as_mut_ptr());
    numbered(|length| unsafe { through_transfer_write(from, pool.len(), to, out.len(), length) })
}

// ---- The shown value

extern "C" {
    fn through_shown(value: u32, offset: i32, scale: f32, shown: *mut f64) -> u8;
    fn through_shown_bits(value: u32, offset: i32, scale: u32, shown: *mut Shown);
    fn through_shown_text(value: u32, offset: i32, scale: f32, decimals: u32, text: *mut c_char, len: usize, length: *mut usize) -> u8;
}

pub fn shown(value: u32, offset: i32, scale: f32) -> (u8, f64) {
    numbered(|shown| unsafe { through_shown(value, offset, scale, shown) })
}

pub fn shown_bits(value: u32, offset: i32, scale: u32) -> Shown {
    into(|shown| unsafe { through_shown_bits(value, offset, scale, shown) })
}

/// The number, and the length.
pub fn shown_text(value: u32, offset: i32, scale: f32, decimals: u32, text: &mut [u8]) -> (u8, usize) {
    numbered(|length| unsafe { through_shown_text(value, offset, scale, decimals, text.as_mut_ptr().cast(), text.len(), length) })
}

// ---- The master, by the wrappers. Each event takes the old state and gives what the wrapper leaves of a copy of it.
// They are not inlined, lest their copies of the state pile up in one caller's frame.

extern "C" {
    fn through_init(m: *mut Master);
    fn through_on(m: *mut Master) -> u8;
    fn through_off(m: *mut Master) -> u8;
    fn through_attach(m: *mut Master, slot: usize, name: u64, pool: *const u8, len: usize, code: *mut u8, object: *mut u16) -> u8;
    fn through_enable(m: *mut Master, slot: usize, out: *mut u8, out_len: usize) -> u8;
    fn through_disable(m: *mut Master, slot: usize, out: *mut u8, out_len: usize) -> u8;
    fn through_report(m: *mut Master, slot: usize, report: u32) -> u8;
    fn through_lost(m: *mut Master, slot: usize) -> u8;
    fn through_record(m: *mut Master) -> u8;
    fn through_stop(m: *mut Master) -> u8;
    fn through_cancel(m: *mut Master) -> u8;
    fn through_indication(m: *mut Master, slot: usize, msg: *const u8, len: usize, out: *mut u8, out_len: usize) -> u8;
    fn through_client_abort(m: *mut Master, slot: usize, msg: *const u8, len: usize) -> u8;
    fn through_start(m: *mut Master) -> u8;
    fn through_abort(m: *mut Master) -> u8;
    fn through_tick(m: *mut Master, mm: u32, frames: *mut u8, frames_len: usize, count: *mut u32) -> u8;
    fn through_answer(m: *mut Master, slot: usize, msg: *const u8, len: usize, out: *mut u8, out_len: usize) -> u8;
    fn through_store(m: *const Master, blocks: *mut u8, len: usize, written: *mut usize) -> u8;
    fn through_load(m: *mut Master, blocks: *const u8, len: usize) -> u8;
    fn through_edition(m: *mut Master, edition: u32) -> u8;
    fn through_state(m: *const Master) -> u8;
    fn through_slot(m: *const Master, slot: usize, view: *mut SlotView) -> u8;
    fn through_step_count(m: *const Master) -> usize;
    fn through_sequence_edition(m: *const Master) -> u32;
    fn through_step(m: *const Master, i: usize, view: *mut Step) -> u8;
    fn through_client(m: *const Master, slot: usize, view: *mut ClientView) -> u8;
    fn through_progress(m: *const Master, view: *mut ProgressView);
    fn through_taken(m: *const Master, i: usize, view: *mut Taken) -> u8;
    fn through_sent(m: *const Master, i: usize, view: *mut Sent) -> u8;
    fn through_verify(m: *const Master, view: *mut CheckView) -> u8;
}

/// A wrapper that gives a number and nothing else. The master is not in this frame: masters that stand one behind the other lie nearly alike in their
/// pages, and some machines are slow to copy between such.
fn event(m: &Master, call: impl FnOnce(&mut Master) -> u8) -> Outcome {
    let mut master = Box::new(*m);
    let number = call(&mut master);
    Outcome { number, code: 0, object: 0, count: 0, master: *master }
}

#[inline(never)]
pub fn new() -> Master {
    into(|m| unsafe { through_init(m) })
}

#[inline(never)]
pub fn on(m: &Master) -> Outcome {
    event(m, |m| unsafe { through_on(m) })
}

#[inline(never)]
pub fn off(m: &Master) -> Outcome {
    event(m, |m| unsafe { through_off(m) })
}

#[inline(never)]
pub fn attach(m: &Master, slot: usize, name: u64, pool: &[u8]) -> Outcome {
    let (mut code, mut object) = (u8::poisoned(), u16::poisoned());
    let mut outcome = event(m, |m| unsafe { through_attach(m, slot, name, pool.as_ptr(), pool.len(), &mut code, &mut object) });
    outcome.code = code;
    outcome.object = object;
    outcome
}

#[inline(never)]
pub fn enable(m: &Master, slot: usize, out: &mut [u8]) -> Outcome {
    event(m, |m| unsafe { through_enable(m, slot, out.as_mut_ptr(), out.len()) })
}

#[inline(never)]
pub fn disable(m: &Master, slot: usize, out: &mut [u8]) -> Outcome {
    event(m, |m| unsafe { through_disable(m, slot, out.as_mut_ptr(), out.len()) })
}

#[inline(never)]
pub fn report(m: &Master, slot: usize, report: u32) -> Outcome {
    event(m, |m| unsafe { through_report(m, slot, report) })
}

#[inline(never)]
pub fn lost(m: &Master, slot: usize) -> Outcome {
    event(m, |m| unsafe { through_lost(m, slot) })
}

#[inline(never)]
pub fn record(m: &Master) -> Outcome {
    event(m, |m| unsafe { through_record(m) })
}

#[inline(never)]
pub fn stop(m: &Master) -> Outcome {
    event(m, |m| unsafe { through_stop(m) })
}

#[inline(never)]
pub fn cancel(m: &Master) -> Outcome {
    event(m, |m| unsafe { through_cancel(m) })
}

#[inline(never)]
pub fn indication(m: &Master, slot: usize, message: &[u8], out: &mut [u8]) -> Outcome {
    event(m, |m| unsafe { through_indication(m, slot, message.as_ptr(), message.len(), out.as_mut_ptr(), out.len()) })
}

#[inline(never)]
pub fn client_abort(m: &Master, slot: usize, message: &[u8]) -> Outcome {
    event(m, |m| unsafe { through_client_abort(m, slot, message.as_ptr(), message.len()) })
}

#[inline(never)]
pub fn start(m: &Master) -> Outcome {
    event(m, |m| unsafe { through_start(m) })
}

#[inline(never)]
pub fn abort(m: &Master) -> Outcome {
    event(m, |m| unsafe { through_abort(m) })
}

#[inline(never)]
pub fn tick(m: &Master, mm: u32, frames: &mut [u8]) -> Outcome {
    let mut count = u32::poisoned();
    let mut outcome = event(m, |m| unsafe { through_tick(m, mm, frames.as_mut_ptr(), frames.len(), &mut count) });
    outcome.count = count;
    outcome
}

#[inline(never)]
pub fn answer(m: &Master, slot: usize, message: &[u8], out: &mut [u8]) -> Outcome {
    event(m, |m| unsafe { through_answer(m, slot, message.as_ptr(), message.len(), out.as_mut_ptr(), out.len()) })
}

/// The number, and the bytes written; the master is only read.
pub fn store_of(m: &Master, blocks: &mut [u8]) -> (u8, usize) {
    numbered(|written| unsafe { through_store(m, blocks.as_mut_ptr(), blocks.len(), written) })
}

/// A number of bytes that 32 bits cannot hold would be the greatest that they can, which no store writes.
#[inline(never)]
pub fn store(m: &Master, blocks: &mut [u8]) -> Outcome {
    let mut written = 0;
    let mut outcome = event(m, |m| {
        let (number, bytes) = store_of(m, blocks);
        written = bytes;
        number
    });
    outcome.count = written.try_into().unwrap_or(u32::MAX);
    outcome
}

#[inline(never)]
pub fn load(m: &Master, blocks: &[u8]) -> Outcome {
    event(m, |m| unsafe { through_load(m, blocks.as_ptr(), blocks.len()) })
}

#[inline(never)]
pub fn edition(m: &Master, edition: u32) -> Outcome {
    event(m, |m| unsafe { through_edition(m, edition) })
}

pub fn state(m: &Master) -> u8 {
    unsafe { through_state(m) }
}

pub fn slot(m: &Master, slot: usize) -> (u8, SlotView) {
    numbered(|view| unsafe { through_slot(m, slot, view) })
}

pub fn step_count(m: &Master) -> usize {
    unsafe { through_step_count(m) }
}

pub fn sequence_edition(m: &Master) -> u32 {
    unsafe { through_sequence_edition(m) }
}

pub fn step(m: &Master, i: usize) -> (u8, Step) {
    numbered(|view| unsafe { through_step(m, i, view) })
}

pub fn client(m: &Master, slot: usize) -> (u8, ClientView) {
    numbered(|view| unsafe { through_client(m, slot, view) })
}

pub fn progress(m: &Master) -> ProgressView {
    into(|view| unsafe { through_progress(m, view) })
}

pub fn taken(m: &Master, i: usize) -> (u8, Taken) {
    numbered(|view| unsafe { through_taken(m, i, view) })
}

pub fn sent(m: &Master, i: usize) -> (u8, Sent) {
    numbered(|view| unsafe { through_sent(m, i, view) })
}

pub fn verify(m: &Master) -> (u8, CheckView) {
    numbered(|view| unsafe { through_verify(m, view) })
}
