//! What the library was seen to do, counted for the engine: an input that raises a counter as none before it did is worth changing further.
//! libFuzzer finds the counters by the name of their section; the library itself is not instrumented.

use std::sync::atomic::{AtomicU8, Ordering::Relaxed};

const STATES: usize = 6;
const CALLS: usize = 19;
const NUMBERS: usize = 18;
const PATHS: usize = CALLS * NUMBERS * STATES * STATES;
/// Each of the other tables has a row for each thing counted.
const ROWS: usize = 20;
const ROW: usize = 256;
const ALL: usize = PATHS + ROWS * ROW;

#[link_section = "__libfuzzer_extra_counters"]
static COUNTERS: [AtomicU8; ALL] = {
    const ZERO: AtomicU8 = AtomicU8::new(0);
    [ZERO; ALL]
};

/// What is counted besides calls, numbers and states.
pub enum Row {
    /// Frames of a tick.
    Frames,
    /// Steps that are held while recording.
    Held,
    /// Steps of the sequence, as a playback starts.
    Started,
    /// Commands that have left.
    Sent,
    /// Error and status of an E.5.
    Response,
    /// Status and error of an E.7 that matched, and what was known of its step.
    Answer,
    /// The code of a pool that was attached.
    Attached,
    /// Enabled clients, and in which state.
    Enabled,
    /// Ticks since the oldest unanswered command left.
    Waiting,
    /// The code of a pool that was judged.
    Pool,
    /// The kind of a message read, by side.
    Read,
    /// The kind of a message written, by number.
    Written,
    /// How the TAN and the tick counters run, by their leading bits.
    Counts,
    /// The number of a verification, its slot, and whether by the rule of edition 2.
    Verified,
    /// The kind of an object written, by number.
    Object,
    /// Why blocks are refused: the place of a wrong check, or of a reason for 17.
    Refused,
    /// Clients and steps of a sequence that was stored or loaded.
    Kept,
    /// The numbers of a verification by both rules; editions that were stored, loaded or set, after which.
    Edition,
    /// The length of a text, by number.
    Printed,
    /// What was left out behind the last digit of a text, by decimals and sign, and whether the double is exact.
    Left,
}

fn bump(place: usize) {
    let counter = &COUNTERS[place % ALL];
    counter.store(counter.load(Relaxed).saturating_add(1), Relaxed);
}

pub fn path(call: usize, number: u8, before: u8, after: u8) {
    let states = usize::from(before) % STATES * STATES + usize::from(after) % STATES;
    bump((call % CALLS * NUMBERS + usize::from(number) % NUMBERS) * STATES * STATES + states);
}

pub fn count(row: Row, value: usize) {
    bump(PATHS + row as usize * ROW + value % ROW);
}

/// The counters, for an engine of our own.
pub fn counters() -> &'static [AtomicU8] {
    &COUNTERS
}
