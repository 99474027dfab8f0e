//! The library beside the plain models of the tests, its texts beside C's printf, in one run: the time of every call and its
//! ratio to the model's, the share of a tick, how the cost grows with objects and steps, and the bytes that every call
//! moves, in copies of a master, and that it takes of the stack; and what a start-up waits for, beside two plain programs
//! (bench/start.rs). Under an emulator only ratios and bytes mean something. With the argument `bytes` it counts these alone,
//! with `start` it measures a start-up alone. Fails where the library differs from model or program, where a limit below is
//! missed, where a cost is plainly quadratic, and where a full pool is checked, kept or attached in no less time than by a
//! program that checks every pair.

#![deny(warnings)]

mod bitset;
mod calls;
mod growth;
mod handed;
mod master;
mod moved;
mod pairwise;
mod plain;
mod pool;
mod pools;
mod rows;
mod stack;
mod start;
mod start_pools;
mod states;
mod times;

#[allow(dead_code)]
#[path = "../tests/pool/model.rs"]
mod check;
#[allow(dead_code)]
#[path = "../tests/master/event.rs"]
mod event;
#[allow(dead_code)]
#[path = "../tests/pool/faults.rs"]
mod faults;
#[allow(dead_code)]
#[path = "../tests/pool/generate.rs"]
mod generate;
#[allow(dead_code)]
#[path = "../tests/master/kept.rs"]
mod kept;
#[allow(dead_code, unused_imports)]
#[path = "../tests/master/library.rs"]
mod library;
#[allow(dead_code)]
#[path = "../tests/message/model.rs"]
mod message;
#[allow(dead_code)]
#[path = "../tests/master/messages.rs"]
mod messages;
#[allow(dead_code)]
#[path = "../tests/master/model.rs"]
mod model;
#[allow(dead_code)]
#[path = "../tests/objects/model.rs"]
mod objects;
#[allow(dead_code)]
#[path = "../tests/master/playback.rs"]
mod playback;
#[allow(dead_code)]
#[path = "../tests/master/recording.rs"]
mod recording;
#[allow(dead_code)]
#[path = "../tests/master/stored.rs"]
mod stored;
#[allow(dead_code)]
#[path = "../tests/master/verification.rs"]
mod verification;

use library::{Master, Outcome};
use rows::{Bytes, Row, Times};
use std::mem::size_of;
use std::process::exit;

/// The most that the check of a full pool may take of the model's time.
const CHECK: f64 = 3.0;
/// The most copies of a master that a tick may make, and any call on a master; of an attach, beyond what judging its pool moves. Two are the least of a call
/// that changes a master which it is handed by value: into what it changes, and out.
const TICK_COPIES: f64 = 2.2;
const COPIES: f64 = 3.2;
/// The most bytes of stack of a call with its structs; an attach judges its pool on it, which takes 70 KB by itself.
const STACK: usize = 102_400;
const ATTACH_STACK: usize = 172_032;
/// Of a verification, which is handed a whole master and gives none back, the most of both.
const VERIFY_COPIES: f64 = 1.1;
const VERIFY_STACK: usize = 53_248;
/// The readers that are handed the parts of a master that they read, and the most of both for them; so much stack for an object too.
const READERS: [&str; 8] =
    ["scm_state", "scm_step_count", "scm_sequence_edition", "scm_step", "scm_client", "scm_progress", "scm_taken", "scm_sent"];
const PART_COPIES: f64 = 0.2;
const PART_STACK: usize = 5_120;
const OBJECTS: [&str; 2] = ["scm_object_at", "scm_object_write"];
/// The most bytes of stack of a shown value as text, of which the longest has 57 characters.
const TEXT_STACK: usize = 2_048;
/// 100 ms, in nanoseconds.
const TICK: f64 = 1e8;

pub fn fail(why: &str) -> ! {
    eprintln!("bench: {why}");
    exit(1)
}

fn main() {
    let only = std::env::args().nth(1);
    if only.as_deref() == Some("start") {
        return end(start::report());
    }
    let mut rows = pool::rows();
    rows.extend(master::rows());
    rows.iter_mut().for_each(rows::compare);
    let mut missed = Vec::new();
    if only.as_deref() != Some("bytes") {
        let times = rows::times(&mut rows);
        missed.extend(slow_checks(&rows, &times));
        share_of_tick(&rows, &times);
        missed.extend(growth::report().iter().map(|title| format!("{title}: plainly quadratic")));
        missed.extend(start::report());
        println!("\nbytes of state: {} a master, {} what an event gives back\n", size_of::<Master>(), size_of::<Outcome>());
    }
    let bytes = rows::bytes(&mut rows);
    if bytes.iter().all(|bytes| bytes.copies == 0.0) {
        fail("the bytes that the library moves are not counted");
    }
    missed.extend(many_copies(&rows, &bytes));
    missed.extend(deep_stacks(&rows, &bytes));
    end(missed);
}

fn end(missed: Vec<String>) {
    if !missed.is_empty() {
        fail(&missed.join("\nbench: "));
    }
    println!("\nbench: every limit is kept");
}

/// Only of full pools: of the least ones the library's tables, which it clears, cost more than the pool.
fn slow_checks(rows: &[Row], times: &[Times]) -> Option<String> {
    let full = rows.iter().zip(times).filter(|(row, _)| row.call == "scm_pool_check" && row.case.starts_with(pool::FULL));
    let worst = full.map(|(_, times)| times.library / times.model).fold(0.0, f64::max);
    println!("\nworst ratio of the check of a full pool: {worst:.2}, limit {CHECK:.2}");
    (worst > CHECK).then(|| format!("scm_pool_check of a full pool: {worst:.2} times the model's time, limit {CHECK:.2}"))
}

/// Of the slowest call, and of a store and a load of the largest sequence, each in one case that is accepted.
fn share_of_tick(rows: &[Row], times: &[Times]) {
    let of = |row: &Row, library: f64| {
        println!("{}: {:.3} µs, {:.3} % of a tick of 100 ms", row.name(), library / 1_000.0, 100.0 * library / TICK);
    };
    for (row, times) in rows.iter().zip(times).filter(|(row, _)| row.case == master::LARGEST) {
        of(row, times.library);
    }
    let slowest = rows.iter().zip(times).max_by(|(_, one), (_, other)| one.library.total_cmp(&other.library));
    if let Some((row, Times { library, .. })) = slowest {
        print!("slowest: ");
        of(row, *library);
    }
}

fn many_copies(rows: &[Row], bytes: &[Bytes]) -> Vec<String> {
    let judged = |case| {
        let same = rows.iter().zip(bytes).find(|(row, _)| row.call == "scm_profile_of" && row.case == case);
        same.map_or(0.0, |(_, bytes)| bytes.copies)
    };
    let limit = |row: &Row| match row.call {
        "scm_tick" => TICK_COPIES,
        "scm_attach" => COPIES + judged(row.case),
        "scm_verify" => VERIFY_COPIES,
        call if READERS.contains(&call) => PART_COPIES,
        _ => COPIES,
    };
    let limited = |row: &Row| row.on_master || READERS.contains(&row.call);
    let above = rows.iter().zip(bytes).filter(|(row, bytes)| limited(row) && bytes.copies > limit(row));
    above.map(|(row, bytes)| format!("{}: {:.1} copies, limit {:.1}", row.name(), bytes.copies, limit(row))).collect()
}

fn deep_stacks(rows: &[Row], bytes: &[Bytes]) -> Vec<String> {
    let limit = |row: &Row| match row.call {
        "scm_attach" => ATTACH_STACK,
        "scm_verify" => VERIFY_STACK,
        "scm_shown_text" => TEXT_STACK,
        call if READERS.contains(&call) || OBJECTS.contains(&call) => PART_STACK,
        _ => STACK,
    };
    let above = rows.iter().zip(bytes).filter(|(row, bytes)| bytes.stack > limit(row));
    above.map(|(row, bytes)| format!("{}: {} bytes of stack with its structs, limit {}", row.name(), bytes.stack, limit(row))).collect()
}
