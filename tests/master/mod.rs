//! The library's master against a model that is written from document 01 and the requests of document 02 alone, event by event: what each
//! call gives, every field of the new state, every lent byte, and the readers.

pub mod blocks;
mod cases;
mod coverage;
mod editions;
pub mod event;
mod facts;
mod keeper;
mod kept;
mod messages;
pub mod model;
mod playback;
mod player;
mod promises;
mod recorder;
pub mod recording;
pub mod render;
mod run;
mod samples;
mod scenario;
mod screen;
pub mod stored;
mod verification;
mod waits;
mod wild;
mod winter;

use crate::library;
use crate::pool::{generate, model as check};
use crate::{number, wrong_usage};
use run::Run;
use scenario::Scenario;

const SEED: u64 = 11_783;
const SCENARIOS: u64 = 100;

pub fn run(arguments: &[&str]) {
    let mut run = Run::new();
    match arguments {
        [] => all(&mut run, SCENARIOS, false),
        ["met"] => all(&mut run, SCENARIOS, true),
        [count] => all(&mut run, number(count), false),
        [seed, count] => {
            let count = number(count);
            scenarios(&mut run, number(seed), count);
            report(&run, count);
        }
        _ => wrong_usage(),
    }
}

/// The cases of 01 and so many scenarios, which must meet all that is wanted.
fn all(run: &mut Run, count: u64, print: bool) {
    cases::all(run);
    screen::all(run);
    winter::all(run);
    editions::all(run);
    scenarios(run, SEED, count);
    if print {
        run.coverage.print();
    }
    let missed = run.coverage.missed();
    if !missed.is_empty() {
        fail(&format!("never met: {}", missed.join("; ")));
    }
    report(run, count);
}

/// Short ones and long ones, and now and then one that waits for tick 36,000. Before some, another master stores a sequence.
fn scenarios(run: &mut Run, seed: u64, count: u64) {
    let turn = (count / 12).clamp(25, 100);
    for number in 0..count {
        let own = seed.wrapping_add(number);
        run.shelf.clear();
        if own % 3 == 0 {
            Scenario::new(run, !own).lay_by(400);
        }
        if number % turn == turn - 1 {
            waits::wait(run, own, waits::WAITS[(number / turn) as usize % waits::WAITS.len()]);
            continue;
        }
        match number % 100 {
            0..=9 => Scenario::new(run, own).play(4_000),
            10..=39 => Scenario::new(run, own).play(800),
            _ => Scenario::new(run, own).play(100),
        }
    }
}

fn report(run: &Run, scenarios: u64) {
    let (events, met) = (thousands(run.events), run.coverage.summary());
    println!("master: {events} events in {} scenarios, {met}: no difference", thousands(scenarios));
}

/// With a comma before each three digits.
fn thousands(number: u64) -> String {
    if number < 1_000 {
        return number.to_string();
    }
    format!("{},{:03}", thousands(number / 1_000), number % 1_000)
}

fn fail(why: &str) -> ! {
    crate::fail("master", why)
}
