//! How the cost of a call grows with the objects of a pool and with the steps of a sequence.

use crate::event::Event;
use crate::master::{given, library_event};
use crate::messages::Status;
use crate::pool::library_check;
use crate::pools::shaped;
use crate::states::{answer, blocks, indication, load, playing, record, recorded, store, tick, Pair};
use crate::times::{hide, least, Call};
use std::rc::Rc;

/// The same call at growing sizes.
struct Growth {
    title: &'static str,
    unit: &'static str,
    sizes: Vec<usize>,
    calls: Vec<Box<Call>>,
}

/// Exponents: up to the first a cost is called linear; from the second on, where twice the size takes three times the time
/// (log 3 / log 2), quadratic.
const LINEAR: f64 = 1.2;
const QUADRATIC: f64 = 1.585;
/// A rise of less than this part of the least time is none.
const NOISE: f64 = 0.2;
/// How often a cost may look quadratic on a busy machine before it counts as that.
const TRIES: usize = 3;

/// Prints a table for each; gives the titles of those that are plainly quadratic.
pub fn report() -> Vec<&'static str> {
    let growths = on_pools().into_iter().chain(in_record()).chain(in_playback()).chain(in_ready());
    growths.filter_map(|mut growth| if holds(&mut growth) { None } else { Some(growth.title) }).collect()
}

fn holds(growth: &mut Growth) -> bool {
    (0..TRIES).any(|_| {
        let mut calls: Vec<&mut Call> = growth.calls.iter_mut().map(|call| &mut **call).collect();
        let times = least(&mut calls);
        print(growth, &times);
        verdict(&growth.sizes, &times)
    })
}

fn print(growth: &Growth, times: &[f64]) {
    println!("\n{}", growth.title);
    println!("{:>12} {:>12} {:>14} {:>16}", growth.unit, "µs", "ns each", "to the row above");
    for (place, (&size, &time)) in growth.sizes.iter().zip(times).enumerate() {
        let ratio = if place == 0 { String::new() } else { format!("{:.2}", time / times[place - 1]) };
        println!("{size:12} {:12.3} {:14.1} {ratio:>16}", time / 1_000.0, time / size as f64);
    }
}

/// Prints how the cost grows from the last row but one to the last, what the least size costs taken off; false where it is
/// plainly quadratic.
fn verdict(sizes: &[usize], times: &[f64]) -> bool {
    let last = sizes.len() - 1;
    let rise = |place: usize| times[place] - times[0];
    let size = |place: usize| (sizes[place] - sizes[0]) as f64;
    let noise = NOISE * times[0];
    if rise(last) < noise {
        println!("constant: at the last row {:+.0} % of the first", 100.0 * rise(last) / times[0]);
        return true;
    }
    let exponent = (rise(last) / rise(last - 1).max(noise / 4.0)).ln() / (size(last) / size(last - 1)).ln();
    let word = match exponent {
        _ if exponent <= LINEAR => "linear",
        _ if exponent < QUADRATIC => "more than linear, not quadratic",
        _ => "QUADRATIC",
    };
    println!("{word}: exponent {exponent:.2}, {:.1} ns for each more", rise(last) / size(last));
    exponent < QUADRATIC
}

fn growth<T: 'static>(title: &'static str, unit: &'static str, rows: Vec<(usize, T)>, call: fn(&T) -> u64) -> Growth {
    let sizes = rows.iter().map(|&(size, _)| size).collect();
    let calls = rows.into_iter().map(|(_, it)| -> Box<Call> { Box::new(move || call(hide(&it))) }).collect();
    Growth { title, unit, sizes, calls }
}

fn on_pools() -> Vec<Growth> {
    let objects = [64, 128, 256, 512, 1024, 2042].map(|count| (count, shaped(1, 0, count - 2).bytes()));
    let functions = [8, 16, 32, 64, 128, 255].map(|count| (count, shaped(count, 0, 0).bytes()));
    let states = [3, 6, 12, 25, 50, 99].map(|count| (64 * count, shaped(count, 64, 64).bytes()));
    let bytes = [4, 8, 16, 32, 64, 127].map(|count| shaped(count, 16, 8 * count).bytes()).map(|pool| (pool.len(), pool));
    let on = Pair::new().after(Event::On);
    let attach = |pool: &Vec<u8>| Event::Attach { slot: 0, name: 0, pool: Rc::new(pool.clone()) };
    let attached = bytes.clone().map(|(size, pool)| (size, given(on.clone(), attach(&pool))));
    vec![
        growth("pool check, states that no function lists", "objects", objects.into(), library_check),
        growth("pool check, functions that the base lists", "functions", functions.into(), library_check),
        growth("pool check, functions that list 64 states each", "listed", states.into(), library_check),
        growth("pool check, objects and lists alike", "bytes", bytes.into(), library_check),
        growth("attach, objects and lists alike", "bytes", attached.into(), library_event),
    ]
}

/// All steps are of one client.
fn in_record() -> Vec<Growth> {
    let steps = [1, 2, 4, 8, 16, 32, 64];
    let next = |pair: Pair, place: usize| {
        let event = indication(&pair, 1, place, Status::Whole);
        given(pair, event)
    };
    let indications = steps.map(|count| (count, next(record(1, count - 1), count - 1)));
    let stops = steps.map(|count| (count, given(record(1, count), Event::Stop)));
    vec![
        growth("indication, the last of so many steps", "steps", indications.into(), library_event),
        growth("stop", "steps", stops.into(), library_event),
    ]
}

fn in_playback() -> Vec<Growth> {
    let steps = [1, 2, 4, 8, 16, 32, 64];
    let starts = steps.map(|count| (count, given(recorded(1, count), Event::Start)));
    // Of the steps that left before, every second one leaves again.
    let ticks = [1, 2, 4, 8].map(|count| (count, given(playing(63, 2 * (count - 1)), tick())));
    let to_last = |pair: Pair| {
        let event = answer(&pair, Status::Finished);
        given(pair, event)
    };
    let answers = steps.map(|count| (count, to_last(playing(count, 1))));
    vec![
        growth("start", "steps", starts.into(), library_event),
        growth("tick in playback, the last of 64 steps leaves", "frames", ticks.into(), library_event),
        growth("answer, to the last of so many steps that have left", "steps", answers.into(), library_event),
    ]
}

/// All steps are of one client.
fn in_ready() -> Vec<Growth> {
    let steps = [1, 2, 4, 8, 16, 32, 64];
    let stores = steps.map(|count| {
        let pair = recorded(1, count);
        let event = store(&pair);
        (count, given(pair, event))
    });
    let loads = steps.map(|count| {
        let pair = recorded(1, count);
        let event = load(blocks(&pair));
        (count, given(pair, event))
    });
    vec![growth("store", "steps", stores.into(), library_event), growth("load", "steps", loads.into(), library_event)]
}
