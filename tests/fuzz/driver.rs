//! The harness under an engine of its own, for machines without libFuzzer: it changes inputs by chance, from a number, and keeps those that
//! raise a counter as none before them did: of what the library was seen to do, and of the places that the model went through.
//!
//!   driver run SECONDS SEED [FOLDER]   for so long; the inputs that were kept are written to the folder, if one is given
//!   driver seeds FOLDER                writes the inputs to begin with
//!   driver replay FILE                 does one input and prints its events
//!   driver met FILE..                  does these inputs and prints what they met of what tests/master demands

#![deny(warnings)]

use harness::{counters, events, met, one_input, replay, seeds};
use std::collections::HashSet;
use std::fs;
use std::path::Path;
use std::sync::atomic::{AtomicPtr, AtomicU8, AtomicUsize, Ordering::Relaxed};
use std::time::{Duration, Instant};

/// The longest input.
const LONGEST: usize = 512;

/// The counters that the compiler put into the harness, one for each place that its run can branch to.
static PLACES: AtomicPtr<AtomicU8> = AtomicPtr::new(std::ptr::null_mut());
static COUNT: AtomicUsize = AtomicUsize::new(0);

/// What such a harness calls before `main`.
#[no_mangle]
extern "C" fn __sanitizer_cov_8bit_counters_init(first: *mut AtomicU8, end: *mut AtomicU8) {
    PLACES.store(first, Relaxed);
    COUNT.store(end as usize - first as usize, Relaxed);
}

#[no_mangle]
extern "C" fn __sanitizer_cov_pcs_init(_first: *const usize, _end: *const usize) {}

fn places() -> &'static [AtomicU8] {
    let first = PLACES.load(Relaxed);
    if first.is_null() {
        return &[];
    }
    // SAFETY: the compiler's counters are so many bytes, and stay.
    unsafe { std::slice::from_raw_parts(first, COUNT.load(Relaxed)) }
}

fn main() {
    let arguments: Vec<String> = std::env::args().skip(1).collect();
    let arguments: Vec<&str> = arguments.iter().map(String::as_str).collect();
    match arguments[..] {
        ["run", seconds, seed] => fuzz(number(seconds), number(seed), None),
        ["run", seconds, seed, folder] => fuzz(number(seconds), number(seed), Some(Path::new(folder))),
        ["seeds", folder] => save(Path::new(folder), &seeds()),
        ["replay", file] => again(file),
        ["met", ..] => tell(&arguments[1..]),
        _ => fail("usage: driver run SECONDS SEED [FOLDER], seeds FOLDER, replay FILE or met FILE.."),
    }
}

fn fail(why: &str) -> ! {
    eprintln!("fuzz: {why}");
    std::process::exit(2)
}

fn number(text: &str) -> u64 {
    text.parse().unwrap_or_else(|_| fail(&format!("not a number: {text}")))
}

fn read(file: &str) -> Vec<u8> {
    fs::read(file).unwrap_or_else(|why| fail(&format!("{file}: {why}")))
}

fn save(folder: &Path, inputs: &[Vec<u8>]) {
    let name = |place: usize| folder.join(format!("{place:05}"));
    let written = inputs.iter().enumerate().try_for_each(|(place, input)| fs::write(name(place), input));
    if let Err(why) = written {
        fail(&format!("{}: {why}", folder.display()));
    }
}

fn again(file: &str) {
    replay(&read(file), true);
    println!("fuzz: {file}: nothing is wrong");
}

fn tell(files: &[&str]) {
    for file in files {
        replay(&read(file), false);
    }
    let (summary, missed) = met();
    println!("fuzz: {} inputs, {} events: {summary}", files.len(), events());
    println!("fuzz: never met: {}", missed.join("; "));
}

fn fuzz(seconds: u64, seed: u64, folder: Option<&Path>) {
    let mut engine = Engine { chance: seed ^ 0x5851_F42D_4C95_7F2D, kept: Vec::new(), features: HashSet::new() };
    for input in seeds() {
        engine.try_input(input);
    }
    let (begin, limit) = (Instant::now(), Duration::from_secs(seconds));
    let mut inputs = engine.kept.len();
    while begin.elapsed() < limit {
        let input = engine.changed();
        engine.try_input(input);
        inputs += 1;
    }
    if let Some(folder) = folder {
        save(folder, &engine.kept);
    }
    let (events, kept, features) = (events(), engine.kept.len(), engine.features.len());
    println!("fuzz: driver, seed {seed}: {inputs} inputs, {events} events, {kept} inputs kept, {features} features: nothing found");
}

struct Engine {
    chance: u64,
    /// The inputs that met something new, and what was met: a counter, and its size by doubling.
    kept: Vec<Vec<u8>>,
    features: HashSet<(usize, u32)>,
}

impl Engine {
    fn try_input(&mut self, input: Vec<u8>) {
        counters().iter().chain(places()).for_each(|counter| counter.store(0, Relaxed));
        one_input(&input);
        let before = self.features.len();
        for (place, counter) in counters().iter().chain(places()).enumerate() {
            match counter.load(Relaxed) {
                0 => {}
                count => drop(self.features.insert((place, count.leading_zeros()))),
            }
        }
        if self.features.len() > before {
            self.kept.push(input);
        }
    }

    /// splitmix64
    fn next(&mut self) -> u64 {
        self.chance = self.chance.wrapping_add(0x9E37_79B9_7F4A_7C15);
        let mut mixed = self.chance;
        mixed = (mixed ^ (mixed >> 30)).wrapping_mul(0xBF58_476D_1CE4_E5B9);
        mixed = (mixed ^ (mixed >> 27)).wrapping_mul(0x94D0_49BB_1331_11EB);
        mixed ^ (mixed >> 31)
    }

    fn below(&mut self, bound: usize) -> usize {
        (self.next() % bound.max(1) as u64) as usize
    }

    /// One of the inputs kept, the later ones more often, changed in one to five places.
    fn changed(&mut self) -> Vec<u8> {
        let count = self.kept.len();
        let from = if self.below(2) == 0 { count - count.min(16) } else { 0 };
        let place = from + self.below(count - from);
        let mut input = self.kept[place].clone();
        for _ in 0..=self.below(5) {
            self.change(&mut input);
        }
        input.truncate(LONGEST);
        input
    }

    fn change(&mut self, input: &mut Vec<u8>) {
        let place = self.below(input.len() + 1);
        let end = (place + 1 + self.below(12)).min(input.len());
        let byte = self.next() as u8;
        match self.below(7) {
            0 if place < input.len() => input[place] = byte,
            1 if place < input.len() => input[place] ^= 1 << (byte % 8),
            2 if place < end => drop(input.drain(place..end)),
            3 => {
                let part = input[place..end.max(place)].to_vec();
                let to = self.below(input.len() + 1);
                input.splice(to..to, part);
            }
            4 => {
                let other = self.below(self.kept.len());
                let other = self.kept[other].clone();
                let from = self.below(other.len());
                let to = (from + 1 + self.below(24)).min(other.len());
                input.splice(place..place, other[from.min(to)..to].iter().copied());
            }
            5 => {
                let operands: Vec<u8> = (0..1 + self.below(4)).map(|_| self.next() as u8).collect();
                input.splice(place..place, operands);
            }
            _ => input.insert(place, byte % 32),
        }
    }
}
