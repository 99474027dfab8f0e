//! The library's reading and writing of objects and its rewriting of pools against a model that is written from document 01 and tables A.1 to A.3
//! alone, on legal and on damaged pools and objects.

mod model;
mod writing;

use crate::library;
use crate::pool::generate::{Pool, Random, Shape, FULL};
use crate::pool::{faults, model as verdict};
use writing::Writing;

const COUNT: u64 = 1_000;
const SEED: u64 = 11_783;

/// At least COUNT pools by chance, made from SEED.
pub fn run(arguments: &[&str]) {
    let (count, seed) = crate::count_and_seed(arguments, COUNT, SEED);
    let mut run = Run { random: Random::new(seed), pools: 0, accepted: 0, objects: [0; 4], writing: Writing::new(seed) };
    run.writing.every_edge();
    run.every_cut();
    run.every_size();
    run.every_edit();
    run.by_chance(count);
    run.report();
}

fn fail(why: &str) -> ! {
    crate::fail("objects", why)
}

struct Run {
    random: Random,
    pools: u64,
    accepted: u64,
    /// Bases, functions and states read, and refusals.
    objects: [u64; 4],
    writing: Writing,
}

/// One in so many objects that were read is written, and one in so many pools is written again object by object.
const WRITTEN: u64 = 16;

impl Run {
    /// Small pools cut at every place.
    fn every_cut(&mut self) {
        let shape = Shape { functions: 2, states: 3, shortest: 1, longest: 3, unlisted: 1 };
        for _ in 0..4 {
            let pools = [Pool::least(&mut self.random), Pool::legal(&mut self.random, shape, FULL)];
            for bytes in pools.map(|pool| pool.bytes()) {
                for length in 0..=bytes.len() {
                    self.hold("cut", &bytes[..length]);
                }
            }
        }
    }

    /// Pools that are legal but for their size, on both sides of 16,384 bytes.
    fn every_size(&mut self) {
        for size in FULL - 8..=FULL + 8 {
            let mut pool = self.legal(12_000);
            pool.pad(&mut self.random, size, 30);
            self.hold("size", &pool.bytes());
        }
    }

    /// Each edit that the check of a pool is tried with, twice.
    fn every_edit(&mut self) {
        for edit in faults::edits().into_iter().chain(faults::edits()) {
            let mut pool = self.legal(12_000);
            (edit.apply)(&mut pool, &mut self.random);
            self.hold(edit.name, &pool.bytes());
        }
    }

    /// Legal pools, and the same with some bytes altered; now and then bytes by chance, or too many of them.
    fn by_chance(&mut self, count: u64) {
        for turn in 0..count {
            let mut bytes = self.legal(FULL - 64).bytes();
            let accepted = self.hold("legal", &bytes);
            if !accepted {
                fail(&format!("legal pool {turn} is not accepted"));
            }
            faults::alter(&mut bytes, &mut self.random);
            self.hold("altered", &bytes);
            if turn % 16 == 0 {
                let noise = faults::noise(&mut self.random);
                self.hold("noise", &noise);
            }
            if turn % 256 == 0 {
                let long = faults::too_long(&mut self.random);
                self.hold("too long", &long);
            }
        }
    }

    fn legal(&mut self, limit: usize) -> Pool {
        let random = &mut self.random;
        let states = random.between(0, 70) as usize;
        let longest = random.between(0, 64) as usize;
        let functions = if random.once_in(20) { 255 } else { random.between(1, 40) as usize };
        let unlisted = random.between(0, 6) as usize;
        Pool::legal(random, Shape { functions, states, shortest: 0, longest, unlisted }, limit)
    }

    /// Holds the library against the model on one pool; gives whether it is accepted.
    fn hold(&mut self, name: &str, pool: &[u8]) -> bool {
        self.pools += 1;
        for place in self.places(pool) {
            let wanted = model::object_at(pool, place);
            let given = library::object_at(pool, place);
            if given != wanted {
                fail(&format!("{name}, pool {}, place {place}: the library gives {given:?}, the model {wanted:?}", self.pools));
            }
            self.objects[usize::from(wanted.kind.min(3))] += 1;
            if wanted.kind < 3 && self.objects.iter().sum::<u64>() % WRITTEN == 0 {
                self.writing.by_chance(&given);
            }
        }
        if self.pools % WRITTEN == 0 {
            copy(name, pool);
        }
        let verdict = verdict::check(pool);
        let accepted = verdict.0 == 0;
        for room in [pool.len(), pool.len() + 1 + self.random.below(40), pool.len() / 2, pool.len().saturating_sub(1)] {
            self.hold_rewrite(name, pool, verdict, room);
        }
        self.accepted += u64::from(accepted);
        accepted
    }

    /// The places of the objects, as far as they can be read, and some at which none starts.
    fn places(&mut self, pool: &[u8]) -> Vec<usize> {
        let mut places = vec![0];
        loop {
            let last = places[places.len() - 1];
            let next = model::object_at(pool, last).next;
            if next == last {
                break;
            }
            places.push(next);
        }
        places.push(self.random.below(pool.len() + 3));
        places.extend([pool.len(), pool.len() + 1, 65_535, 65_536, 1 << 32, usize::MAX - 7, usize::MAX]);
        places
    }

    /// "lent output too short" is 1 and comes first; "pool refused, with the D.9 code and object number" is 6; else the
    /// output begins with the pool's bytes. "Every number but 0 leaves .. all lent memory unchanged", and bytes after
    /// the pool's stay in any case.
    fn hold_rewrite(&mut self, name: &str, pool: &[u8], verdict: (u8, u16), room: usize) {
        let mut out: Vec<u8> = (0..room + 24).map(|_| self.random.number() as u8).collect();
        let mut wanted_out = out.clone();
        let wanted = if room < pool.len() {
            (1, 0, 0)
        } else if verdict.0 != 0 {
            (6, verdict.0, verdict.1)
        } else {
            wanted_out[..pool.len()].copy_from_slice(pool);
            (0, 0, 0)
        };
        let given = library::pool_rewrite(pool, &mut out[..room]);
        let given = (given.number, given.code, given.object);
        if given != wanted {
            fail(&format!("{name}, pool {}, {room} bytes lent: the library gives {given:?}, the model {wanted:?}", self.pools));
        }
        if out != wanted_out {
            fail(&format!("{name}, pool {}, {room} bytes lent: the output is not what it must be", self.pools));
        }
    }

    fn report(&self) {
        self.writing.report();
        let [bases, functions, states, refusals] = self.objects;
        println!("read: {bases} bases, {functions} functions, {states} states, {refusals} refusals");
        println!("accepted: {} pools", self.accepted);
        if self.objects.iter().any(|&count| count < 1_000) || self.accepted == self.pools {
            fail("the run shows too little");
        }
        println!("objects: {} pools, 0 differences", self.pools);
    }
}

/// Object after object, each read from the pool and written behind the one before: the pool's own bytes, as far as it can be read.
fn copy(name: &str, pool: &[u8]) {
    let mut out = vec![0xA5; pool.len()];
    let mut place = 0;
    loop {
        let object = library::object_at(pool, place);
        if object.next == place {
            break;
        }
        let written = library::object_write(&object, place, &mut out);
        if written != (0, object.next) {
            fail(&format!("{name}, place {place}: what was read is written with {written:?}"));
        }
        place = object.next;
    }
    if out[..place] != pool[..place] || out[place..].iter().any(|&byte| byte != 0xA5) {
        fail(&format!("{name}: written again object by object it is another pool"));
    }
}
