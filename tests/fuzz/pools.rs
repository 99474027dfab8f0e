//! Pools: those that clients attach, legal, changed in one thing or damaged; and the mode that holds the check of any bytes against its model.

use crate::check;
use crate::counters::{self, Row};
use crate::decode::Bytes;
use crate::entry::found;
use crate::generate::Random;
use crate::kept;
use crate::library;
use crate::objects;
use crate::recording::{Mark, Step};
use crate::samples::{changed, damaged, Sample, CHANGES};
use std::rc::Rc;

const SEED: u64 = 11_783;
/// Samples of clients; the last has a pool of any size.
pub const SAMPLES: usize = 5;
/// The NAME mask of the first, which has bits of either kind; in slot 0 its master NAME is its own NAME.
const MASK: u64 = 0xFF00_FFFF_FFFF_FFFF;
/// That of the second leaves the identity number open.
const BUT_IDENTITY: u64 = 0xFFFF_FFFF_FFE0_0000;
/// The preferred triggers; each is met in the first pools.
const TRIGGERS: [u8; 3] = [255, 2, 1];
/// So many damaged pools of each small sample.
const DAMAGED: usize = 48;
/// A pool of more bytes is not damaged: that would take long, and shows no more.
const LARGE: usize = 1_000;
/// What may stand behind a lent pool without meaning anything.
const BEHIND: usize = 16;

/// The least byte of the mode by which an object is written; the others below 128 judge a known pool.
pub const OBJECTS: u8 = 100;

/// A NAME and the pool that goes with it.
#[derive(Clone)]
pub struct Client {
    pub name: u64,
    pub pool: Rc<Vec<u8>>,
}

/// The clients that can be attached, by sample and by what is done to it.
pub struct Pools {
    clients: Vec<Vec<Client>>,
}

impl Pools {
    pub fn new() -> Pools {
        let mut random = Random::new(SEED);
        let large_in = |place: usize| if place + 1 < SAMPLES { usize::MAX } else { 1 };
        let mut samples: Vec<Sample> = (0..SAMPLES).map(|place| Sample::any(&mut random, large_in(place))).collect();
        for (place, sample) in samples.iter_mut().enumerate() {
            let functions = sample.pool.functions.iter_mut();
            functions.zip(TRIGGERS.iter().cycle().skip(place)).for_each(|(function, &trigger)| function.preferred_trigger = trigger);
        }
        samples[0].pool.base().mask = MASK;
        samples[0].pool.base().master_name = samples[0].name;
        samples[1].pool.base().mask = BUT_IDENTITY;
        Pools { clients: samples.iter().map(|sample| variants(sample, &mut random)).collect() }
    }

    /// The first variant is the sample itself.
    pub fn client(&self, sample: usize, variant: usize) -> &Client {
        let variants = &self.clients[sample % SAMPLES];
        &variants[variant % variants.len()]
    }
}

/// As it is, changed in each thing that may change while it was away, and damaged. Where a function or a state goes, it is the first.
fn variants(sample: &Sample, random: &mut Random) -> Vec<Client> {
    let first = kept::accept(&sample.bytes()).ok().and_then(|kept| kept.functions.into_iter().next());
    let step = first.map(|function| Step {
        slot: 0,
        function: function.id,
        state: function.states.first().copied().unwrap_or(0),
        value: 0,
        mark: Mark::Ticks(0),
    });
    let mut other = |change| changed(sample, change, step.as_ref(), random);
    let mut clients: Vec<Client> = CHANGES.iter().map(|&change| client(&other(change))).collect();
    let small = sample.bytes().len() < LARGE;
    for _ in 0..if small { DAMAGED } else { 0 } {
        clients.push(Client { name: sample.name, pool: Rc::new(damaged(sample, random)) });
    }
    clients
}

fn client(sample: &Sample) -> Client {
    Client { name: sample.name, pool: Rc::new(sample.bytes()) }
}

/// Edits of a pool, until the bytes end or so many are done: a byte changed, some taken out, some repeated or put in.
pub fn edited(mut pool: Vec<u8>, bytes: &mut Bytes, edits: usize) -> Vec<u8> {
    for _ in 0..edits {
        let kind = match bytes.next() {
            Some(kind) => kind,
            None => break,
        };
        let place = usize::from(bytes.wide()) % (pool.len() + 1);
        let value = bytes.byte();
        let end = (place + usize::from(value)).min(pool.len());
        match kind % 6 {
            0 | 1 if place < pool.len() => pool[place] = value,
            2 if place < pool.len() => pool[place] ^= 1 << (value % 8),
            3 => drop(pool.drain(place..end)),
            4 => {
                let part = pool[place..end].to_vec();
                pool.extend(part);
            }
            5 => pool.insert(place, value),
            _ => {}
        }
        pool.truncate(20_000);
    }
    pool
}

/// The mode: any bytes, or a known pool with edits, judged by the library and by the model, and its objects read; an accepted one is written
/// again. Or one object of a known pool, with edits of its fields, is written.
pub fn judge(pools: &Pools, bytes: &mut Bytes) {
    let from = bytes.byte();
    let pool = match from {
        OBJECTS..=127 => return objects::write(&pools.client(usize::from(from), 0).pool, bytes),
        0..=127 => {
            let variant = usize::from(bytes.byte());
            edited(pools.client(usize::from(from), variant).pool.to_vec(), bytes, 32)
        }
        _ => bytes.rest().to_vec(),
    };
    let wanted = check::check(&pool);
    let mut lent = pool.clone();
    lent.extend([0x02; BEHIND]);
    let given = library::pool_check(&lent[..pool.len()]);
    if (given.code, given.object) != wanted {
        found(&format!("pool: the library gives {:02X} {:04X}, the model {wanted:04X?}", given.code, given.object));
    }
    if lent[..pool.len()] != pool[..] || lent[pool.len()..] != [0x02; BEHIND] {
        found("pool: bytes that are only read were changed");
    }
    counters::count(Row::Pool, usize::from(given.code));
    objects::read(&pool);
    rewrite(&pool, wanted, usize::from(from) % 3);
}

/// "lent output too short" is 1 and comes first; 6 has the verdict; else the output begins with the pool's bytes. The bytes after them stay.
fn rewrite(pool: &[u8], verdict: (u8, u16), spare: usize) {
    let mut out = vec![0xA5; (pool.len() + spare).saturating_sub(1)];
    let mut wanted_out = out.clone();
    let wanted = if out.len() < pool.len() {
        (1, 0, 0)
    } else if verdict.0 != 0 {
        (6, verdict.0, verdict.1)
    } else {
        wanted_out[..pool.len()].copy_from_slice(pool);
        (0, 0, 0)
    };
    let given = library::pool_rewrite(pool, &mut out);
    let given = (given.number, given.code, given.object);
    if given != wanted || out != wanted_out {
        found(&format!("pool written again into {} bytes: the library gives {given:04X?}, the model {wanted:04X?}", out.len()));
    }
}
