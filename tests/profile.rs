//! What the library keeps of a pool beside a plain reading of the pool's bytes, written from tables A.1 to A.3 of
//! ISO 11783-14 and document 01: "Of an accepted pool the master keeps what its rules need".

use crate::library::{self, Label, Profile, NO_LABEL, NO_PROFILE};
use crate::pool::generate::{Pool, Random, Shape, FULL};
use crate::pool::model;

const COUNT: u64 = 1_500;
const SEED: u64 = 14;

fn u16_of(bytes: &[u8]) -> u16 {
    u16::from_le_bytes([bytes[0], bytes[1]])
}

fn u64_of(bytes: &[u8]) -> u64 {
    let mut eight = [0; 8];
    eight.copy_from_slice(&bytes[..8]);
    u64::from_le_bytes(eight)
}

fn label_of(bytes: &[u8]) -> Label {
    let mut label = Label { length: bytes.len() as u8, ..NO_LABEL };
    label.bytes[..bytes.len()].copy_from_slice(bytes);
    label
}

/// The objects of an accepted pool, each with its own bytes.
fn objects(pool: &[u8]) -> Vec<&[u8]> {
    let mut rest = pool;
    let mut found = Vec::new();
    while !rest.is_empty() {
        let size = match rest[2] {
            0 => 27 + usize::from(rest[24]) + usize::from(rest[25]) + 2 * usize::from(rest[26]),
            1 => 30 + 2 * usize::from(rest[29]),
            _ => 8,
        };
        found.push(&rest[..size]);
        rest = &rest[size..];
    }
    found
}

fn listed(bytes: &[u8]) -> Vec<u16> {
    bytes.chunks(2).map(u16_of).collect()
}

/// What is kept of a pool that is accepted; of any other, nothing.
fn kept(pool: &[u8]) -> Profile {
    if model::check(pool).0 != 0 {
        return NO_PROFILE;
    }
    let all = objects(pool);
    let of = |kind: u8, number: u16| *all.iter().find(|o| o[2] == kind && u16_of(o) == number).unwrap();
    let base = of(0, 0);
    let (n, m) = (usize::from(base[24]), usize::from(base[25]));
    let mut profile = NO_PROFILE;
    profile.master = u64_of(&base[4..]);
    profile.mask = u64_of(&base[12..]);
    profile.version = label_of(&base[27..27 + n]);
    profile.configuration = label_of(&base[27 + n..27 + n + m]);
    for number in listed(&base[27 + n + m..]) {
        let function = of(1, number);
        let id = usize::from(function[3]);
        profile.trigger[id] = function[4];
        for state in listed(&function[30..]) {
            profile.states[id] |= 1 << of(2, state)[3];
        }
    }
    profile
}

fn compare(what: &str, pool: &[u8]) {
    if library::profile_of(pool) != kept(pool) {
        crate::fail("profile", &format!("{what} differs: {pool:02X?}"));
    }
}

/// COUNT pools, made from SEED.
pub fn run(arguments: &[&str]) {
    let (count, seed) = crate::count_and_seed(arguments, COUNT, SEED);
    let mut random = Random::new(seed);
    let (mut pools, mut accepted) = (0, 0);
    while pools < count {
        let shape = Shape {
            functions: 1 + random.below(40),
            states: random.below(70),
            shortest: 0,
            longest: random.below(65),
            unlisted: random.below(6),
        };
        let mut bytes = Pool::legal(&mut random, shape, FULL).bytes();
        if random.once_in(3) {
            let place = random.below(bytes.len());
            bytes[place] = random.number() as u8;
        }
        accepted += u64::from(model::check(&bytes).0 == 0);
        compare("pool", &bytes);
        pools += 1;
    }
    compare("empty pool", &[1][..0]);
    compare("pool of 16,385 bytes", &vec![0; FULL + 1]);
    assert!(accepted > pools / 2 && accepted < pools);
    println!("profile: {pools} pools, {accepted} of them accepted, 0 differences");
}
