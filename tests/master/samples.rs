//! Clients to attach: a NAME and a pool each; the same clients changed in one thing, the neighbour's in NAME and master NAME;
//! and pools that are refused.

use super::generate::{Pool, Random, Shape, FULL};
use super::recording::Step;

/// The identity number of a NAME.
const IDENTITY: u64 = 0x1F_FFFF;

#[derive(Clone)]
pub struct Sample {
    pub name: u64,
    pub pool: Pool,
}

impl Sample {
    /// One in `large_in` is of any size; the others are small, and all of these use the same few IDs, so that one
    /// client's functions and states are often another's too.
    pub fn any(random: &mut Random, large_in: usize) -> Sample {
        let pool = if random.once_in(large_in) { large(random) } else { small(random) };
        let mut sample = Sample { name: random.number(), pool };
        let mask = random.number();
        let mask = random.pick(&[0, 1, u64::MAX, u64::MAX, 1 << 63, mask, mask, IDENTITY, !IDENTITY]);
        let other = random.number();
        let base = sample.pool.base();
        base.mask = mask;
        base.master_name = random.pick(&[sample.name, sample.name, sample.name ^ other & !mask, other]);
        sample
    }

    pub fn bytes(&self) -> Vec<u8> {
        self.pool.bytes()
    }
}

const FUNCTION_IDS: [u8; 6] = [5, 0, 1, 255, 128, 63];
const STATE_IDS: [u8; 6] = [2, 0, 1, 63, 32, 31];

fn small(random: &mut Random) -> Pool {
    let count = 1 + random.below(4);
    let shape =
        Shape { functions: count, states: 1 + random.below(5), shortest: 1, longest: 5, unlisted: random.below(2) };
    let mut pool = Pool::legal(random, shape, FULL);
    let ids = STATE_IDS.iter().cycle();
    for (state, &id) in pool.states.iter_mut().take(shape.states).zip(ids) {
        state.state_id = id;
    }
    let listed = pool.base().functions.clone();
    let functions = pool.functions.iter_mut().filter(|function| listed.contains(&function.number));
    for (function, id) in functions.zip(FUNCTION_IDS) {
        function.function_id = id;
    }
    pool
}

fn large(random: &mut Random) -> Pool {
    let functions = random.between(1, 255) as usize;
    let longest = random.between(0, 64) as usize;
    let shape = Shape { functions, states: random.below(70), shortest: 0, longest, unlisted: random.below(6) };
    Pool::legal(random, shape, FULL)
}

/// What may differ when a client comes back.
#[derive(Clone, Copy, PartialEq, Debug)]
pub enum Change {
    Nothing,
    Trigger,
    MaskOnly,
    NameOutsideMask,
    NameInsideMask,
    MasterName,
    MasterNameOutsideMask,
    Neighbour,
    VersionByte,
    VersionLength,
    ConfigurationByte,
    ConfigurationLength,
    FunctionMissing,
    StateMissing,
    IdentityNumber,
    NameAboveIdentity,
}

pub const CHANGES: [Change; 16] = [
    Change::Nothing,
    Change::Trigger,
    Change::MaskOnly,
    Change::NameOutsideMask,
    Change::NameInsideMask,
    Change::MasterName,
    Change::MasterNameOutsideMask,
    Change::Neighbour,
    Change::VersionByte,
    Change::VersionLength,
    Change::ConfigurationByte,
    Change::ConfigurationLength,
    Change::FunctionMissing,
    Change::StateMissing,
    Change::IdentityNumber,
    Change::NameAboveIdentity,
];

/// The step is one that the client recorded, if it did.
pub fn changed(sample: &Sample, change: Change, step: Option<&Step>, random: &mut Random) -> Sample {
    let mut sample = sample.clone();
    let mask = sample.pool.base().mask;
    match change {
        Change::Nothing => {}
        Change::Trigger => other_triggers(&mut sample.pool, random),
        Change::MaskOnly => sample.pool.base().mask = random.number() & random.number(),
        Change::NameOutsideMask => sample.name ^= random.number() & !mask,
        Change::NameInsideMask => {
            let bit = 1 << random.below(64);
            sample.name ^= bit;
            sample.pool.base().mask |= random.pick(&[0, bit, u64::MAX]);
        }
        Change::MasterName => sample.pool.base().master_name ^= 1 << random.below(64),
        Change::MasterNameOutsideMask => sample.pool.base().master_name ^= random.number() & !mask,
        Change::Neighbour => {
            sample.name ^= random.number() & !mask;
            sample.pool.base().master_name = sample.name;
        }
        Change::VersionByte => other_byte(&mut sample.pool.base().version_label, random),
        Change::VersionLength => other_length(&mut sample.pool.base().version_label),
        Change::ConfigurationByte => other_byte(&mut sample.pool.base().configuration_label, random),
        Change::ConfigurationLength => other_length(&mut sample.pool.base().configuration_label),
        Change::FunctionMissing => without_function(&mut sample.pool, step),
        Change::StateMissing => without_state(&mut sample.pool, step),
        Change::IdentityNumber => other_name(&mut sample, [1, 1 << 20, IDENTITY], random),
        Change::NameAboveIdentity => other_name(&mut sample, [1 << 21, 1 << 63, !IDENTITY], random),
    }
    sample
}

/// The NAME is another in one of these, or in some bits of the last; mostly the mask leaves them open. A master NAME that was
/// the client's own stays its own.
fn other_name(sample: &mut Sample, bits: [u64; 3], random: &mut Random) {
    let some = random.number() & bits[2];
    let bits = random.pick(&[bits[0], bits[1], some]);
    let own = sample.pool.base().master_name == sample.name;
    sample.name ^= bits;
    let base = sample.pool.base();
    base.mask &= random.pick(&[!bits, !bits, !bits, u64::MAX]);
    base.master_name = if own { sample.name } else { base.master_name };
}

fn other_triggers(pool: &mut Pool, random: &mut Random) {
    for function in &mut pool.functions {
        function.preferred_trigger = if function.preferred_trigger == 2 { random.pick(&[1, 255]) } else { 2 };
    }
}

/// Between letters, which both labels allow.
fn other_byte(label: &mut [u8], random: &mut Random) {
    let place = random.below(label.len());
    label[place] = if label[place] == b'a' { b'b' } else { b'a' };
}

fn other_length(label: &mut Vec<u8>) {
    if label.len() < 63 {
        label.push(b' ');
    } else {
        label.pop();
    }
}

/// The listed function of an ID goes by another one, which no function of the pool has.
fn without_function(pool: &mut Pool, step: Option<&Step>) {
    let used: Vec<u8> = pool.functions.iter().map(|function| function.function_id).collect();
    let unused = (0..=255).find(|id| !used.contains(id));
    if let (Some(step), Some(unused)) = (step, unused) {
        for function in &mut pool.functions {
            if function.function_id == step.function {
                function.function_id = unused;
            }
        }
    }
}

fn without_state(pool: &mut Pool, step: Option<&Step>) {
    let step = match step {
        Some(step) => step,
        None => return,
    };
    let of_id = |number: &u16| pool.states.iter().any(|state| state.number == *number && state.state_id == step.state);
    for function in pool.functions.iter_mut().filter(|function| function.function_id == step.function) {
        function.states.retain(|number| !of_id(number));
    }
}

/// A pool that is refused, mostly; each code of D.9 by some kind of damage.
pub fn damaged(sample: &Sample, random: &mut Random) -> Vec<u8> {
    let mut pool = sample.pool.clone();
    match random.below(16) {
        0 => return Vec::new(),
        1 => return vec![0; FULL + 1],
        2 => pool.functions[0].kind = 3 + random.below(253) as u8,
        3 => pool.baseless = true,
        4 => pool.base().functions.push(0xFFFF),
        5 => {
            let number = pool.functions[0].number;
            pool.base().functions.push(number);
        }
        6 => pool.functions.iter_mut().for_each(|function| function.states.push(0)),
        7 => twice(&mut pool),
        8 => pool.functions.push(pool.functions[0].clone()),
        9 => pool.base().n = Some(random.pick(&[0, 64, 255])),
        10 => pool.base().m = Some(random.pick(&[0, 64, 255])),
        11 => pool.base().version_label[0] = random.pick(&[0x1F, 0x3F, 0x7F, 0x9F]),
        12 => pool.base().version = random.pick(&[0, 1]),
        13 => pool.base().version = 3,
        14 => pool.cut = Some(random.below(9)),
        _ => return spoilt(pool.bytes(), random),
    }
    pool.bytes()
}

/// A listed function lists its first state twice.
fn twice(pool: &mut Pool) {
    for function in pool.functions.iter_mut() {
        if let Some(&first) = function.states.first() {
            function.states.truncate(63);
            function.states.push(first);
        }
    }
}

fn spoilt(mut bytes: Vec<u8>, random: &mut Random) -> Vec<u8> {
    let place = random.below(bytes.len());
    bytes[place] ^= 1 << random.below(8);
    bytes
}
