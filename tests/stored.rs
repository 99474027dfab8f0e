//! The laws of what is stored, on the library itself: a load after a store gives back the same, with its edition, into any master in ready; a stored
//! set with one word altered gives 16; two sequences that differ have blocks that differ. And any bytes as blocks, against the model of tests/master.

use crate::library::{self, Master, NO_MASTER, NO_SEQUENCE};
use crate::master::blocks::{self, DAMAGES};
use crate::master::recording::{Mark, Sequence};
use crate::master::{render, stored};
use crate::pool::generate::Random;
use crate::{bits, fail};
use std::collections::HashMap;

const COUNT: u64 = 300;
const SEED: u64 = 11_783;
/// Enough for every sequence, and some behind it.
const ROOM: usize = 3_584;
const BEHIND: usize = 64;

struct Run {
    random: Random,
    /// A master in ready with any bits else.
    any: Master,
    loads: u64,
    stores: u64,
    /// The blocks of each sequence that was stored.
    seen: HashMap<Vec<u8>, Sequence>,
}

/// COUNT sequences, from SEED.
pub fn run(arguments: &[&str]) {
    let (count, seed) = crate::count_and_seed(arguments, COUNT, SEED);
    let mut masters = bits::Run::new(seed);
    let any = Master { state: 1, ..masters.master() };
    let mut run = Run { random: Random::new(seed), any, loads: 0, stores: 0, seen: HashMap::new() };
    run.every_word();
    run.every_length();
    run.every_letter();
    run.every_edition();
    for _ in 0..count {
        run.any = Master { state: 1, ..masters.master() };
        let sequence = blocks::any_sequence(&mut run.random);
        run.there_and_back(&sequence);
        run.one_thing_other(&sequence);
        run.damages(&sequence);
    }
    println!("stored: {} loads and {} stores, of {} sequences, no two alike in blocks: every law holds", run.loads, run.stores, run.seen.len());
}

fn wrong(what: &str) -> ! {
    fail("stored", what)
}

/// In ready, with nothing but this sequence.
fn holding(sequence: &Sequence) -> Master {
    Master { state: 1, sequence: render::sequence(sequence), ..NO_MASTER }
}

impl Run {
    /// The number of a load into a master of any bits, of which it changes nothing but the sequence, and that only where it is accepted.
    fn load(&mut self, blocks: &[u8]) -> u8 {
        self.loads += 1;
        let given = library::load(&self.any, blocks);
        let sequence = if given.number == 0 { render::sequence(&stored::read(blocks)) } else { self.any.sequence };
        if given.master != (Master { sequence, ..self.any }) {
            wrong(&format!("a load of {} bytes gives {}, and another master", blocks.len(), given.number));
        }
        given.number
    }

    /// The number that the model gives too.
    fn judge(&mut self, blocks: &[u8]) -> u8 {
        let wanted = match (stored::wrong_checks(blocks).is_empty(), stored::reasons(blocks).is_empty()) {
            (false, _) => 16,
            (true, false) => 17,
            (true, true) => 0,
        };
        let number = self.load(blocks);
        if number != wanted {
            wrong(&format!("a load gives {number}, wanted is {wanted}: {:?}", stored::reasons(blocks)));
        }
        number
    }

    /// What the library stores of a sequence; the bytes behind it stay.
    fn store(&mut self, sequence: &Sequence) -> Vec<u8> {
        self.stores += 1;
        let mut out = [0x5A; ROOM + BEHIND];
        let (number, written) = library::store_of(&holding(sequence), &mut out);
        if number != 0 || written > ROOM || out[written..].iter().any(|&byte| byte != 0x5A) {
            wrong(&format!("a store gives {number}, {written} bytes, or bytes behind them"));
        }
        out[..written].to_vec()
    }

    /// The largest set: each of its words, altered in one bit, in many, and by one more; then as it was.
    fn every_word(&mut self) {
        let sequence = blocks::sequence(&mut self.random, 8, 64);
        let blocks = self.store(&sequence);
        if blocks.len() != ROOM {
            wrong("the largest sequence is not seven blocks");
        }
        for place in (0..ROOM).step_by(4) {
            let word = u32::from_le_bytes(blocks[place..place + 4].try_into().unwrap());
            let any = self.random.number() as u32 | 1;
            for other in [word ^ 1, word ^ 1 << 31, !word, word.wrapping_add(1), word.wrapping_sub(1), word ^ any, word.swap_bytes()] {
                let mut altered = blocks.clone();
                altered[place..place + 4].copy_from_slice(&other.to_le_bytes());
                let wanted = if other == word { 0 } else { 16 };
                if self.load(&altered) != wanted {
                    wrong(&format!("the word at {place} altered from {word:08X} to {other:08X}: not {wanted}"));
                }
            }
        }
    }

    /// Every length of a set and of what may stand behind it, and every room that may be lent for it.
    fn every_length(&mut self) {
        let sequence = blocks::sequence(&mut self.random, 4, 32);
        let blocks = self.store(&sequence);
        let mut longer = blocks.clone();
        longer.resize(blocks.len() + 1_024, 0);
        blocks::mend(&mut longer);
        for length in 0..=longer.len() {
            let wanted = if length == blocks.len() { 0 } else { 17 };
            if self.judge(&longer[..length]) != wanted {
                wrong(&format!("{length} bytes of a set of {}: not {wanted}", blocks.len()));
            }
        }
        for room in 0..=blocks.len() + 2 {
            let mut out = vec![0x5A; blocks.len() + 2];
            let mut meant = out.clone();
            if room >= blocks.len() {
                meant[..blocks.len()].copy_from_slice(&blocks);
            }
            let wanted = if room < blocks.len() { (1, 0) } else { (0, blocks.len()) };
            self.stores += 1;
            if library::store_of(&holding(&sequence), &mut out[..room]) != wanted || out != meant {
                wrong(&format!("a store into {room} bytes"));
            }
        }
    }

    /// Each of the 256 bytes in both labels, at their ends and between.
    fn every_letter(&mut self) {
        for byte in 0..=255 {
            for place in [0, 1, 62] {
                let mut sequence = blocks::sequence(&mut self.random, 3, 3);
                let client = sequence.clients.values_mut().last().unwrap();
                (client.version_label, client.configuration_label) = (vec![b'v'; 63], vec![b'c'; 63]);
                client.configuration_label[place] = byte;
                if self.judge(&stored::of(&sequence)) != 0 {
                    wrong(&format!("{byte:02X} in a configuration label is refused"));
                }
                sequence.clients.values_mut().last().unwrap().version_label[place] = byte;
                self.judge(&stored::of(&sequence));
            }
        }
    }

    /// Numbers of all sizes where the edition stands, less one: as they are, and with the check made right again.
    fn every_edition(&mut self) {
        for edition in [1, 2] {
            let sequence = Sequence { edition, ..blocks::sequence(&mut self.random, 4, 32) };
            let mut blocks = self.store(&sequence);
            let words = (0..32).flat_map(|bit| [1u32 << bit, (1 << bit) - 1, 1 << bit | 1, !(1 << bit)]);
            for word in words {
                blocks[8..12].copy_from_slice(&word.to_le_bytes());
                let unmended = self.load(&blocks);
                blocks::mend(&mut blocks);
                let (mended, loaded) = (self.load(&blocks), library::load(&self.any, &blocks));
                let known = mended == 0 && library::sequence_edition(&loaded.master) == word.wrapping_add(1);
                if unmended != if word == edition - 1 { 0 } else { 16 } || !(if word < 2 { known } else { mended == 17 }) {
                    wrong(&format!("{word} where edition {edition} stood: a load gives {unmended}, its check made right {mended}"));
                }
                blocks = self.store(&sequence);
            }
        }
    }

    /// "Loading gives back exactly what was stored": into any master, and its records in any order.
    fn there_and_back(&mut self, sequence: &Sequence) {
        let blocks = self.store(sequence);
        if blocks != stored::of(sequence) {
            wrong(&format!("stored otherwise than the model has it: {sequence:?}"));
        }
        for bytes in [blocks.clone(), blocks::another_order(sequence, &mut self.random)] {
            let given = library::load(&self.any, &bytes);
            let mut out = [0; ROOM];
            let again = library::store_of(&given.master, &mut out);
            let bare = library::load(&Master { sequence: NO_SEQUENCE, ..self.any }, &bytes);
            self.loads += 2;
            self.stores += 1;
            if given.number != 0 || given.master != bare.master || given.master.sequence != render::sequence(sequence) {
                wrong(&format!("loaded is not what was stored: {sequence:?}"));
            }
            if again != (0, blocks.len()) || out[..blocks.len()] != blocks {
                wrong(&format!("stored again it is another set: {sequence:?}"));
            }
        }
        self.keep(blocks, sequence);
    }

    /// Two sequences whose blocks are the same are the same.
    fn keep(&mut self, blocks: Vec<u8>, sequence: &Sequence) {
        match self.seen.get(&blocks) {
            Some(other) if other != sequence => wrong(&format!("the same blocks: {other:?} and {sequence:?}")),
            _ => drop(self.seen.insert(blocks, sequence.clone())),
        }
    }

    /// The same sequence but for one thing: its blocks are others.
    fn one_thing_other(&mut self, sequence: &Sequence) {
        for thing in 0..12 {
            let mut other = sequence.clone();
            let place = self.random.below(other.steps.len());
            let step = &mut other.steps[place];
            let slot = step.slot;
            let bit = self.random.below(64);
            match thing {
                0 => step.function ^= 1 << (bit % 8),
                1 => step.state ^= 1 << (bit % 6),
                2 => step.value ^= 1 << (bit % 32),
                3 => step.mark = if step.mark == Mark::Ticks(9) { Mark::Ticks(10) } else { Mark::Ticks(9) },
                4 => step.mark = if step.mark == Mark::Millimetres(9) { Mark::Ticks(9) } else { Mark::Millimetres(9) },
                5 => other.steps.swap(place, 0),
                6 if other.steps.len() < 64 => other.steps.push(other.steps[0]),
                11 => other.edition = 3 - other.edition,
                _ => other_client(other.clients.get_mut(&slot).unwrap(), thing, bit),
            }
            let (one, two) = (self.store(sequence), self.store(&other));
            if (one == two) != (*sequence == other) {
                wrong(&format!("sequences that differ in one thing have the same blocks: {sequence:?} and {other:?}"));
            }
            self.keep(two, &other);
        }
    }

    /// Each kind of damage, against the model.
    fn damages(&mut self, sequence: &Sequence) {
        for &(reason, damage) in DAMAGES {
            let blocks = blocks::damaged(sequence, damage, &mut self.random);
            let number = self.judge(&blocks);
            if let (Some(reason), true) = (reason, number != 17) {
                wrong(&format!("{reason}: a load gives {number}"));
            }
        }
    }
}

fn other_client(client: &mut crate::master::recording::Identity, thing: usize, bit: usize) {
    match thing {
        7 => client.name ^= 1 << bit,
        8 => client.master_name ^= 1 << bit,
        9 if client.version_label.len() < 63 => client.version_label.push(b'v'),
        9 => client.version_label[bit % 63] = b'y',
        _ if client.configuration_label.len() < 63 => client.configuration_label.push(0),
        _ => client.configuration_label[bit % 63] ^= 1,
    }
}
