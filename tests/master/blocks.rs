//! Blocks to load: of sequences by chance, at the edges of what a sequence may have; and the same with something wrong in
//! them, by each reason for which they are refused, the checks made right again, or with a check that is wrong.

use super::generate::Random;
use super::recording::{Identity, Mark, Sequence, Step};
use super::stored::{self, BLOCK, LABEL, MOST_MILLIMETRES, MOST_TICKS, RECORD, RECORDS, STEP, STEPS, WORDS};

/// The most clients.
const CLIENTS: usize = 8;

// Sequences.

/// So many clients, in any slots, and so many steps, one of each client at least; of either edition.
pub fn sequence(random: &mut Random, clients: usize, steps: usize) -> Sequence {
    let mut slots: Vec<usize> = (0..CLIENTS).collect();
    random.shuffle(&mut slots);
    slots.truncate(clients);
    let mut sequence = Sequence { edition: random.pick(&[1, 2]), ..Sequence::default() };
    sequence.clients.extend(slots.iter().map(|&slot| (slot, identity(random))));
    sequence.steps.extend(slots.iter().cycle().take(clients).map(|&slot| step(random, slot)));
    for _ in clients..steps {
        let slot = random.pick(&slots);
        sequence.steps.push(step(random, slot));
    }
    random.shuffle(&mut sequence.steps);
    sequence
}

/// Any counts, those before and after which a block begins among them.
pub fn any_sequence(random: &mut Random) -> Sequence {
    let any = random.between(1, 8) as usize;
    let clients = random.pick(&[any, any, 1, 3, 4, 6, 7, 8]);
    let any = random.between(clients as u32, 64) as usize;
    let steps = random.pick(&[any, any, clients, 31, 32, 62, 63, 64]);
    sequence(random, clients, steps)
}

fn identity(random: &mut Random) -> Identity {
    let (version, configuration) = (random.between(1, 63), random.between(1, 63));
    Identity {
        name: random.number(),
        master_name: random.number(),
        version_label: (0..version).map(|_| allowed(random)).collect(),
        configuration_label: (0..configuration).map(|_| random.number() as u8).collect(),
    }
}

/// A byte that a version label may have.
fn allowed(random: &mut Random) -> u8 {
    random.pick(b" !#$%&()+,-.09;=@AZ[]^_az{}~\xA0\xA7\xFF")
}

fn step(random: &mut Random, slot: usize) -> Step {
    let mark = match random.below(2) {
        0 => Mark::Ticks(random.between(0, MOST_TICKS)),
        _ => Mark::Millimetres(random.between(0, MOST_MILLIMETRES)),
    };
    let (function, state) = (random.number() as u8, random.between(0, 63) as u8);
    Step { slot, function, state, value: random.number() as u32, mark }
}

// Damage.

/// A sequence as its edition, less one, its records and steps, before they are laid into blocks.
pub struct Parts {
    pub edition_less_one: u32,
    pub records: Vec<[u8; RECORD]>,
    pub steps: Vec<[u8; STEP]>,
}

impl Parts {
    pub fn of(sequence: &Sequence) -> Parts {
        let records = sequence.clients.iter().map(|(&slot, client)| stored::record_of(slot, client)).collect();
        let steps = sequence.steps.iter().map(stored::step_of).collect();
        Parts { edition_less_one: sequence.edition - 1, records, steps }
    }

    pub fn blocks(&self) -> Vec<u8> {
        stored::blocks(self.edition_less_one, &self.records, &self.steps)
    }

    fn record(&mut self, random: &mut Random) -> &mut [u8; RECORD] {
        let place = random.below(self.records.len());
        &mut self.records[place]
    }

    fn step(&mut self, random: &mut Random) -> &mut [u8; STEP] {
        let place = random.below(self.steps.len());
        &mut self.steps[place]
    }

    /// The steps of one slot become those of another.
    fn move_steps(&mut self, from: u8, to: u8) {
        self.steps.iter_mut().filter(|step| step[0] == from).for_each(|step| step[0] = to);
    }

    /// A slot that has no record.
    fn unused(&self) -> Option<u8> {
        (0..CLIENTS as u8).find(|slot| self.records.iter().all(|record| record[0] != *slot))
    }
}

/// How blocks come to be wrong: in what is laid into them, in their bytes, after which the checks are made right again, or
/// in bytes whose checks stay as they were.
#[derive(Clone, Copy)]
pub enum Damage {
    Parts(fn(&mut Parts, &mut Random)),
    Bytes(fn(&mut Vec<u8>, &mut Random)),
    Checks(fn(&mut Vec<u8>, &mut Random)),
}

/// Each with the reason for 17 that it gives in any case; none where it gives 16, or this or that.
pub type Damaging = (Option<&'static str>, Damage);

pub fn damaged(sequence: &Sequence, damage: Damage, random: &mut Random) -> Vec<u8> {
    let mut parts = Parts::of(sequence);
    if let Damage::Parts(alter) = damage {
        alter(&mut parts, random);
    }
    let mut bytes = parts.blocks();
    match damage {
        Damage::Parts(_) => {}
        Damage::Bytes(alter) => {
            alter(&mut bytes, random);
            mend(&mut bytes);
        }
        Damage::Checks(alter) => alter(&mut bytes, random),
    }
    bytes
}

/// Makes the check of every whole block right.
pub fn mend(bytes: &mut [u8]) {
    for (block, number) in bytes.chunks_exact_mut(BLOCK).zip(1..) {
        let check = stored::sum(block, number);
        block[WORDS..].copy_from_slice(&check.to_le_bytes());
    }
}

/// The same records in another order, which makes no difference; of one record there is none.
pub fn another_order(sequence: &Sequence, random: &mut Random) -> Vec<u8> {
    let mut parts = Parts::of(sequence);
    let turn = random.below(parts.records.len());
    random.shuffle(&mut parts.records);
    parts.records.rotate_left(turn);
    parts.blocks()
}

pub const DAMAGES: &[Damaging] = &[
    (Some("no client"), Damage::Parts(|parts, _| parts.records.clear())),
    (Some("no step"), Damage::Parts(|parts, _| parts.steps.clear())),
    (Some("no step"), Damage::Parts(|parts, _| *parts = Parts { edition_less_one: 0, records: Vec::new(), steps: Vec::new() })),
    (Some("more than 8 clients"), Damage::Parts(many_records)),
    (Some("more than 64 steps"), Damage::Parts(many_steps)),
    (Some("an unknown edition"), Damage::Parts(|parts, random| parts.edition_less_one = unknown(random))),
    (Some("a slot above 7"), Damage::Parts(far_client)),
    (Some("a slot above 7"), Damage::Parts(|parts, random| parts.record(random)[0] = far_slot(random))),
    (Some("a slot above 7"), Damage::Parts(|parts, random| parts.step(random)[0] = far_slot(random))),
    (Some("a version label of 0 bytes"), Damage::Parts(|parts, random| no_label(parts.record(random), 1, 20))),
    (Some("a version label of more than 63 bytes"), Damage::Parts(|parts, random| long_label(parts, 1, 20, random))),
    (Some("a configuration label of 0 bytes"), Damage::Parts(|parts, random| no_label(parts.record(random), 2, 84))),
    (Some("a configuration label of more than 63 bytes"), Damage::Parts(|parts, random| long_label(parts, 2, 84, random))),
    (Some("a byte that no version label has"), Damage::Parts(wrong_letter)),
    (Some("a state above 63"), Damage::Parts(|parts, random| parts.step(random)[2] = random.between(64, 255) as u8)),
    (Some("a distance above 1"), Damage::Parts(wrong_distance)),
    (Some("a mark above 35,999 ticks"), Damage::Parts(|parts, random| far_mark(parts, 0, MOST_TICKS, random))),
    (Some("a mark above 2,359,194,465 mm"), Damage::Parts(|parts, random| far_mark(parts, 1, MOST_MILLIMETRES, random))),
    (Some("byte 3 of a record"), Damage::Parts(|parts, random| parts.record(random)[3] = some(random))),
    (Some("byte 83 of a record"), Damage::Parts(|parts, random| parts.record(random)[83] = some(random))),
    (Some("byte 147 of a record"), Damage::Parts(|parts, random| parts.record(random)[147] = some(random))),
    (Some("bytes after a version label"), Damage::Parts(|parts, random| after_label(parts, 1, 20, random))),
    (Some("bytes after a configuration label"), Damage::Parts(|parts, random| after_label(parts, 2, 84, random))),
    (Some("bytes 12 to 15 of a step"), Damage::Parts(|parts, random| parts.step(random)[12 + random.below(4)] = some(random))),
    (Some("a slot twice"), Damage::Parts(slot_twice)),
    (Some("a step without its client's record"), Damage::Parts(missing_record)),
    (Some("a record without a step"), Damage::Parts(idle_record)),
    (Some("no block"), Damage::Bytes(|bytes, _| bytes.clear())),
    (Some("a part of a block"), Damage::Bytes(|bytes, random| bytes.resize(bytes.len() + random.between(1, 511) as usize, 0))),
    (Some("a part of a block"), Damage::Bytes(|bytes, random| bytes.truncate(bytes.len() - random.between(1, 511) as usize))),
    (Some("a part of a block"), Damage::Bytes(|bytes, random| bytes.truncate(random.between(1, 511) as usize))),
    (Some("blocks missing"), Damage::Bytes(|bytes, random| bytes.truncate(BLOCK * (1 + random.below(bytes.len() / BLOCK - 1))))),
    (Some("blocks missing"), Damage::Bytes(without_block)),
    (Some("blocks left over"), Damage::Bytes(|bytes, random| bytes.resize(bytes.len() + BLOCK * random.pick(&[1, 1, 2, 9]), 0))),
    (Some("blocks left over"), Damage::Bytes(|bytes, _| bytes.extend_from_within(bytes.len() - BLOCK..))),
    (Some("fill of the first block"), Damage::Bytes(first_fill)),
    (Some("fill after the records of a block"), Damage::Bytes(records_fill)),
    (Some("fill after the steps of a block"), Damage::Bytes(steps_fill)),
    (None, Damage::Bytes(|bytes, random| other_count(bytes, 4 * random.below(2), random))),
    (None, Damage::Bytes(|bytes, random| bytes[..12].fill(random.pick(&[0, 1, 8, 64, 255])))),
    (None, Damage::Bytes(any_word)),
    (None, Damage::Bytes(|bytes, _| bytes.fill(0))),
    (None, Damage::Bytes(noise)),
    (None, Damage::Bytes(noise_in_fields)),
    (None, Damage::Checks(|bytes, random| bytes[8..12].copy_from_slice(&unknown(random).to_le_bytes()))),
    (None, Damage::Checks(swapped_words)),
    (None, Damage::Checks(balanced_words)),
    (None, Damage::Checks(any_word)),
    (None, Damage::Checks(check_word)),
    (None, Damage::Checks(wrong_rest)),
    (None, Damage::Checks(wrong_rest_and_part)),
    (None, Damage::Checks(swapped_blocks)),
    (None, Damage::Checks(without_block)),
    (None, Damage::Checks(|bytes, _| bytes.rotate_left(1))),
    (None, Damage::Checks(|bytes, _| bytes.fill(0))),
    (None, Damage::Checks(noise)),
];

/// Any byte but 0.
fn some(random: &mut Random) -> u8 {
    random.between(1, 255) as u8
}

fn far_slot(random: &mut Random) -> u8 {
    let any = random.between(8, 255) as u8;
    random.pick(&[any, 8, 15, 255])
}

/// An edition, less one, that is neither 1 nor 2, though it may be one of them if it is cut to a byte, to 16 or to 31 bits.
fn unknown(random: &mut Random) -> u32 {
    let (any, known) = (random.between(2, u32::MAX), random.below(2) as u32);
    random.pick(&[any, 2, 3, 256 + known, 65_536 + known, 1 << 31 | known, u32::MAX])
}

fn many_records(parts: &mut Parts, random: &mut Random) {
    let record = *parts.record(random);
    parts.records.resize(random.pick(&[9, 9, 10, 12, 13]), record);
}

fn many_steps(parts: &mut Parts, random: &mut Random) {
    let step = *parts.step(random);
    parts.steps.resize(random.pick(&[65, 65, 66, 93, 94, 128]), step);
}

/// A record and all its steps have a slot that is not.
fn far_client(parts: &mut Parts, random: &mut Random) {
    let to = far_slot(random);
    let record = parts.record(random);
    let from = record[0];
    record[0] = to;
    parts.move_steps(from, to);
}

fn no_label(record: &mut [u8; RECORD], length: usize, at: usize) {
    record[length] = 0;
    record[at..at + LABEL].fill(0);
}

fn long_label(parts: &mut Parts, length: usize, at: usize, random: &mut Random) {
    let any = random.between(64, 255) as u8;
    let record = parts.record(random);
    record[length] = random.pick(&[any, 64]);
    record[at..at + LABEL].fill(b'x');
}

fn wrong_letter(parts: &mut Parts, random: &mut Random) {
    let any = random.between(0x7F, 0x9F) as u8;
    let low = random.below(0x20) as u8;
    let of_list = random.pick(b"\\\"'`/:*<>|?");
    let record = parts.record(random);
    let place = random.below(usize::from(record[1]));
    record[20 + place] = random.pick(&[any, low, of_list]);
}

/// Its mark is one that either kind may have.
fn wrong_distance(parts: &mut Parts, random: &mut Random) {
    let any = random.between(2, 255) as u8;
    let step = parts.step(random);
    step[3] = random.pick(&[any, 2]);
    step[4..8].copy_from_slice(&[7, 0, 0, 0]);
}

fn far_mark(parts: &mut Parts, distance: u8, most: u32, random: &mut Random) {
    let mark = random.between(most + 1, u32::MAX);
    let step = parts.step(random);
    step[3] = distance;
    step[4..8].copy_from_slice(&mark.to_le_bytes());
}

fn after_label(parts: &mut Parts, length: usize, at: usize, random: &mut Random) {
    let byte = random.pick(&[b'x', 1, 0xFF]);
    let record = parts.record(random);
    record[length] = record[length].min(62);
    let behind = usize::from(record[length]);
    record[at + behind..at + LABEL].fill(0);
    record[at + behind + random.below(LABEL - behind)] = byte;
}

/// One more record of a slot; where there are eight, one client becomes another.
fn slot_twice(parts: &mut Parts, random: &mut Random) {
    let record = *parts.record(random);
    if parts.records.len() < CLIENTS {
        return parts.records.push(record);
    }
    let other = parts.records.iter_mut().find(|other| other[0] != record[0]);
    if let Some(other) = other {
        let from = std::mem::replace(&mut other[0], record[0]);
        parts.move_steps(from, record[0]);
    }
}

/// A record is gone, or its only step, or one of its steps, is of a slot that has none.
fn missing_record(parts: &mut Parts, random: &mut Random) {
    match parts.unused() {
        Some(unused) if parts.records.len() == 1 || random.once_in(3) => parts.step(random)[0] = unused,
        _ => drop(parts.records.remove(random.below(parts.records.len()))),
    }
}

/// One more record; where there are eight, the steps of one client become another's.
fn idle_record(parts: &mut Parts, random: &mut Random) {
    let mut record = *parts.record(random);
    if let Some(unused) = parts.unused() {
        record[0] = unused;
        return parts.records.push(record);
    }
    let to = (record[0] + 1) % CLIENTS as u8;
    parts.move_steps(record[0], to);
}

/// Any block but the first is gone.
fn without_block(bytes: &mut Vec<u8>, random: &mut Random) {
    let place = BLOCK * (1 + random.below(bytes.len() / BLOCK - 1));
    bytes.drain(place..place + BLOCK);
}

fn first_fill(bytes: &mut Vec<u8>, random: &mut Random) {
    let place = random.between(12, 507) as usize;
    bytes[random.pick(&[place, 12, 15, 507])] = some(random);
}

/// The blocks from one to another, and how many bytes of the last of them are in use.
fn fill(bytes: &mut [u8], blocks: std::ops::Range<usize>, in_use: usize, full: usize, random: &mut Random) {
    let block = blocks.start + random.below(blocks.len());
    let from = if block + 1 == blocks.end { in_use } else { full };
    let place = random.between(from as u32, WORDS as u32 - 1) as usize;
    bytes[BLOCK * block + place] = some(random);
}

fn counts(bytes: &[u8]) -> (usize, usize) {
    (usize::from(bytes[0]), usize::from(bytes[4]))
}

fn records_fill(bytes: &mut Vec<u8>, random: &mut Random) {
    let (clients, _) = counts(bytes);
    let in_use = (clients - 1) % RECORDS + 1;
    fill(bytes, 1..stored::block_count(clients, 0), RECORD * in_use, RECORD * RECORDS, random);
}

fn steps_fill(bytes: &mut Vec<u8>, random: &mut Random) {
    let (clients, steps) = counts(bytes);
    let in_use = (steps - 1) % STEPS + 1;
    let blocks = stored::block_count(clients, 0)..stored::block_count(clients, steps);
    fill(bytes, blocks, STEP * in_use, STEP * STEPS, random);
}

/// A count that is another, or would be the same if it were cut to a byte or to 16 bits.
fn other_count(bytes: &mut Vec<u8>, at: usize, random: &mut Random) {
    let count = stored::number_at(bytes, at);
    let any = random.number() as u32;
    let other = random.pick(&[count - 1, count + 1, count + 3, count + 31, count + 256, count + 65_536, count | 1 << 31, u32::MAX, any]);
    bytes[at..at + 4].copy_from_slice(&other.to_le_bytes());
}

/// A word that is no check, in one bit, in one byte or in all.
pub fn any_word(bytes: &mut Vec<u8>, random: &mut Random) {
    let (block, word) = (random.below(bytes.len() / BLOCK), random.below(WORDS / 4));
    alter(bytes, BLOCK * block + 4 * word, random);
}

pub fn check_word(bytes: &mut Vec<u8>, random: &mut Random) {
    let block = random.below(bytes.len() / BLOCK);
    alter(bytes, BLOCK * block + WORDS, random);
}

/// The word at a place becomes another one.
fn alter(bytes: &mut [u8], at: usize, random: &mut Random) {
    let (bit, byte, bits) = (1 << random.below(32), 0xFF << (8 * random.below(4)), random.between(1, u32::MAX));
    let bits = random.pick(&[bit, byte, bits]);
    let other = stored::number_at(bytes, at) ^ bits;
    bytes[at..at + 4].copy_from_slice(&other.to_le_bytes());
}

/// Two words of a block change places: its check is right still.
fn swapped_words(bytes: &mut Vec<u8>, random: &mut Random) {
    let block = BLOCK * random.below(bytes.len() / BLOCK);
    let (one, other) = (block + 4 * random.below(WORDS / 4), block + 4 * random.below(WORDS / 4));
    (0..4).for_each(|byte| bytes.swap(one + byte, other + byte));
}

/// One word of a block has more by as much as another has less: its check is right still.
fn balanced_words(bytes: &mut Vec<u8>, random: &mut Random) {
    let block = BLOCK * random.below(bytes.len() / BLOCK);
    let more = random.pick(&[1, 256, 1 << 16, 1 << 31]);
    for more in [more, u32::wrapping_neg(more)] {
        let at = block + 4 * random.below(WORDS / 4);
        let word = stored::number_at(bytes, at).wrapping_add(more);
        bytes[at..at + 4].copy_from_slice(&word.to_le_bytes());
    }
}

/// Blocks are left over, and the check of the last of them is wrong.
fn wrong_rest(bytes: &mut Vec<u8>, random: &mut Random) {
    bytes.resize(bytes.len() + BLOCK * random.pick(&[1, 2, 8]), 0);
    mend(bytes);
    let last = bytes.len() - BLOCK;
    alter(bytes, last + 4 * random.below(BLOCK / 4), random);
}

fn wrong_rest_and_part(bytes: &mut Vec<u8>, random: &mut Random) {
    wrong_rest(bytes, random);
    bytes.resize(bytes.len() + random.between(1, 511) as usize, 0);
}

fn swapped_blocks(bytes: &mut Vec<u8>, random: &mut Random) {
    let blocks = bytes.len() / BLOCK;
    let (one, other) = (random.below(blocks), random.below(blocks));
    (0..BLOCK).for_each(|byte| bytes.swap(BLOCK * one + byte, BLOCK * other + byte));
}

fn noise(bytes: &mut Vec<u8>, random: &mut Random) {
    let length = random.pick(&[0, 1, 511, 512, 513, 1_024, 1_536, 3_584, 4_096]);
    *bytes = (0..length).map(|_| random.number() as u8).collect();
}

/// Any bytes in every record and step, but for the counts.
fn noise_in_fields(bytes: &mut Vec<u8>, random: &mut Random) {
    bytes[BLOCK..].iter_mut().for_each(|byte| *byte = random.number() as u8);
}
