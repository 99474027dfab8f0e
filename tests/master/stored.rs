//! The model's store: a sequence as blocks, and what any bytes are as blocks. Written from requests 1 and 11 of document 02
//! and from the bytes that are fixed for them. Places are counted from 0. Their sentences are quoted above the lines that
//! follow them.

use super::model::{self, Done, Master, Outcome};
use super::recording::{Identity, Mark, Sequence, Step};

/// "Store one sequence as blocks of 512 bytes".
pub const BLOCK: usize = 512;
/// "the block's 127 leading 32-bit words": what is left for them; "The last four bytes" are the check.
pub const WORDS: usize = 508;
/// "client records of 148 bytes, three to a block"
pub const RECORD: usize = 148;
pub const RECORDS: usize = 3;
/// "steps of 16 bytes, 31 to a block"
pub const STEP: usize = 16;
pub const STEPS: usize = 31;
/// Both labels have room for so many bytes.
pub const LABEL: usize = 63;
/// "mark at most 35,999 ticks or 35,999 · 65,535 = 2,359,194,465 mm"
pub const MOST_TICKS: u32 = 35_999;
pub const MOST_MILLIMETRES: u32 = 2_359_194_465;

// Writing.

/// "A sequence of c clients and s steps has 1 + ⌈c/3⌉ + ⌈s/31⌉ blocks".
pub fn block_count(clients: usize, steps: usize) -> usize {
    let up = |count: usize, each: usize| (count + each - 1) / each;
    1 + up(clients, RECORDS) + up(steps, STEPS)
}

/// "the wrapping sum of the block's 127 leading 32-bit words and its number from 1"
pub fn sum(block: &[u8], number: u32) -> u32 {
    let words = block[..WORDS].chunks(4).map(|word| number_at(word, 0));
    words.fold(number, u32::wrapping_add)
}

fn block(mut body: Vec<u8>, number: u32) -> Vec<u8> {
    // "each block filled with zeros"
    body.resize(WORDS, 0);
    let check = sum(&body, number);
    body.extend(check.to_le_bytes());
    body
}

/// "the first holds the client records' count and the step count, then client records, then steps". Steps begin "in new
/// blocks". "The edition stands in the first block."
pub fn blocks(edition_less_one: u32, records: &[[u8; RECORD]], steps: &[[u8; STEP]]) -> Vec<u8> {
    let first = [records.len() as u32, steps.len() as u32, edition_less_one].map(u32::to_le_bytes);
    let mut bodies = vec![first.concat()];
    bodies.extend(records.chunks(RECORDS).map(<[_]>::concat));
    bodies.extend(steps.chunks(STEPS).map(<[_]>::concat));
    bodies.into_iter().zip(1..).flat_map(|(body, number)| block(body, number)).collect()
}

/// A label as a record has it: its length, and its bytes, after which there are zeros.
pub type Label<'a> = (u8, &'a [u8]);

/// "0 slot, 1 length of the version label, 2 length of the configuration label, 3 zero, 4–11 NAME, 12–19 master NAME,
/// 20–82 version label, 83 zero, 84–146 configuration label, 147 zero"
pub fn record(slot: u8, name: u64, master_name: u64, version: Label, configuration: Label) -> [u8; RECORD] {
    let mut bytes = [0; RECORD];
    bytes[..3].copy_from_slice(&[slot, version.0, configuration.0]);
    bytes[4..12].copy_from_slice(&name.to_le_bytes());
    bytes[12..20].copy_from_slice(&master_name.to_le_bytes());
    bytes[20..20 + version.1.len()].copy_from_slice(version.1);
    bytes[84..84 + configuration.1.len()].copy_from_slice(configuration.1);
    bytes
}

/// "0 slot, 1 function, 2 state, 3 distance (0 mark in ticks, 1 in millimetres), 4–7 mark, 8–11 value, 12–15 zero"
pub fn step(head: [u8; 4], mark: u32, value: u32) -> [u8; STEP] {
    let mut bytes = [0; STEP];
    bytes[..4].copy_from_slice(&head);
    bytes[4..8].copy_from_slice(&mark.to_le_bytes());
    bytes[8..12].copy_from_slice(&value.to_le_bytes());
    bytes
}

/// The blocks of a sequence. Its records are "Written lowest slot first". "bytes 8–11 of block 1 hold the edition less one,
/// so that what was stored before reads as edition 1".
pub fn of(sequence: &Sequence) -> Vec<u8> {
    let records: Vec<_> = sequence.clients.iter().map(|(&slot, client)| record_of(slot, client)).collect();
    let steps: Vec<_> = sequence.steps.iter().map(step_of).collect();
    blocks(sequence.edition - 1, &records, &steps)
}

pub fn record_of(slot: usize, client: &Identity) -> [u8; RECORD] {
    let [version, configuration] = [&client.version_label, &client.configuration_label];
    let label = |bytes| -> Label { (Vec::len(bytes) as u8, bytes) };
    record(slot as u8, client.name, client.master_name, label(version), label(configuration))
}

pub fn step_of(it: &Step) -> [u8; STEP] {
    let (distance, mark) = match it.mark {
        Mark::Ticks(mark) => (0, mark),
        Mark::Millimetres(mark) => (1, mark),
    };
    step([it.slot as u8, it.function, it.state, distance], mark, it.value)
}

// Reading.

/// "Words are 32 bits, least significant byte first."
pub fn number_at(bytes: &[u8], place: usize) -> u32 {
    bytes[place..place + 4].iter().rev().fold(0, |number, &byte| number << 8 | u32::from(byte))
}

fn wide_at(bytes: &[u8], place: usize) -> u64 {
    u64::from(number_at(bytes, place)) | u64::from(number_at(bytes, place + 4)) << 32
}

/// The places from 0 of the whole lent blocks whose check is wrong, "left-over blocks too".
pub fn wrong_checks(bytes: &[u8]) -> Vec<usize> {
    let whole = bytes.chunks_exact(BLOCK).enumerate();
    let wrong = whole.filter(|(place, block)| number_at(block, WORDS) != sum(block, *place as u32 + 1));
    wrong.map(|(place, _)| place).collect()
}

/// Bytes as blocks, what the first of them counts, and the edition less one; 0 where there is none.
pub struct Laid<'a> {
    length: usize,
    blocks: Vec<&'a [u8]>,
    clients: usize,
    steps: usize,
    edition_less_one: u32,
}

impl<'a> Laid<'a> {
    pub fn new(bytes: &'a [u8]) -> Laid<'a> {
        let blocks: Vec<&[u8]> = bytes.chunks_exact(BLOCK).collect();
        let word = |place| blocks.first().map_or(0, |first| number_at(first, place));
        let (clients, steps) = (word(0) as usize, word(4) as usize);
        Laid { length: bytes.len(), clients, steps, edition_less_one: word(8), blocks }
    }

    /// "any other number than 0 and 1 there is an unknown edition"
    fn edition(&self) -> Option<u32> {
        match self.edition_less_one {
            0 => Some(1),
            1 => Some(2),
            _ => None,
        }
    }

    fn countable(&self) -> bool {
        (1..=8).contains(&self.clients) && (1..=64).contains(&self.steps)
    }

    /// How many blocks the counts want; none where no sequence has such counts.
    pub fn wanted(&self) -> Option<usize> {
        self.countable().then(|| block_count(self.clients, self.steps))
    }

    /// What the block of this place holds. Where no sequence has such counts, every block but the first is left over.
    pub fn holds(&self, place: usize) -> &'static str {
        let wanted = self.wanted().unwrap_or(1);
        match place {
            0 => "the first block",
            _ if place >= wanted => "a block left over",
            _ if place < block_count(self.clients, 0) => "a block of records",
            _ => "a block of steps",
        }
    }

    /// Whether all blocks that are wanted are there: only then does it have records and steps.
    fn readable(&self) -> bool {
        self.wanted().map_or(false, |wanted| self.blocks.len() >= wanted)
    }

    /// The blocks of the records, and those of the steps.
    fn bodies(&self) -> (&[&'a [u8]], &[&'a [u8]]) {
        if !self.readable() {
            return (&[], &[]);
        }
        let first_step = block_count(self.clients, 0);
        (&self.blocks[1..first_step], &self.blocks[first_step..block_count(self.clients, self.steps)])
    }

    pub fn records(&self) -> Vec<&'a [u8]> {
        let places = self.bodies().0.iter().flat_map(|block| block[..RECORDS * RECORD].chunks(RECORD));
        places.take(self.clients).collect()
    }

    pub fn steps(&self) -> Vec<&'a [u8]> {
        let places = self.bodies().1.iter().flat_map(|block| block[..STEPS * STEP].chunks(STEP));
        places.take(self.steps).collect()
    }

    /// What comes after the last record or the last step of each block, up to its check: `each` of `bytes` are in a full one.
    fn behind(blocks: &[&'a [u8]], count: usize, each: usize, bytes: usize) -> Vec<&'a [u8]> {
        let used = |place: usize| (count - place * each).min(each) * bytes;
        blocks.iter().enumerate().map(|(place, block)| &block[used(place)..WORDS]).collect()
    }

    fn behind_records(&self) -> Vec<&'a [u8]> {
        Laid::behind(self.bodies().0, self.clients, RECORDS, RECORD)
    }

    fn behind_steps(&self) -> Vec<&'a [u8]> {
        Laid::behind(self.bodies().1, self.steps, STEPS, STEP)
    }

    fn any_record(&self, so: impl Fn(&[u8]) -> bool) -> bool {
        self.records().into_iter().any(so)
    }

    fn any_step(&self, so: impl Fn(&[u8]) -> bool) -> bool {
        self.steps().into_iter().any(so)
    }

    fn records_of(&self, slot: u8) -> usize {
        self.records().into_iter().filter(|record| record[0] == slot).count()
    }

    fn steps_of(&self, slot: u8) -> usize {
        self.steps().into_iter().filter(|step| step[0] == slot).count()
    }
}

fn filled(bytes: &[u8]) -> bool {
    bytes.iter().any(|&byte| byte != 0)
}

fn version_label(record: &[u8]) -> &[u8] {
    &record[20..20 + usize::from(record[1]).min(LABEL)]
}

fn configuration_label(record: &[u8]) -> &[u8] {
    &record[84..84 + usize::from(record[2]).min(LABEL)]
}

/// Document 01, code 0A: "a version label byte outside 20–7E and A0–FF or one of the eleven characters that A.3 forbids"
pub fn forbidden(byte: u8) -> bool {
    !matches!(byte, 0x20..=0x7E | 0xA0..=0xFF) || b"\\\"'`/:*<>|?".contains(&byte)
}

type Reason = (&'static str, fn(&Laid) -> bool);

/// Number 17: each reason by itself, whatever the others say. What no block or too few of them hold is at no fault.
pub const REASONS: &[Reason] = &[
    // "a length that is no number of whole blocks, or none at all"
    ("no block", |it| it.length == 0),
    ("a part of a block", |it| it.length % BLOCK != 0),
    // "counts [..] out of range (1 to 8 clients, 1 to 64 steps [..])"
    ("no client", |it| !it.blocks.is_empty() && it.clients == 0),
    ("more than 8 clients", |it| it.clients > 8),
    ("no step", |it| !it.blocks.is_empty() && it.steps == 0),
    ("more than 64 steps", |it| it.steps > 64),
    // "an unknown edition gives 17"
    ("an unknown edition", |it| it.edition().is_none()),
    // "blocks missing or left over"
    ("blocks missing", |it| it.wanted().map_or(false, |wanted| it.blocks.len() < wanted)),
    ("blocks left over", |it| it.wanted().map_or(false, |wanted| it.blocks.len() > wanted)),
    // "fields out of range": "slot at most 7, state at most 63, distance 0 or 1, label lengths 1 to 63, version label
    // bytes as in code 0A, mark at most 35,999 ticks or [..] 2,359,194,465 mm".
    ("a slot above 7", |it| it.any_record(|record| record[0] > 7) || it.any_step(|step| step[0] > 7)),
    ("a version label of 0 bytes", |it| it.any_record(|record| record[1] == 0)),
    ("a version label of more than 63 bytes", |it| it.any_record(|record| record[1] > 63)),
    ("a configuration label of 0 bytes", |it| it.any_record(|record| record[2] == 0)),
    ("a configuration label of more than 63 bytes", |it| it.any_record(|record| record[2] > 63)),
    ("a byte that no version label has", |it| it.any_record(|record| version_label(record).iter().any(|&byte| forbidden(byte)))),
    ("a state above 63", |it| it.any_step(|step| step[2] > 63)),
    ("a distance above 1", |it| it.any_step(|step| step[3] > 1)),
    ("a mark above 35,999 ticks", |it| it.any_step(|step| step[3] == 0 && number_at(step, 4) > MOST_TICKS)),
    ("a mark above 2,359,194,465 mm", |it| it.any_step(|step| step[3] == 1 && number_at(step, 4) > MOST_MILLIMETRES)),
    // "fill not zero": "Everything not named is fill, zero." "Bytes after a label's length are zero."
    ("fill of the first block", |it| it.blocks.first().map_or(false, |first| filled(&first[12..WORDS]))),
    ("byte 3 of a record", |it| it.any_record(|record| record[3] != 0)),
    ("bytes after a version label", |it| it.any_record(|record| filled(&record[20 + version_label(record).len()..83]))),
    ("byte 83 of a record", |it| it.any_record(|record| record[83] != 0)),
    ("bytes after a configuration label", |it| it.any_record(|record| filled(&record[84 + configuration_label(record).len()..147]))),
    ("byte 147 of a record", |it| it.any_record(|record| record[147] != 0)),
    ("fill after the records of a block", |it| it.behind_records().into_iter().any(filled)),
    ("bytes 12 to 15 of a step", |it| it.any_step(|step| filled(&step[12..]))),
    ("fill after the steps of a block", |it| it.behind_steps().into_iter().any(filled)),
    // "a slot twice", "a step without its client's record or a record without a step"
    ("a slot twice", |it| it.any_record(|record| it.records_of(record[0]) > 1)),
    ("a step without its client's record", |it| it.any_step(|step| it.records_of(step[0]) == 0)),
    ("a record without a step", |it| it.any_record(|record| it.steps_of(record[0]) == 0)),
];

/// Every reason for 17 that holds of these bytes.
pub fn reasons(bytes: &[u8]) -> Vec<&'static str> {
    let laid = Laid::new(bytes);
    REASONS.iter().filter(|(_, holds)| holds(&laid)).map(|(name, _)| *name).collect()
}

/// The sequence of blocks that are at no fault: "read in any order", it has its records by slot.
pub fn read(bytes: &[u8]) -> Sequence {
    let laid = Laid::new(bytes);
    let edition = laid.edition().unwrap_or(0);
    let clients = laid.records().into_iter().map(|record| (usize::from(record[0]), identity(record))).collect();
    Sequence { edition, steps: laid.steps().into_iter().map(read_step).collect(), clients }
}

fn identity(record: &[u8]) -> Identity {
    Identity {
        name: wide_at(record, 4),
        master_name: wide_at(record, 12),
        version_label: version_label(record).to_vec(),
        configuration_label: configuration_label(record).to_vec(),
    }
}

fn read_step(step: &[u8]) -> Step {
    let mark = number_at(step, 4);
    let mark = if step[3] == 1 { Mark::Millimetres(mark) } else { Mark::Ticks(mark) };
    Step { slot: usize::from(step[0]), function: step[1], state: step[2], value: number_at(step, 8), mark }
}

impl Master {
    /// The bytes that a store writes: none with no sequence.
    pub fn stored_bytes(&self) -> usize {
        match self.sequence.steps.len() {
            0 => 0,
            steps => BLOCK * block_count(self.sequence.clients.len(), steps),
        }
    }

    /// "Storing: 1 where fewer bytes are lent than the sequence's blocks (none for no sequence), 2, 7. Bytes past the
    /// blocks stay. The state does not change."
    pub fn store(&mut self, out: &mut [u8]) -> Outcome {
        let needed = self.stored_bytes();
        model::room(out, needed)?;
        self.ready()?;
        if needed == 0 {
            return model::refuse(7);
        }
        out[..needed].copy_from_slice(&of(&self.sequence));
        Ok(Done { count: needed as u32, rule: "" })
    }

    /// "Loading: 2; then 16 where the check of any whole lent block is wrong [..]; then 17 for all else". "Loaded, the
    /// sequence is replaced and nothing else changes".
    pub fn load(&mut self, bytes: &[u8]) -> Outcome {
        self.ready()?;
        if !wrong_checks(bytes).is_empty() {
            return model::refuse(16);
        }
        match reasons(bytes)[..] {
            [] => {}
            [only] => return model::refuse_by(17, only),
            _ => return model::refuse_by(17, "for several reasons"),
        }
        self.sequence = read(bytes);
        model::done()
    }
}
