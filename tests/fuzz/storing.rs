//! Blocks of stored sequences: known ones, their records in another order, with edits, damaged by any reason, or any bytes; and the mode that
//! loads them into a master.

use crate::blocks::{self, DAMAGES};
use crate::decode::Bytes;
use crate::entry::found;
use crate::event::Event;
use crate::generate::Random;
use crate::pair::Pair;
use crate::pools::edited;
use crate::recording::Sequence;
use crate::stored::{self, BLOCK};
use std::rc::Rc;

const SEED: u64 = 11_783;
/// Clients and steps of the sequences that are known, of both editions in turn: the least, the largest, and those at whose counts a block is full.
const COUNTS: [(usize, usize); 8] = [(1, 1), (8, 64), (2, 5), (3, 31), (4, 32), (6, 62), (7, 63), (1, 64)];
/// Enough for every sequence.
const ROOM: usize = 3_584;

/// Where blocks come from, by the second byte of an input of this mode, or of LOAD: one more than each makes the checks right again.
pub const OWN: u8 = 0;
pub const KNOWN: u8 = 32;
pub const TURNED: u8 = 64;
pub const DAMAGED: u8 = 96;
pub const ANY: u8 = 224;

pub struct Known {
    sequences: Vec<Sequence>,
}

impl Known {
    pub fn new() -> Known {
        let mut random = Random::new(SEED);
        let mut sequences = COUNTS.map(|(clients, steps)| blocks::sequence(&mut random, clients, steps));
        sequences.iter_mut().zip([1, 2].iter().cycle()).for_each(|(sequence, &edition)| sequence.edition = edition);
        Known { sequences: sequences.into() }
    }

    fn sequence(&self, which: u8) -> &Sequence {
        &self.sequences[usize::from(which) % COUNTS.len()]
    }

    /// Blocks by the bytes of an input: `own` are those that were stored last, if any. Then as many edits as a byte says, up to so many.
    pub fn blocks(&self, bytes: &mut Bytes, own: &[u8], edits: usize) -> Vec<u8> {
        let source = bytes.byte();
        let mut blocks = match source {
            OWN..=31 if !own.is_empty() => own.to_vec(),
            OWN..=63 => stored::of(self.sequence(source / 2)),
            TURNED..=95 => blocks::another_order(self.sequence(source / 2), &mut Random::new(bytes.byte().into())),
            DAMAGED..=223 => {
                let (which, chance) = (bytes.byte(), bytes.byte());
                let damage = DAMAGES[usize::from((source - DAMAGED) / 2) % DAMAGES.len()].1;
                blocks::damaged(self.sequence(which), damage, &mut Random::new(chance.into()))
            }
            ANY..=255 => any_blocks(bytes),
        };
        let edits = usize::from(bytes.byte()) % (edits + 1);
        blocks = edited(blocks, bytes, edits);
        if source % 2 == 1 {
            blocks::mend(&mut blocks);
        }
        blocks
    }
}

/// So many bytes of the input at a place of so many blocks of zeros, and a part of one more.
fn any_blocks(bytes: &mut Bytes) -> Vec<u8> {
    let (count, part) = (usize::from(bytes.byte() % 9), usize::from(bytes.byte()));
    let (place, length) = (usize::from(bytes.wide()), usize::from(bytes.byte()));
    let mut blocks = vec![0; BLOCK * count + if part < 192 { 0 } else { part }];
    let place = place % (blocks.len() + 1);
    for (byte, &other) in blocks[place..].iter_mut().zip(bytes.take(length)) {
        *byte = other;
    }
    blocks
}

/// The mode: blocks are loaded into a master that has a sequence or none. What is accepted is stored, and then loaded and stored again to the
/// same bytes.
pub fn judge(pair: &mut Pair, known: &Known, bytes: &mut Bytes) {
    pair.begin();
    pair.event(&Event::On);
    let (before, edits) = (bytes.byte(), 8);
    if before >= 128 {
        pair.event(&Event::Load { blocks: Rc::new(stored::of(known.sequence(before))) });
    }
    let blocks = known.blocks(bytes, &[], edits);
    if pair.event(&Event::Load { blocks: Rc::new(blocks) }) == 0 {
        let first = store(pair);
        if pair.event(&Event::Load { blocks: Rc::new(first.clone()) }) != 0 || store(pair) != first {
            found("what was stored is not loaded and stored again to the same bytes");
        }
    }
    pair.end();
}

fn store(pair: &mut Pair) -> Vec<u8> {
    let written = pair.model.stored_bytes();
    if pair.event(&Event::Store { room: ROOM }) != 0 {
        found("a sequence that was loaded is not stored");
    }
    pair.lent[..written].to_vec()
}
