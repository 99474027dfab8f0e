//! The inputs to begin with, in words: nothing binary is kept, and an operation that changes its operands changes them here too.

use crate::decode::op::*;
use crate::blocks::DAMAGES;
use crate::entry::{BLOCKS, MASTER, MESSAGE, POOL, SHOWN};
use crate::pools::OBJECTS;
use crate::samples::CHANGES;
use crate::storing::{ANY, DAMAGED, KNOWN, OWN, TURNED};

/// Reports by their place in the table of decode.rs.
const READY: u8 = 0;
const RECORDS: u8 = 1;
const DISABLED: u8 = 2;
const PLAYS: u8 = 3;
const ABORTS: u8 = 4;
/// The statuses of E.4 where INDICATE has them.
const STARTS: u8 = 64;
/// And where GO_ON and ANSWER have them.
const ONCE: u8 = 0;
const STARTED: u8 = 1;
const FINISHED: u8 = 2;
const FAILED: u8 = 3;
/// A value of 32 bits where INDICATE and GO_ON have it.
const VALUE: u8 = 24;
const ITS_VALUE: u8 = 12;

/// Two clients, enabled and ready.
const CLIENTS: &[u8] = &[ON, ATTACH, 0, 0, 0, ATTACH, 1, 1, 0, ENABLE, 0, ENABLE, 1, ALL_REPORT, READY];
/// A recording of a one-shot step, a started and finished one and one of the other client, with ticks between.
#[rustfmt::skip]
const RECORDING: &[u8] = &[
    RECORD, ALL_REPORT, RECORDS, INDICATE, 0, VALUE, 1, TICKS, 3, 4, INDICATE, STARTS, 0, 2, TICK, 3, GO_ON, 1, FINISHED + ITS_VALUE,
    INDICATE, 1, VALUE, 1, STOP, ALL_REPORT, READY,
];

/// What is refused in record, record complete, playback and abort.
const NOT_NOW: &[u8] = &[ON, OFF, ATTACH, 5, 2, 0, ENABLE, 0, DISABLE, 1, RECORD, START, LOST, 7, REPORT, 7, RAW, 8, 2, 0x34, 5, RAW, 0, 1, 0x32];
/// The same three steps, each answered "started".
const ALL_STARTED: &[u8] = &[START, TICKS, 3, 7, ANSWER, 0, STARTED, ANSWER, 1, STARTED, ANSWER, 2, STARTED];
/// Client 0 is lost and comes back; the sixth byte says changed in what.
const BACK: [u8; 19] =
    [LOST, 0, ATTACH, 0, 0, 0, ENABLE, 0, ALL_REPORT, READY, START, TICK, 0, ABORT, ALL_REPORT, ABORTS, ALL_REPORT, READY, READERS];
/// So many ways a client comes back, itself among them; damaged ones follow.
const CHANGED: u8 = CHANGES.len() as u8;
/// To tick 36,000.
const TO_THE_END: &[u8] = &[SKIP, 0, 0xA0, 0x8C, TICKS, 0, 4];

fn master(parts: &[&[u8]]) -> Vec<u8> {
    [&[MASTER], &parts.concat()[..]].concat()
}

pub fn seeds() -> Vec<Vec<u8>> {
    [recordings(), playbacks(), others(), stores(), editions(), pools(), messages(), blocks(), shown()].concat()
}

fn recordings() -> Vec<Vec<u8>> {
    let open = &[RECORD, ALL_REPORT, RECORDS, INDICATE, STARTS, VALUE, 9, INDICATE, 0, VALUE, 9, STOP];
    let finished = &[INDICATE, 0, 0, 3, GO_ON, 0, FINISHED + ITS_VALUE];
    let failed = &[GO_ON, 0, FAILED, GO_ON, 0, STARTED, GO_ON, 0, FINISHED, STOP];
    let repeated =
        &[RECORD, ALL_REPORT, RECORDS, INDICATE, 0, VALUE, 1, GO_ON, 0, ONCE, GO_ON, 0, STARTED, INDICATE, STARTS, 0, 2, GO_ON, 1, FINISHED];
    let unknown = &[GO_ON, 1, FINISHED, GO_ON, 1, STARTED, INDICATE, 56, 0, 7, INDICATE, 0, 6, 8, INDICATE, 128, 0, 9, STOP];
    let full = &[RECORD, ALL_REPORT, RECORDS, INDICATE, STARTS, 0, 200, GO_ON, 0, FAILED, MANY, 0, VALUE, 0, 62, INDICATE, 0, 0, 100, STOP];
    let dropped = &[RECORD, ALL_REPORT, RECORDS, INDICATE, 0, VALUE, 1, INDICATE, STARTS + 1, 0, 2, GO_ON, 1, FAILED, STOP, ALL_REPORT, READY];
    let each = |function: u8| [INDICATE, 8 * function, VALUE, function, INDICATE, 8 * function + 1, VALUE, function, TICK, 3];
    let functions = [&[RECORD, ALL_REPORT, RECORDS, TICK, 3][..], &each(0), &each(1), &each(2), &each(3), &[STOP, ALL_REPORT, READY, START]].concat();
    vec![
        master(&[CLIENTS, &functions, &[PLAY, 3, 12]]),
        master(&[CLIENTS, dropped, &dropped[..3], &dropped[7..11], &[GO_ON, 0, FAILED, STOP, START]]),
        master(&[CLIENTS, open, NOT_NOW, finished]),
        master(&[CLIENTS, &open[..11], NOT_NOW, failed, &[CANCEL]]),
        master(&[CLIENTS, RECORDING, repeated, unknown, &[CANCEL, STOP, ABORT]]),
        master(&[CLIENTS, RECORDING, full]),
        master(&[CLIENTS, open, TO_THE_END]),
        master(&[CLIENTS, RECORDING, &open[..7], TO_THE_END]),
        master(&[CLIENTS, open, &[REPORT, 16, REPORT, 17]]),
        master(&[CLIENTS, &open[..11], &[LOST, 1, DISABLE, 0, REPORT, 16, OFF]]),
    ]
}

fn playbacks() -> Vec<Vec<u8>> {
    let played = &[START, ALL_REPORT, PLAYS, TICK, 0, ANSWER, 0, STARTED, TICKS, 3, 1, ANSWER, 0, FINISHED, ANSWER, 1, ONCE, PLAY, 3, 12];
    let late = &[START, TICKS, 3, 20, ALL_REPORT, ABORTS, TICK, 0, ALL_REPORT, READY, START, ABORT];
    let broken = &[START, TICK, 0, ANSWER, 0, FAILED, ALL_REPORT, ABORTS, ALL_REPORT, READY, START, TICK, 0, GO_ON, 0, FAILED];
    let unmatched = &[START, TICK, 3, ANSWER, 0, 128, ANSWER, 0, 160, ANSWER, 0, 192, ANSWER, 0, 224, ANSWER, 0, STARTED, ANSWER, 0, STARTED];
    let done = &[ANSWER, 0, FINISHED, ANSWER, 0, FAILED, ANSWER, 0, 24, CLIENT_ABORT, 7, INDICATE, 48 + 192, 0, 1, CLIENT_ABORT, 0];
    let full = &[RECORD, ALL_REPORT, RECORDS, MANY, 0, VALUE, 0, 63, STOP, ALL_REPORT, READY];
    let error = |status: u8| [START, TICK, 3, ANSWER, 0, 16 + status, ALL_REPORT, ABORTS, ALL_REPORT, READY];
    let crowded = &[START, TICKS, 0, 15, ANSWER, 15, FINISHED, TICK, 0, ANSWER, 15, STARTED, TICK, 0, TICK, 0];
    let in_turn = &[START, TICK, 0, TICK, 0, TICK, 0, ANSWER, 0, STARTED, TICKS, 0, 1, ANSWER, 1, FINISHED, TICKS, 0, 5];
    let at_once = &[START, TICK, 0, TICK, 0, ABORT, ALL_REPORT, ABORTS, ALL_REPORT, READY];
    let again = &[START, PLAY, 0, 64, ALL_REPORT, READY];
    let back = |variant: u8| [&BACK[..5], &[variant], &BACK[6..]].concat();
    vec![
        master(&[CLIENTS, RECORDING, played, &[READERS]]),
        master(&[CLIENTS, RECORDING, late]),
        master(&[CLIENTS, RECORDING, broken]),
        master(&[CLIENTS, RECORDING, &error(ONCE), &error(STARTED), &error(FINISHED), &error(FAILED)]),
        master(&[CLIENTS, RECORDING, unmatched, done]),
        master(&[CLIENTS, RECORDING, ALL_STARTED, NOT_NOW, &[STOP, CANCEL, LOST, 0], NOT_NOW, &[STOP, CANCEL, ABORT, LOST, 1]]),
        master(&[CLIENTS, RECORDING, ALL_STARTED, TO_THE_END]),
        master(&[CLIENTS, full, crowded]),
        master(&[CLIENTS, full, in_turn, &[ABORT, ALL_REPORT, ABORTS, ALL_REPORT, READY], at_once, at_once, at_once]),
        master(&[CLIENTS, full, &again.repeat(4)]),
        master(&[CLIENTS, RECORDING, &back(0), &back(1), &back(2), &back(3)]),
        master(&[CLIENTS, RECORDING, &back(4), &back(5), &back(6), &back(7)]),
        master(&[CLIENTS, RECORDING, &back(8), &back(10), &back(12), &back(13)]),
    ]
}

fn others() -> Vec<Vec<u8>> {
    let third = &[ATTACH, 2, 2, 0, ENABLE, 2, RECORD, REPORT, 2, CANCEL, DISABLE, 2, REPORT, 10, DISABLE, 2, REPORT, 18, ENABLE, 2, ENABLE, 2];
    let disturbed = &[START, CLIENT_ABORT, 2, REPORT, 34, ABORT, CLIENT_ABORT, 0, REPORT, 2, ALL_REPORT, ABORTS, TICK, 7];
    let silent = &[ATTACH, 2, 2, 0, ENABLE, 2, START];
    let aborted_too = &[REPORT, 34, ABORT, LOST, 2, ALL_REPORT, ABORTS, ALL_REPORT, READY];
    let alone = &[DISABLE, 1, RECORD, REPORT, 8, INDICATE, 0, VALUE, 1, STOP];
    let aborted = |then: [u8; 2]| [&[REPORT, 0, START, REPORT, 32][..], &then].concat();
    let orders = &[LEND, 0, ENABLE, 7, LEND, 0, RAW, 0, 1, 0x32, LEND, 40, DISABLE, 0, LEND, 0, TICK, 9, TICK, 9, LEND, 100, TICK, 0, REPORT, 47];
    let faults: Vec<u8> = (0..48).flat_map(|place| [ATTACH, 5, 2, CHANGED + place]).collect();
    let refused = &[LEND, 0, TICK, 0, FAR, 2, ENABLE, 0, SPOIL, 0, 1, ANSWER, 0, 0, RAW, 0, 3, 0x32, 5, 2, OFF, CANCEL, LOST, 7, ABORT, STOP];
    vec![
        master(&[NOT_NOW, &[STOP, CANCEL, TICK, 0, INDICATE, 0, 0, 0]]),
        master(&[CLIENTS, refused, &[DISABLE, 0, REPORT, 0, EDITED, 3, 2, 0, 0, 40, 0, 7, ALL_REPORT, DISABLED, OFF]]),
        master(&[CLIENTS, third, RECORDING, disturbed]),
        master(&[CLIENTS, RECORDING, silent, aborted_too, silent, &[ABORT, REPORT, 2]]),
        master(&[CLIENTS, alone, &aborted([REPORT, 1]), &aborted([TICK, 0]), &aborted([LOST, 1])]),
        master(&[orders, CLIENTS, orders, &[ATTACH, 0, 0, 0, ATTACH, 2, 128, 0]]),
        master(&[CLIENTS, &faults]),
    ]
}

/// What was recorded is stored, and loaded after another recording, in another place, after a client was lost; and what is refused.
fn stores() -> Vec<Vec<u8>> {
    let own = &[LOAD, OWN, 0];
    let short = &[LEND, 0, STORE, LEND, 40, STORE, LEND, 100, STORE, LEND, 140, STORE];
    let damaged = |place: u8| [LOAD, DAMAGED + 2 * (place % 64), 0, place, 0];
    let other = &[RECORD, ALL_REPORT, RECORDS, INDICATE, 0, VALUE, 7, STOP, ALL_REPORT, READY];
    let full = &[RECORD, ALL_REPORT, RECORDS, MANY, 0, VALUE, 0, 63, STOP, ALL_REPORT, READY];
    let played = &[START, PLAY, 3, 12, ALL_REPORT, READY];
    let back = |variant: u8| [&BACK[..5], &[variant], &BACK[6..]].concat();
    let refused: Vec<u8> = (0..8).flat_map(|place| damaged(7 * place)).collect();
    let in_turn = [&[RECORD, STORE, LOAD, OWN, 0, CANCEL, STORE][..], &[LOAD, KNOWN, 0, START, STORE]].concat();
    vec![
        master(&[&[STORE, LOAD, KNOWN, 0, ON, STORE, LOAD, KNOWN, 0, STORE]]),
        master(&[CLIENTS, RECORDING, &[STORE], other, own, played, own]),
        master(&[CLIENTS, RECORDING, short, &[STORE], &in_turn]),
        master(&[CLIENTS, full, &[STORE], RECORDING, own, &[START, PLAY, 0, 64]]),
        master(&[CLIENTS, RECORDING, &[STORE], &back(1), own, &back(7), own, &back(12)]),
        master(&[CLIENTS, RECORDING, &[STORE], &refused, own, &played[..2], &refused, &[STORE]]),
        master(&[CLIENTS, RECORDING, &[STORE, LOAD, OWN + 1, 1, 0, 0, 6, 7, LOAD, OWN, 1, 0, 0, 6, 8, START]]),
    ]
}

/// The sequence gets an edition, known and unknown, in every state; a client comes back with another identity number, under a mask that leaves it
/// open or asks for it; and the edition is stored, loaded, and lost by a recording.
fn editions() -> Vec<Vec<u8>> {
    let each: Vec<u8> = (0..8).flat_map(|place| [EDITION, 7 - place]).collect();
    let (first, second) = (&[EDITION, 1][..], &[EDITION, 0][..]);
    let back = |slot: u8, name: u8, variant: u8| [&[LOST, slot, ATTACH, slot, slot + 8 * name, variant, ENABLE, slot][..], &BACK[8..]].concat();
    let both = |slot: u8, name: u8, variant: u8| [second, &back(slot, name, variant), first, &BACK[8..]].concat();
    let changed = |slot: u8| [both(slot, 0, CHANGED - 2), both(slot, 0, CHANGED - 1), both(slot, 0, 3), both(slot, 0, 8), both(slot, 0, 12)].concat();
    let own = &[LOAD, OWN, 0][..];
    let in_turn = [&[STORE][..], second, own, second, &[STORE], own, first, own, &[STORE]].concat();
    let edited = |place: u8, mended: u8| [LOAD, OWN + mended, 1, 2, place, 0, 0, STORE];
    let edits = [edited(8, 1), edited(8, 0), edited(9, 1), edited(11, 1), edited(12, 1)].concat();
    let asleep = [OFF, DISABLE, 0, DISABLE, 1, ALL_REPORT, DISABLED, OFF, ON];
    vec![
        master(&[&each, &[ON, READERS], &each, CLIENTS, RECORDING, &each, &[RECORD], &each, &[CANCEL, START], &each, &[ABORT], &each, &[READERS]]),
        master(&[CLIENTS, RECORDING, &both(1, 28, 0), &both(1, 29, 0), &both(1, 30, 0), &both(1, 31, 0)]),
        master(&[CLIENTS, RECORDING, &changed(0)]),
        master(&[CLIENTS, RECORDING, &changed(1), second, &[LOST, 0, START, REPORT, 1, START]]),
        master(&[CLIENTS, RECORDING, &in_turn, RECORDING, &in_turn, &[RECORD, STOP, STORE, START, PLAY, 3, 12, READERS]]),
        master(&[CLIENTS, RECORDING, &[STORE], &edits, &[RECORD], &edited(9, 1)]),
        master(&[CLIENTS, RECORDING, second, &asleep, &[READERS, STORE, EDITION, 240, 2, 0, 0, 0]]),
    ]
}

/// Legal ones, one with a byte changed, one of zeros, and damaged ones; and objects that are written, as they are and with a field edited.
fn pools() -> Vec<Vec<u8>> {
    let mut seeds = vec![vec![POOL, 0, 0], vec![POOL, 1, 0, 0, 30, 0, 65], vec![POOL, 4, 0], [&[POOL, 128, 0][..], &[0; 30]].concat()];
    seeds.extend((0..24).map(|place| vec![POOL, 2, CHANGED + 2 * place]));
    seeds.extend((0..8).map(|object| vec![POOL, OBJECTS, object, 3 * object, 0]));
    seeds.extend((0..24).map(|field| vec![POOL, OBJECTS + field % 8, field % 7, 0, 0, field, 1, 0, 40, 0]));
    seeds
}

/// Bytes that each side sent, a transfer, and each kind by its fields.
fn messages() -> Vec<Vec<u8>> {
    let mut seeds = vec![
        vec![MESSAGE, 0, 0, 0x32, 0x05, 0x82, 0x00, 0xF0, 0, 0, 0],
        vec![MESSAGE, 0, 1, 0x01, 0, 5, 1, 2, 3, 4, 5],
        vec![MESSAGE, 0, 0, 0x34, 0x05, 0x82, 0x00, 0xFF, 0xFF, 0xFF, 0xFF],
        [&[MESSAGE, 230, 1, 0][..], &[7; 12]].concat(),
    ];
    seeds.extend((1..=25).map(|kind| [&[MESSAGE, 100, kind, 80][..], &[0, 7].repeat(10)].concat()));
    seeds
}

/// Known ones, their records in another order too, each kind of damage on the least and the largest, an edit with the checks made right and
/// without, and zeros.
fn blocks() -> Vec<Vec<u8>> {
    let mut seeds: Vec<Vec<u8>> = (0..8).map(|which| vec![BLOCKS, 128 * (which % 2), KNOWN + 2 * which, 0]).collect();
    seeds.extend((0..8).map(|which| vec![BLOCKS, 0, TURNED + 2 * which, which, 0]));
    for damage in 0..DAMAGES.len() as u8 {
        seeds.extend([0, 1].map(|which| vec![BLOCKS, 0, DAMAGED + 2 * damage, which, damage, 0]));
    }
    for place in [0, 4, 8, 9, 10, 11, 12] {
        seeds.extend([0, 1].map(|mended| vec![BLOCKS, 0, KNOWN + 4 + mended, 1, 0, place, 2, 9]));
    }
    seeds.extend((0..9).map(|count| vec![BLOCKS, 0, ANY + count % 2, count, 0, 0, 0, 8, 1, 0, 0, 0, 1, 0, 0, 0]));
    seeds
}

/// A value with each known scale and with each number of decimals; ties, from both sides of zero; too many decimals; and the greatest sum and the
/// least with the greatest scale, with one that just does not print as zero, and with any, into enough and not.
fn shown() -> Vec<Vec<u8>> {
    let (most, least) = ([0xFF, 0xFF, 0xFF, 0xFF, 0xFF, 0xFF, 0xFF, 0x7F], [0, 0, 0, 0, 0, 0, 0, 0x80]);
    let mut seeds: Vec<Vec<u8>> = (0..12).map(|scale| vec![SHOWN, 2 + 16 * scale, 240, 0, scale, 0]).collect();
    seeds.extend((0..8).map(|decimals| vec![SHOWN, 7, 1, 2, 3, 4, 5, decimals, 0]));
    seeds.extend([5, 7, 251, 249].map(|halves| vec![SHOWN, 4 + 16, halves, 0, 0]));
    seeds.extend([1, 3, 255, 253].map(|quarters| vec![SHOWN, 4 + 48, quarters, 1, 0]));
    seeds.push(vec![SHOWN, 3, 0xFF, 0xFF, 0xFF, 0xFF, 240, 8, 0, 0, 0, 0]);
    for (sum, lent) in [(most, 0), (least, 0), (most, 64), (least, 128), (most, 192)] {
        seeds.push([&[SHOWN, 15 + 128][..], &sum, &[7, lent]].concat());
        seeds.push([&[SHOWN, 15 + 240][..], &sum, &[0xFF, 0xFF, 0xFF, 0x23, 7, lent]].concat());
        seeds.push([&[SHOWN, 15 + 240][..], &sum, &[0xCD, 0xCC, 0x4C, 0x5E, 7, lent]].concat());
    }
    seeds
}
