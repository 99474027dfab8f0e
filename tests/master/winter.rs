//! Request 1 of document 02 as fixed runs, with what they must give written out: sequences that are stored, and loaded by
//! this master and by another one, and blocks that are refused. Each event is compared with the model too, as in every run.

use super::blocks::{self, Damage, DAMAGES};
use super::cases::{done, legal_pool, must_be, DISTANCE, TIME};
use super::event::Event;
use super::generate::{Pool, Random};
use super::library;
use super::model::State;
use super::recording::{Mark, Sequence};
use super::run::Run;
use super::stored;
use std::rc::Rc;

/// Bytes of the least sequence, and of the largest.
pub const LEAST: usize = 3 * 512;
pub const LARGEST: usize = 7 * 512;

pub fn all(run: &mut Run) {
    written_out(run);
    september(run);
    numbers(run);
    counts(run);
    refused(run);
    first_words(run);
}

/// Its NAME is 00000002 00000001, its master NAME 00000004 00000003, its labels are "A" and "B".
fn pool() -> Pool {
    let mut pool = legal_pool();
    let base = pool.base();
    base.mask = u64::MAX;
    base.master_name = 0x0000_0004_0000_0003;
    (base.version_label, base.configuration_label) = (b"A".to_vec(), b"B".to_vec());
    pool
}

const NAME: u64 = 0x0000_0002_0000_0001;

fn client(run: &mut Run, slot: usize, pool: &Pool) {
    done(run, Event::Attach { slot, name: NAME + slot as u64 - 2, pool: Rc::new(pool.bytes()) });
    done(run, Event::Enable { slot, room: 8 });
    done(run, Event::Report { slot, report: 1 });
}

pub fn one_shot(run: &mut Run, slot: usize, function: u8, tan: u8, value: u32) {
    let mut message = vec![0x32, function, 0x02, tan];
    message.extend(value.to_le_bytes());
    done(run, Event::Indication { slot, message, room: 8 });
}

pub fn ticks(run: &mut Run, count: u32, millimetres: u32) {
    (0..count).for_each(|_| done(run, Event::Tick { millimetres, room: 576 }));
}

/// A new master that is ready.
pub fn fresh(run: &mut Run) {
    run.begin(0);
    done(run, Event::On);
}

/// A client in slot 2 has recorded one step at tick 3, with a value of 240.
pub fn recorded(run: &mut Run) {
    fresh(run);
    client(run, 2, &pool());
    done(run, Event::Record);
    done(run, Event::Report { slot: 2, report: 2 });
    ticks(run, 3, 0);
    one_shot(run, 2, TIME, 0, 240);
    done(run, Event::Stop);
    done(run, Event::Report { slot: 2, report: 1 });
}

pub fn store(run: &mut Run, room: usize) -> Vec<u8> {
    let given = run.event(Event::Store { room });
    must_be("store", given.number, 0);
    run.lent[..given.count as usize].to_vec()
}

pub fn load(run: &mut Run, blocks: &[u8]) -> u8 {
    run.event(Event::Load { blocks: Rc::new(blocks.to_vec()) }).number
}

/// The words of a block: so many, each at its place, and the check.
pub fn block(words: &[(usize, u32)], check: u32) -> Vec<u8> {
    let mut block = [0; 128];
    words.iter().for_each(|&(place, word)| block[place] = word);
    block[127] = check;
    block.map(u32::to_le_bytes).concat()
}

/// One client and one step are three blocks, all of whose words are these.
fn written_out(run: &mut Run) {
    recorded(run);
    let counts = block(&[(0, 1), (1, 1)], 1 + 1 + 1);
    let names = [(1, 0x0000_0001), (2, 0x0000_0002), (3, 0x0000_0003), (4, 0x0000_0004)];
    let record = [&[(0, 0x0001_0102)], &names[..], &[(20 / 4, 0x41), (84 / 4, 0x42)]].concat();
    let step = [(0, 0x0002_0502), (1, 3), (2, 240)];
    let wanted = [counts, block(&record, 0x0001_0191), block(&step, 0x0002_05F8)].concat();
    must_be("the blocks", store(run, LEAST), wanted.clone());
    must_be("the same once more", store(run, LARGEST), wanted);
}

/// The frames of each of so many ticks.
fn frames(run: &mut Run, count: u32) -> Vec<Vec<u8>> {
    let mut frames = Vec::new();
    for _ in 0..count {
        let given = run.event(Event::Tick { millimetres: 0, room: 576 });
        frames.push(run.lent[..9 * given.count as usize].to_vec());
    }
    frames
}

/// "Drivers want September's plot end in March." Another master loads what one has stored; its client is attached before or
/// after, with a pool that would record by distance now. It replays the step with its value at its tick.
fn september(run: &mut Run) {
    recorded(run);
    let blocks = store(run, LEAST);
    let mut later = pool();
    later.functions.iter_mut().for_each(|function| function.preferred_trigger = 2);
    for before in [true, false] {
        fresh(run);
        if before {
            client(run, 2, &later);
        }
        must_be("load", load(run, &blocks), 0);
        if !before {
            must_be("start without the client", run.event(Event::Start).number, 8);
            client(run, 2, &later);
        }
        must_be("verified", library::verify(run.library()).0, 0);
        done(run, Event::Start);
        let command = vec![2, 0x33, TIME, 2, 1, 240, 0, 0, 0];
        must_be("replayed", frames(run, 4), vec![vec![], vec![], command, vec![]]);
        done(run, Event::Answer { slot: 2, message: vec![0x34, TIME, 0x82, 0, 1, 0xFF, 0xFF, 0xFF], room: 8 });
        must_be("state", run.model.state == State::Ready, true);
        must_be("stored again", store(run, LEAST), blocks.clone());
    }
    strangers(run, &blocks);
}

/// "A loaded sequence passes verification before it plays".
fn strangers(run: &mut Run, blocks: &[u8]) {
    let (mut other_master, mut other_label, mut other_function) = (pool(), pool(), pool());
    other_master.base().master_name ^= 1;
    other_label.base().version_label[0] = b'a';
    other_function.functions.iter_mut().filter(|function| function.function_id == TIME).for_each(|function| function.function_id = DISTANCE + 1);
    for (pool, number) in [(other_master, 9), (other_label, 10), (other_function, 11)] {
        fresh(run);
        client(run, 2, &pool);
        must_be("load", load(run, blocks), 0);
        must_be("start of another", run.event(Event::Start).number, number);
        records_on(run, number);
    }
}

/// The client records a step of another function, which stays open, and cancels it: the loaded sequence stays, and its
/// verification with it.
fn records_on(run: &mut Run, number: u8) {
    let verified = |run: &mut Run| {
        must_be("verified", library::verify(run.library()).0, number);
        run.compare_verification();
    };
    let sequence = run.model.sequence.clone();
    done(run, Event::Record);
    done(run, Event::Report { slot: 2, report: 2 });
    verified(run);
    done(run, Event::Indication { slot: 2, message: vec![0x32, DISTANCE, 0x42, 0, 9, 9, 9, 9], room: 8 });
    done(run, Event::Stop);
    must_be("in record complete", matches!(run.model.state, State::RecordComplete(_)), true);
    verified(run);
    done(run, Event::Cancel);
    must_be("the loaded sequence", run.model.sequence == sequence, true);
}

/// 1, 2 and 7 of a store, and 2, 16 and 17 of a load, each before the next.
fn numbers(run: &mut Run) {
    recorded(run);
    let blocks = store(run, LEAST);
    let (mut wrong, mut odd) = (blocks.clone(), blocks.clone());
    wrong[700] ^= 1;
    odd.push(0);
    run.begin(0);
    let stores = |run: &mut Run, room: usize, number: u8| must_be("store", run.event(Event::Store { room }).number, number);
    let loads = |run: &mut Run, blocks: &[u8], number: u8| must_be("load", load(run, blocks), number);
    [0, LARGEST].iter().for_each(|&room| stores(run, room, 2));
    [&blocks, &wrong, &odd, &Vec::new()].iter().for_each(|blocks| loads(run, blocks, 2));
    done(run, Event::On);
    [0, LARGEST].iter().for_each(|&room| stores(run, room, 7));
    loads(run, &wrong, 16);
    loads(run, &odd, 17);
    loads(run, &[&wrong[..], &[0]].concat(), 16);
    loads(run, &[], 17);
    loads(run, &blocks, 0);
    [(0, 1), (LEAST - 1, 1), (LEAST, 0), (LEAST + 1, 0)].iter().for_each(|&(room, number)| stores(run, room, number));
    client(run, 2, &pool());
    done(run, Event::Start);
    stores(run, LEAST - 1, 1);
    stores(run, LEAST, 2);
    loads(run, &wrong, 2);
    loads(run, &odd, 2);
}

/// All counts of clients, and of steps those about a full block; the records in any order.
fn counts(run: &mut Run) {
    let mut random = Random::new(1);
    fresh(run);
    for clients in 1..=8 {
        for steps in [clients, 9, 30, 31, 32, 61, 62, 63, 64] {
            let sequence = edges(blocks::sequence(&mut random, clients, steps), &mut random);
            let blocks = stored::of(&sequence);
            must_be("blocks", blocks.len(), 512 * (1 + [0, 1, 1, 1, 2, 2, 2, 3, 3][clients] + if steps > 62 { 3 } else { 1 + steps / 32 }));
            must_be("load", load(run, &blocks::another_order(&sequence, &mut random)), 0);
            must_be("stored", store(run, blocks.len()), blocks.clone());
            must_be("load", load(run, &blocks), 0);
        }
    }
}

/// The least and the greatest that each field may be.
fn edges(mut sequence: Sequence, random: &mut Random) -> Sequence {
    for client in sequence.clients.values_mut() {
        let lengths = [1, 1, 63, 63].map(|length| vec![b'x'; length]);
        client.version_label = lengths[random.below(4)].clone();
        client.configuration_label = lengths[random.below(4)].clone();
    }
    for step in &mut sequence.steps {
        step.mark = random.pick(&[Mark::Ticks(0), Mark::Ticks(35_999), Mark::Millimetres(0), Mark::Millimetres(2_359_194_465)]);
        (step.function, step.state) = (random.pick(&[0, 255]), random.pick(&[0, 63]));
        step.value = random.pick(&[0, u32::MAX]);
    }
    sequence
}

/// Each kind of damage, by the reason that it is named for.
fn refused(run: &mut Run) {
    let mut random = Random::new(2);
    fresh(run);
    must_be("load", load(run, &stored::of(&blocks::sequence(&mut random, 2, 3))), 0);
    for (clients, steps) in [(1, 1), (2, 40), (5, 33), (8, 64)] {
        for &(reason, damage) in DAMAGES {
            for _ in 0..3 {
                let sequence = blocks::sequence(&mut random, clients, steps);
                let bytes = blocks::damaged(&sequence, damage, &mut random);
                let number = load(run, &bytes);
                if let Some(reason) = reason {
                    must_be(reason, (number, stored::reasons(&bytes).contains(&reason)), (17, true));
                }
                if let Damage::Checks(_) = damage {
                    must_be("a check", number == 16, !stored::wrong_checks(&bytes).is_empty());
                }
            }
        }
    }
}

/// Each bit of the eight bytes that count and of the edition, the check made right again. Another count of steps is taken
/// where the fill that becomes a step is one of slot 0; the lowest bit of the edition makes it the other one.
fn first_words(run: &mut Run) {
    let mut random = Random::new(3);
    fresh(run);
    let mut sequence = blocks::sequence(&mut random, 3, 9);
    for slot in [0, 1] {
        let lowest = *sequence.clients.keys().next().unwrap();
        let client = sequence.clients.remove(&lowest).unwrap();
        sequence.clients.insert(slot, client);
        sequence.steps.iter_mut().filter(|step| step.slot == lowest).for_each(|step| step.slot = slot);
        let taken: Vec<usize> = (0..96).filter(|&bit| load(run, &other_word(&sequence, bit)) == 0).collect();
        must_be("other words", taken, if slot == 0 { vec![33, 34, 36, 64] } else { vec![64] });
    }
}

fn other_word(sequence: &Sequence, bit: usize) -> Vec<u8> {
    let mut bytes = stored::of(sequence);
    bytes[bit / 8] ^= 1 << (bit % 8);
    blocks::mend(&mut bytes);
    bytes
}
