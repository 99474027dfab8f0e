//! Request 11 of document 02 as fixed runs, with what they must give written out: who may replay a sequence of either edition,
//! how it gets its edition and keeps it, and a file from before there were editions. Each event is compared with the model
//! too, as in every run.

use super::blocks;
use super::cases::{done, legal_pool, must_be, BUT_IDENTITY, DISTANCE, DRILL, OTHER_MAKE, SISTER, TIME};
use super::event::Event;
use super::generate::Pool;
use super::library::{self, CheckView};
use super::model::State;
use super::recording::{Mark, Step};
use super::run::Run;
use super::screen::{back, client};
use super::winter::{block, fresh, load, one_shot, recorded, store, ticks, LARGEST, LEAST};

pub fn all(run: &mut Run) {
    replays(run);
    several_clients(run);
    numbers(run);
    written_out(run);
    unknown(run);
    recordings(run);
    september(run);
}

fn pool(master_name: u64, mask: u64) -> Pool {
    let mut pool = legal_pool();
    (pool.base().master_name, pool.base().mask) = (master_name, mask);
    pool
}

fn set(run: &mut Run, edition: u32) {
    done(run, Event::Edition { edition });
    must_be("the edition", library::sequence_edition(run.library()), edition);
}

fn verified(run: &mut Run, what: &str, number: u8, slot: usize) {
    must_be(what, library::verify(run.library()), (number, CheckView { slot, step: 0 }));
    run.compare_verification();
}

/// The clients record a step each, in turn, and report ready again.
fn recording(run: &mut Run, slots: &[usize]) {
    done(run, Event::Record);
    slots.iter().for_each(|&slot| done(run, Event::Report { slot, report: 2 }));
    slots.iter().for_each(|&slot| one_shot(run, slot, TIME, 0, 240));
    done(run, Event::Stop);
    slots.iter().for_each(|&slot| done(run, Event::Report { slot, report: 1 }));
}

/// Out of playback, to ready, with every client ready again.
fn stopped(run: &mut Run, slots: &[usize]) {
    done(run, Event::Abort);
    [5, 1].iter().for_each(|&report| slots.iter().for_each(|&slot| done(run, Event::Report { slot, report })));
    must_be("in ready", run.model.state == State::Ready, true);
}

const ALL: u64 = u64::MAX;
const IDENTITY: u64 = !BUT_IDENTITY;
const TRACTOR: u64 = 0xA000_8400_2400_0001;

/// The NAME that recorded, the one that is attached now, the mask, and what a start gives in edition 1 and in edition 2.
const REPLAYS: [(u64, u64, u64, u8, u8); 19] = [
    (DRILL, DRILL, ALL, 0, 0),
    (DRILL, DRILL, 0, 0, 0),
    // "the lowest 21 bits of the client's NAME, its identity number in ISO 11783-5, agree too, no matter what the mask says"
    (DRILL, SISTER, BUT_IDENTITY, 0, 9),
    (SISTER, DRILL, BUT_IDENTITY, 0, 9),
    (DRILL, SISTER, 0, 0, 9),
    (DRILL, SISTER, ALL, 9, 9),
    (DRILL, SISTER, IDENTITY, 9, 9),
    // The lowest of the 21 bits, the highest, and the one above it.
    (DRILL, DRILL ^ 1, BUT_IDENTITY, 0, 9),
    (DRILL, DRILL ^ 1 << 20, BUT_IDENTITY, 0, 9),
    (DRILL, DRILL ^ 1 << 20, ALL ^ 1 << 20, 0, 9),
    (DRILL, DRILL ^ 1 << 21, ALL ^ 1 << 21, 0, 0),
    (DRILL, DRILL ^ 1 << 21, BUT_IDENTITY, 9, 9),
    (DRILL, DRILL ^ 1 << 22, 0, 0, 0),
    (DRILL, DRILL ^ 1 << 63, !(1 << 63), 0, 0),
    // Another make, with the same identity number or another one; the mask asks for the identity number alone, or for nothing.
    (DRILL, DRILL ^ 0x20_0000, IDENTITY, 0, 0),
    (DRILL, !DRILL, 0, 0, 9),
    (DRILL, OTHER_MAKE, 0, 0, 9),
    (DRILL, OTHER_MAKE, BUT_IDENTITY, 9, 9),
    (DRILL, DRILL ^ IDENTITY, BUT_IDENTITY, 0, 9),
];

/// "Stations with several drills of one type want trials replayed only on the drill that recorded them." The master NAME is the
/// client's own, or another's, which agrees in all bits.
fn replays(run: &mut Run) {
    for (stored, loaded, mask, first, second) in REPLAYS {
        for masters in [(stored, loaded), (TRACTOR, TRACTOR)] {
            fresh(run);
            client(run, 3, stored, &pool(masters.0, mask));
            recording(run, &[3]);
            back(run, 3, loaded, &pool(masters.1, mask));
            for (edition, number) in [(1, first), (2, second), (1, first)] {
                set(run, edition);
                let what = format!("{loaded:016X}, recorded as {stored:016X}, mask {mask:016X}, edition {edition}");
                verified(run, &what, number, if number == 9 { 3 } else { 0 });
                must_be(&what, run.event(Event::Start).number, number);
                if number == 0 {
                    stopped(run, &[3]);
                }
            }
        }
    }
}

/// "verification names the first check that does not hold", over both editions: of clients in slots 1, 4 and 6, two come back
/// as their sisters.
fn several_clients(run: &mut Run) {
    let slots = [1, 4, 6];
    let name = |slot: usize| DRILL + (slot as u64) * 16;
    fresh(run);
    slots.iter().for_each(|&slot| client(run, slot, name(slot), &pool(TRACTOR, BUT_IDENTITY)));
    recording(run, &slots);
    let mut other_label = pool(TRACTOR, BUT_IDENTITY);
    other_label.base().version_label.insert(0, b'1');
    back(run, 6, name(6) + 1, &pool(TRACTOR, BUT_IDENTITY));
    verified(run, "a sister in slot 6", 0, 0);
    set(run, 2);
    verified(run, "a sister in slot 6", 9, 6);
    back(run, 4, name(4) + 1, &other_label);
    verified(run, "another label in slot 4, and another identity number before it", 9, 4);
    set(run, 1);
    verified(run, "another label in slot 4", 10, 4);
    set(run, 2);
    done(run, Event::Disable { slot: 1, room: 8 });
    verified(run, "slot 1 is not wanted", 8, 1);
    done(run, Event::Enable { slot: 1, room: 8 });
    back(run, 4, name(4), &pool(TRACTOR, BUT_IDENTITY));
    verified(run, "a sister in slot 6 again", 9, 6);
    done(run, Event::Report { slot: 1, report: 5 });
    verified(run, "and slot 1 is not ready", 9, 6);
    back(run, 6, name(6), &pool(TRACTOR, BUT_IDENTITY));
    verified(run, "slot 1 is not ready", 12, 1);
}

/// "sets the sequence's edition, in ready: 2, 7, 17 unknown edition", each before the next; a refusal leaves the edition.
fn numbers(run: &mut Run) {
    let unknown = [0, 3, 4, 255, 256, 257, 258, 65_537, 65_538, 1 << 31, 1 << 31 | 1, u32::MAX - 1, u32::MAX];
    let gives = |run: &mut Run, edition: u32, number: u8| must_be("edition", run.event(Event::Edition { edition }).number, number);
    let each = |run: &mut Run, known: u8, others: u8| {
        [1, 2].iter().for_each(|&edition| gives(run, edition, known));
        unknown.iter().for_each(|&edition| gives(run, edition, others));
    };
    run.begin(0);
    each(run, 2, 2);
    done(run, Event::On);
    each(run, 7, 7);
    must_be("no edition", library::sequence_edition(run.library()), 0);
    recorded(run);
    must_be("a recording gives", library::sequence_edition(run.library()), 1);
    each(run, 0, 17);
    must_be("edition 2 stays", library::sequence_edition(run.library()), 2);
    done(run, Event::Record);
    each(run, 2, 2);
    done(run, Event::Report { slot: 2, report: 2 });
    done(run, Event::Indication { slot: 2, message: vec![0x32, TIME, 0x42, 7, 0, 0, 0, 0], room: 8 });
    done(run, Event::Stop);
    must_be("in record complete", matches!(run.model.state, State::RecordComplete(_)), true);
    each(run, 2, 2);
    done(run, Event::Cancel);
    done(run, Event::Report { slot: 2, report: 1 });
    done(run, Event::Start);
    each(run, 2, 2);
    done(run, Event::Abort);
    each(run, 2, 2);
    must_be("edition 2 stays", library::sequence_edition(run.library()), 2);
}

/// "The edition stands in the first block": "bytes 8–11 of block 1 hold the edition less one". Nothing else of the blocks is
/// other, but for the check.
fn written_out(run: &mut Run) {
    recorded(run);
    let first = store(run, LEAST);
    must_be("edition 1", &first[..512], &block(&[(0, 1), (1, 1)], 3)[..]);
    set(run, 2);
    let second = store(run, LEAST);
    must_be("edition 2", &second[..512], &block(&[(0, 1), (1, 1), (2, 1)], 4)[..]);
    must_be("the other blocks", &second[512..], &first[512..]);
    let editions = [(&first, 1), (&second, 2)];
    for (old, now) in [(0, 0), (0, 1), (1, 0), (1, 1)] {
        must_be("load", load(run, editions[old].0), 0);
        must_be("load", load(run, editions[now].0), 0);
        must_be("the edition of the blocks", library::sequence_edition(run.library()), editions[now].1);
        must_be("stored again", &store(run, LEAST), editions[now].0);
    }
    fresh(run);
    must_be("load", load(run, &second), 0);
    must_be("the edition of the blocks", library::sequence_edition(run.library()), 2);
}

/// "any other number than 0 and 1 there is an unknown edition, 17": after 16. The sequence that was there stays, and its
/// edition.
fn unknown(run: &mut Run) {
    recorded(run);
    set(run, 2);
    let blocks = store(run, LEAST);
    for edition_less_one in [2, 3, 256, 257, 65_536, 65_537, 1 << 31, 1 << 31 | 1, u32::MAX] {
        let mut other = blocks.clone();
        other[8..12].copy_from_slice(&u32::to_le_bytes(edition_less_one));
        must_be("its check is wrong", load(run, &other), 16);
        blocks::mend(&mut other);
        must_be("its check is right", load(run, &other), 17);
        must_be("a part of a block more", load(run, &[&other[..], &[0]].concat()), 17);
        other[700] ^= 1;
        must_be("another check is wrong", load(run, &other), 16);
        must_be("edition 2 stays", library::sequence_edition(run.library()), 2);
    }
    for place in 8..512 {
        let mut other = blocks.clone();
        other[place] ^= 2;
        must_be("a byte of the first block", load(run, &other), 16);
        blocks::mend(&mut other);
        must_be("a byte of the first block", load(run, &other), if place < 508 { 17 } else { 0 });
    }
}

/// "a recording gives 1", also after a sequence of edition 2; one that keeps no step, or is thrown away, "keeps the old one",
/// and its edition.
fn recordings(run: &mut Run) {
    let edition = |run: &Run| library::sequence_edition(run.library());
    recorded(run);
    set(run, 2);
    for throw_away in [Event::Stop, Event::Cancel, Event::Lost { slot: 2 }] {
        done(run, Event::Record);
        done(run, Event::Report { slot: 2, report: 2 });
        must_be("during a recording it is the old one's", edition(run), 2);
        if let Event::Cancel = throw_away {
            one_shot(run, 2, TIME, 9, 220);
        }
        done(run, throw_away);
        must_be("the old edition", edition(run), 2);
        if run.model.client(2).is_some() {
            done(run, Event::Report { slot: 2, report: 1 });
        }
    }
    done(run, Event::Off);
    must_be("off", edition(run), 2);
    done(run, Event::On);
    must_be("on", edition(run), 2);
    client(run, 2, DRILL, &pool(DRILL, ALL));
    recording(run, &[2]);
    must_be("a new recording", edition(run), 1);
}

/// What release 1.1.0 stored, the last before there were editions: its archive and its header wrote these bytes, from the
/// recording below.
const SEPTEMBER: &[u8] = include_bytes!("september.blocks");

/// Slot, NAME, master NAME, version label and configuration label.
const CLIENTS: [(usize, u64, u64, &str, &str); 4] = [
    (1, DRILL, DRILL, "drill 4.2", "24 coulters, 3 m"),
    (2, 0xA008_8200_2460_0042, TRACTOR, "tank", "x"),
    (4, 0xA008_8300_247F_FFFF, 0xA008_8300_247F_FFFF, "V", "front tank of 1,500 l with an agitator and a fan on its own oil"),
    (7, 0x2000_0000_0000_0000, 0x0123_4567_89AB_CDEF, "a version label that is as long as it may be, 63 bytes in all..", "C"),
];
const STEPS: u8 = 40;

/// The client of this place, whose mask leaves the identity number open.
fn attach(run: &mut Run, place: usize, name: u64) {
    let (slot, own, master_name, version, configuration) = CLIENTS[place];
    let mut pool = pool(if master_name == own { name } else { master_name }, BUT_IDENTITY);
    (pool.base().version_label, pool.base().configuration_label) = (version.into(), configuration.into());
    client(run, slot, name, &pool);
}

/// The step of this place: a tick of 100 mm, and one more for each step before, comes before each.
fn step(place: u8) -> Step {
    let (slot, ticks) = (CLIENTS[usize::from(place) % 4].0, u32::from(place) + 1);
    let millimetres = (0..ticks).map(|before| 100 + before).sum();
    let (function, mark) = if place % 3 == 0 { (TIME, Mark::Ticks(ticks)) } else { (DISTANCE, Mark::Millimetres(millimetres)) };
    Step { slot, function, state: 2, value: 240 + 0x0100_0001 * u32::from(place), mark }
}

/// The recording that September's file holds.
fn september_recorded(run: &mut Run) {
    fresh(run);
    (0..4).for_each(|place| attach(run, place, CLIENTS[place].1));
    done(run, Event::Record);
    CLIENTS.iter().for_each(|client| done(run, Event::Report { slot: client.0, report: 2 }));
    for place in 0..STEPS {
        ticks(run, 1, 100 + u32::from(place));
        let Step { slot, function, value, .. } = step(place);
        one_shot(run, slot, function, place, value);
    }
    done(run, Event::Stop);
}

/// "what was stored before reads as edition 1". "Edition 1 files keep the rule they have."
fn september(run: &mut Run) {
    september_recorded(run);
    must_be("stored now", store(run, LARGEST), SEPTEMBER.to_vec());
    fresh(run);
    must_be("load", load(run, SEPTEMBER), 0);
    must_be("its edition", library::sequence_edition(run.library()), 1);
    must_be("its steps", &run.model.sequence.steps, &(0..STEPS).map(step).collect());
    must_be("stored again", store(run, LARGEST), SEPTEMBER.to_vec());
    (1..4).for_each(|place| attach(run, place, CLIENTS[place].1));
    attach(run, 0, SISTER);
    verified(run, "on a sister of the drill", 0, 0);
    done(run, Event::Start);
    stopped(run, &CLIENTS.map(|client| client.0));
    set(run, 2);
    verified(run, "on a sister of the drill, in edition 2", 9, 1);
    must_be("start", run.event(Event::Start).number, 9);
    let mut second = SEPTEMBER.to_vec();
    second[8] = 1;
    blocks::mend(&mut second);
    must_be("stored in edition 2", store(run, LARGEST), second);
    done(run, Event::Lost { slot: 1 });
    attach(run, 0, DRILL);
    verified(run, "on the drill, in edition 2", 0, 0);
    done(run, Event::Start);
    played(run);
}

/// To its end: each command is answered as it leaves, and is the step's.
fn played(run: &mut Run) {
    for place in 0..STEPS {
        let Step { slot, function, value, mark, .. } = step(place);
        let (number, millimetres) = (u32::from(place) + 1, 100 + u32::from(place));
        let given = run.event(Event::Tick { millimetres, room: 576 });
        must_be(&format!("frames of the tick of {mark:?}"), given.count, 1);
        let value = value.to_le_bytes();
        let command = vec![slot as u8, 0x33, function, 2, number as u8, value[0], value[1], value[2], value[3]];
        must_be("command", run.lent[..9].to_vec(), command);
        done(run, Event::Answer { slot, message: vec![0x34, function, 0x82, 0, number as u8, 0xFF, 0xFF, 0xFF], room: 8 });
    }
    must_be("played to its end", run.model.state == State::Ready, true);
}
