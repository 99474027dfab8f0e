//! The master's calls. Both sides take an old state and give a new one: the library's is copied whole, the model's cloned.

use crate::event::Event;
use crate::handed;
use crate::library::{CheckResult, ClientResult, Master, Outcome, Playback, Recording, Sequence, TakenResult};
use crate::messages::Status;
use crate::model::{self, State};
use crate::pools;
use crate::rows::{row, Row};
use crate::states::{answer, blocks, indication, load, playing, ready, record, record_complete, recorded, store, tick, Pair};
use crate::stored;
use crate::times::hide;
use std::cell::RefCell;
use std::mem::size_of;
use std::rc::Rc;

/// Of a store and a load: seven blocks.
pub const LARGEST: &str = "8 clients, 64 steps: 7 blocks";

/// An event, the state it comes in, lent output, and where the library's outcome goes.
pub struct Given {
    pair: Pair,
    event: Event,
    lent: RefCell<Vec<u8>>,
    outcome: RefCell<Box<Outcome>>,
}

pub fn given(pair: Pair, event: Event) -> Given {
    let lent = RefCell::new(vec![0; event.room()]);
    Given { pair, event, lent, outcome: RefCell::new(handed::blank_outcome()) }
}

pub fn library_event(it: &Given) -> u64 {
    let mut outcome = it.outcome.borrow_mut();
    handed::event(&it.event, &it.pair.library, &mut it.lent.borrow_mut(), &mut outcome);
    u64::from(outcome.number) << 32 | u64::from(outcome.count) << 8 | u64::from(outcome.master.tan)
}

fn model_event(it: &Given) -> u64 {
    let mut master = it.pair.model.clone();
    let outcome = it.event.on_model(&mut master, &mut it.lent.borrow_mut());
    let (number, count) = outcome.map_or_else(|refused| (refused.number, 0), |done| (0, done.count));
    u64::from(number) << 32 | u64::from(count) << 8 | u64::from(master.tan)
}

pub fn rows() -> Vec<Row> {
    let both = size_of::<Master>() + size_of::<Outcome>();
    let events = playback_events().into_iter().chain(record_events()).chain(other_events()).chain(storing_events());
    let rows = events.map(|(call, case, pair, event)| row((call, case), both, given(pair, event), library_event, model_event));
    rows.chain(readers()).collect()
}

type Named = (&'static str, &'static str, Pair, Event);

/// Its sequence in edition 2.
fn second(pair: Pair) -> Pair {
    pair.after(Event::Edition { edition: 2 })
}

fn playback_events() -> Vec<Named> {
    let all = playing(64, 15);
    let last = answer(&all, Status::Finished);
    let one = recorded(1, 1).after(Event::Start).after(tick());
    let ends = answer(&one, Status::Finished);
    let client_abort = Event::ClientAbort { slot: 7, message: vec![0x31, 0xFF, 0xFF, 0x01, 0xFF, 0xFF, 0xFF, 0xFF] };
    vec![
        ("scm_tick", "at rest", ready(), tick()),
        ("scm_tick", "in record, 64 steps", record(8, 64), tick()),
        ("scm_tick", "in playback, 1st step leaves, 1 frame", playing(0, 0), tick()),
        ("scm_tick", "in playback, 64th leaves, 1 frame", playing(63, 0), tick()),
        ("scm_tick", "in playback, 64th leaves, 8 frames", playing(63, 15), tick()),
        ("scm_tick", "in playback, no answer in time: abort", playing(63, 15).after(tick()), tick()),
        ("scm_answer", "to the first of 64 steps", playing(1, 1), answer(&playing(1, 1), Status::Finished)),
        ("scm_answer", "to the last of 64 steps", all.clone(), last),
        ("scm_answer", "to the only step, playback ends", one, ends),
        ("scm_start", "8 clients, 64 steps", recorded(8, 64), Event::Start),
        ("scm_start", "8 clients, 64 steps, edition 2", second(recorded(8, 64)), Event::Start),
        ("scm_start", "1 client, 1 step", recorded(1, 1), Event::Start),
        ("scm_abort", "", all.clone(), Event::Abort),
        ("scm_client_abort", "", all.clone(), client_abort),
        ("scm_lost", "in playback", all, Event::Lost { slot: 7 }),
    ]
}

fn record_events() -> Vec<Named> {
    let (empty, most, all, complete) = (record(8, 0), record(8, 63), record(8, 64), record_complete());
    vec![
        ("scm_record", "", ready(), Event::Record),
        ("scm_indication", "the first step", empty.clone(), indication(&empty, 8, 0, Status::Whole)),
        ("scm_indication", "the 64th step", most.clone(), indication(&most, 8, 63, Status::Whole)),
        ("scm_indication", "the open step of 64, recording ends", complete.clone(), indication(&complete, 8, 63, Status::Finished)),
        ("scm_stop", "no step", empty, Event::Stop),
        ("scm_stop", "8 clients, 64 steps", all.clone(), Event::Stop),
        ("scm_cancel", "64 steps", all, Event::Cancel),
    ]
}

fn other_events() -> Vec<Named> {
    let on = Pair::new().after(Event::On);
    let attach = |pool: Vec<u8>| Event::Attach { slot: 0, name: 0, pool: Rc::new(pool) };
    vec![
        ("scm_attach", "61 bytes", on.clone(), attach(pools::small())),
        ("scm_attach", "40 functions of 8 states", on.clone(), attach(pools::middle())),
        ("scm_attach", "16,384 bytes, many functions", on.clone(), attach(pools::many_functions())),
        ("scm_attach", "16,384 bytes, long lists", on.clone(), attach(pools::long_lists())),
        ("scm_attach", "long lists of alike numbers", on.clone(), attach(pools::alike_numbers())),
        ("scm_enable", "", ready(), Event::Enable { slot: 7, room: 8 }),
        ("scm_disable", "", ready(), Event::Disable { slot: 7, room: 8 }),
        ("scm_report", "ready", ready(), Event::Report { slot: 7, report: 1 }),
        ("scm_report", "abort, in playback", playing(64, 15), Event::Report { slot: 7, report: 5 }),
        ("scm_report", "disabled, the slot empties", ready(), Event::Report { slot: 7, report: 0 }),
        ("scm_on", "", Pair::new(), Event::On),
        ("scm_off", "", on, Event::Off),
    ]
}

/// The largest sequence and the least, accepted; and what is refused at the end of the largest: by the last check, and by its last steps.
fn storing_events() -> Vec<Named> {
    let (largest, least) = (recorded(8, 64), recorded(1, 1));
    let (blocks, few) = (blocks(&largest), blocks(&least));
    let (mut wrong, mut filled) = (blocks.clone(), blocks.clone());
    *wrong.last_mut().unwrap() ^= 1;
    let last = filled.len() - stored::BLOCK;
    filled[last + stored::WORDS - 1] = 1;
    let check = stored::sum(&filled[last..], 7).to_le_bytes();
    filled[last + stored::WORDS..].copy_from_slice(&check);
    vec![
        ("scm_store", LARGEST, largest.clone(), store(&largest)),
        ("scm_store", "1 client, 1 step: 3 blocks", least.clone(), store(&least)),
        ("scm_store", "no sequence", ready(), Event::Store { room: 3_584 }),
        ("scm_load", LARGEST, largest.clone(), load(blocks.clone())),
        ("scm_load", "the same into a master without one", ready(), load(blocks)),
        ("scm_load", "1 client, 1 step: 3 blocks", least, load(few)),
        ("scm_load", "the last of 7 checks is wrong", largest.clone(), load(wrong)),
        ("scm_load", "the last fill of 7 blocks is not zero", largest.clone(), load(filled)),
        ("scm_edition", "8 clients, 64 steps", largest.clone(), Event::Edition { edition: 2 }),
        ("scm_edition", "no sequence", ready(), Event::Edition { edition: 2 }),
        ("scm_edition", "unknown", largest, Event::Edition { edition: 3 }),
    ]
}

/// The model reads what the library is handed a copy of: the part of the master that a reader needs.
fn readers() -> Vec<Row> {
    let pair = recorded(8, 64);
    let (whole, sequence) = (size_of::<Master>(), size_of::<Sequence>());
    let client = sequence + size_of::<ClientResult>();
    let mut rows = vec![
        row(("scm_init", ""), whole, (), |_| u64::from(handed::new().state), |_| model_new()),
        row(("scm_state", ""), 0, pair.clone(), |pair| u64::from(handed::state(&pair.library)), model_state),
        row(("scm_slot", ""), whole, pair.clone(), |pair| library_slot(&pair.library), model_slot),
        row(("scm_step_count", ""), sequence, pair.clone(), |pair| handed::step_count(&pair.library) as u64, model_count),
        row(("scm_sequence_edition", ""), sequence, pair.clone(), |pair| handed::sequence_edition(&pair.library).into(), model_edition),
        row(("scm_step", "the last of 64"), sequence, pair.clone(), |pair| library_step(&pair.library), model_step),
        row(("scm_client", ""), client, pair.clone(), |pair| library_client(&pair.library), model_client),
    ];
    rows.extend(progress_readers());
    rows.extend(verifications(pair));
    rows
}

fn progress_readers() -> Vec<Row> {
    let (recording, playback) = (size_of::<Recording>(), size_of::<Playback>());
    let taken = recording + size_of::<TakenResult>();
    vec![
        row(("scm_progress", "in record, 64 steps"), recording + playback, record(8, 64), library_progress, model_progress),
        row(("scm_progress", "in playback, 64 steps"), recording + playback, playing(64, 15), library_progress, model_progress),
        row(("scm_taken", "the last of 64"), taken, record(8, 64), library_taken, model_taken),
        row(("scm_sent", "the last of 64"), playback, playing(64, 15), library_sent, model_sent),
    ]
}

/// Every check holds, by the rule of either edition, or the last one does not.
fn verifications(pair: Pair) -> Vec<Row> {
    let structs = size_of::<Master>() + size_of::<CheckResult>();
    let late = pair.clone().after(Event::Report { slot: 7, report: 2 });
    vec![
        row(("scm_verify", "8 clients, 64 steps"), structs, pair.clone(), library_verify, model_verify),
        row(("scm_verify", "8 clients, 64 steps, edition 2"), structs, second(pair), library_verify, model_verify),
        row(("scm_verify", "the last check does not hold"), structs, late, library_verify, model_verify),
    ]
}

fn model_new() -> u64 {
    u64::from(hide(&model::Master::new()).tan)
}

fn model_state(pair: &Pair) -> u64 {
    u64::from(pair.model.ready().is_ok())
}

fn model_count(pair: &Pair) -> u64 {
    pair.model.sequence.steps.len() as u64
}

fn model_edition(pair: &Pair) -> u64 {
    pair.model.sequence.edition.into()
}

fn library_slot(master: &Master) -> u64 {
    let it = handed::slot(master, 7);
    it.name << 32 | u64::from(it.number) << 24 | u64::from(it.taken) << 16 | u64::from(it.wanted) << 8 | u64::from(it.report)
}

fn model_slot(pair: &Pair) -> u64 {
    pair.model.client(7).map_or(3 << 24, |client| client.name << 32 | 1 << 16 | u64::from(client.wanted) << 8 | client.report as u64)
}

fn library_step(master: &Master) -> u64 {
    let it = handed::step(master, 63);
    u64::from(it.step.value) << 32 | u64::from(it.number) << 16 | u64::from(it.step.function) << 8 | u64::from(it.step.state)
}

fn model_step(pair: &Pair) -> u64 {
    let steps = &pair.model.sequence.steps;
    steps.get(63).map_or(3 << 16, |step| u64::from(step.value) << 32 | u64::from(step.function) << 8 | u64::from(step.state))
}

fn library_client(master: &Master) -> u64 {
    let it = handed::client(master, 7);
    it.client.master ^ it.client.name ^ u64::from(it.client.version.length) << 32 ^ u64::from(it.number)
}

fn model_client(pair: &Pair) -> u64 {
    let client = pair.model.sequence.clients.get(&7);
    client.map_or(3, |it| it.master_name ^ it.name ^ (it.version_label.len() as u64) << 32)
}

fn library_progress(pair: &Pair) -> u64 {
    let it = handed::progress(&pair.library);
    u64::from(it.distance) << 32 ^ u64::from(it.ticks) << 8 ^ it.count as u64
}

fn model_progress(pair: &Pair) -> u64 {
    let (ticks, millimetres, count) = match &pair.model.state {
        State::Record(it) => (it.ticks, it.millimetres, it.steps.len()),
        State::Playback(it) => (it.ticks, it.millimetres, it.commands.len()),
        _ => (0, 0, 0),
    };
    u64::from(millimetres) << 32 ^ u64::from(ticks) << 8 ^ count as u64
}

fn library_taken(pair: &Pair) -> u64 {
    let it = handed::taken(&pair.library, 63);
    u64::from(it.taken.step.value) << 32 | u64::from(it.number) << 16 | u64::from(it.taken.step.function) << 8 | u64::from(it.taken.tan)
}

fn model_taken(pair: &Pair) -> u64 {
    let taken = pair.model.recording().and_then(|recording| recording.steps.get(63));
    taken.map_or(3 << 16, |it| u64::from(it.step.value) << 32 | u64::from(it.step.function) << 8 | u64::from(it.tan))
}

fn library_sent(pair: &Pair) -> u64 {
    let it = handed::sent(&pair.library, 63);
    u64::from(it.sent.left) << 32 | u64::from(it.number) << 16 | u64::from(it.sent.tan)
}

fn model_sent(pair: &Pair) -> u64 {
    match &pair.model.state {
        State::Playback(it) => it.commands.get(63).map_or(3 << 16, |it| u64::from(it.left) << 32 | u64::from(it.tan)),
        _ => 3 << 16,
    }
}

fn library_verify(pair: &Pair) -> u64 {
    let it = handed::verify(&pair.library);
    u64::from(it.number) << 32 | (it.slot as u64) << 8 | it.step as u64
}

fn model_verify(pair: &Pair) -> u64 {
    pair.model.verify().map_or_else(|it| u64::from(it.refused.number) << 32 | (it.slot as u64) << 8 | it.step as u64, |()| 0)
}
