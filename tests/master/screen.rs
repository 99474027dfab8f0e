//! What a screen shows: the readers in fixed runs, with what they must give written out. Each event is compared with the model too, as in every run.

use super::cases::{done, legal_pool, must_be, DISTANCE, TIME};
use super::event::Event;
use super::generate::Pool;
use super::library::{self, CheckView, ProgressView, Sent, Step, Taken, NO_SENT, NO_TAKEN};
use super::model::State;
use super::run::Run;
use std::rc::Rc;

pub fn all(run: &mut Run) {
    verification(run);
    while_another_records(run);
    not_wanted(run);
    recording(run);
    playback(run);
}

/// The NAME of a slot's client.
fn name(slot: usize) -> u64 {
    0xA000_0000_0000_0100 + slot as u64
}

/// In any slot, reporting ready.
pub fn client(run: &mut Run, slot: usize, name: u64, pool: &Pool) {
    done(run, Event::Attach { slot, name, pool: Rc::new(pool.bytes()) });
    done(run, Event::Enable { slot, room: 8 });
    report(run, slot, 1);
}

/// The same client goes and comes, with another pool or NAME.
pub fn back(run: &mut Run, slot: usize, name: u64, pool: &Pool) {
    done(run, Event::Lost { slot });
    client(run, slot, name, pool);
}

fn report(run: &mut Run, slot: usize, report: u32) {
    done(run, Event::Report { slot, report });
}

/// An E.4 of state 2 with a status and a TAN.
fn indicate(run: &mut Run, slot: usize, function: u8, status: u8, tan: u8, value: u32) {
    let mut message = vec![0x32, function, 64 * status + 2, tan];
    message.extend(value.to_le_bytes());
    done(run, Event::Indication { slot, message, room: 8 });
}

fn tick(run: &mut Run, millimetres: u32) {
    done(run, Event::Tick { millimetres, room: 576 });
}

fn verified(run: &mut Run, what: &str, number: u8, slot: usize, step: usize) {
    must_be(what, library::verify(run.library()), (number, CheckView { slot, step }));
    run.compare_verification();
}

/// Clients in slots 2 and 5, which recorded: slot 5 by time, slot 2 by distance, slot 5 by distance. Ready again.
fn recorded(run: &mut Run) {
    run.begin(0);
    verified(run, "inactive", 7, 0, 0);
    done(run, Event::On);
    verified(run, "ready", 7, 0, 0);
    for slot in [2, 5] {
        client(run, slot, name(slot), &masked());
    }
    done(run, Event::Record);
    for slot in [2, 5] {
        report(run, slot, 2);
    }
    indicate(run, 5, TIME, 0, 0, 240);
    indicate(run, 2, DISTANCE, 0, 0, 220);
    indicate(run, 5, DISTANCE, 0, 1, 240);
    verified(run, "in record, the sequence is the old one", 7, 0, 0);
    done(run, Event::Stop);
    verified(run, "both still report record", 12, 2, 0);
    report(run, 2, 1);
    verified(run, "slot 5 still reports record", 12, 5, 0);
    report(run, 5, 1);
    verified(run, "both are ready", 0, 0, 0);
}

/// Every bit of a NAME counts.
fn masked() -> Pool {
    let mut pool = legal_pool();
    pool.base().mask = u64::MAX;
    pool
}

/// No function counts millimetres by its own ID any more.
fn without_distance() -> Pool {
    let mut pool = masked();
    pool.functions.iter_mut().filter(|function| function.function_id == DISTANCE).for_each(|function| function.function_id = 9);
    pool
}

/// "7; then for each slot of the sequence, lowest first, 8, 9 and 10 before the next slot; then by step 11; then by slot 12."
fn verification(run: &mut Run) {
    recorded(run);
    let (good, less) = (masked(), without_distance());
    let (mut version, mut configuration) = (good.clone(), good.clone());
    version.base().version_label.insert(0, b'1');
    configuration.base().configuration_label[0] ^= 1;
    done(run, Event::Disable { slot: 5, room: 8 });
    verified(run, "slot 5 is not wanted", 8, 5, 0);
    done(run, Event::Disable { slot: 2, room: 8 });
    verified(run, "nor is slot 2", 8, 2, 0);
    done(run, Event::Enable { slot: 2, room: 8 });
    done(run, Event::Lost { slot: 5 });
    verified(run, "slot 5 is empty", 8, 5, 0);
    client(run, 5, name(6), &good);
    verified(run, "slot 5 has another NAME", 9, 5, 0);
    back(run, 2, name(2), &version);
    verified(run, "slot 2 has another version label", 10, 2, 0);
    back(run, 2, name(2), &less);
    verified(run, "a function of slot 2 is missing, but first of all slot 5 has another NAME", 9, 5, 0);
    back(run, 5, name(5), &configuration);
    verified(run, "slot 5 has another configuration label", 10, 5, 0);
    back(run, 5, name(5), &less);
    verified(run, "a function is missing in both: the second step is the first such", 11, 2, 1);
    back(run, 2, name(2), &good);
    report(run, 2, 5);
    verified(run, "a function of slot 5 is missing, and slot 2 is not ready", 11, 5, 2);
    back(run, 5, name(5), &good);
    verified(run, "slot 2 is not ready", 12, 2, 0);
    report(run, 2, 1);
    done(run, Event::Start);
    verified(run, "in playback", 0, 0, 0);
    report(run, 5, 4);
    verified(run, "slot 5 reports playback", 12, 5, 0);
    done(run, Event::Abort);
    verified(run, "in abort", 12, 5, 0);
    done(run, Event::Lost { slot: 2 });
    verified(run, "slot 2 is lost in abort", 8, 2, 0);
}

/// The clients of the sequence are ready while another one records.
fn while_another_records(run: &mut Run) {
    recorded(run);
    client(run, 7, name(7), &masked());
    done(run, Event::Record);
    report(run, 7, 2);
    indicate(run, 7, TIME, 1, 0, u32::MAX);
    verified(run, "in record", 0, 0, 0);
    done(run, Event::Stop);
    must_be("in record complete", matches!(run.model.state, State::RecordComplete(_)), true);
    verified(run, "in record complete", 0, 0, 0);
}

/// "Abort goes to ready at the first later report [..] where every enabled client's last report is abort": also at that of a client not wanted.
fn not_wanted(run: &mut Run) {
    run.begin(0);
    done(run, Event::On);
    client(run, 3, name(3), &masked());
    client(run, 7, name(7), &masked());
    done(run, Event::Disable { slot: 7, room: 8 });
    done(run, Event::Record);
    report(run, 3, 2);
    indicate(run, 3, TIME, 0, 0, 240);
    done(run, Event::Stop);
    report(run, 3, 1);
    done(run, Event::Start);
    report(run, 3, 5);
    must_be("in abort", run.model.state == State::Abort, true);
    verified(run, "slot 3 reports abort", 12, 3, 0);
    report(run, 7, 4);
    must_be("in ready", run.model.state == State::Ready, true);
}

fn progress(run: &Run, what: &str, ticks: u32, distance: u32, count: usize) {
    must_be(what, library::progress(run.library()), ProgressView { ticks, distance, count });
}

fn taken(run: &Run, i: usize, step: Step, tan: u8, status: u8) {
    must_be(&format!("taken step {i}"), library::taken(run.library(), i), (0, Taken { step, tan, status }));
}

/// One that is finished, one at once, one that fails, and one that stays open.
fn recording(run: &mut Run) {
    run.begin(0);
    done(run, Event::On);
    client(run, 3, name(3), &masked());
    done(run, Event::Record);
    report(run, 3, 2);
    progress(run, "at the start", 0, 0, 0);
    must_be("nothing taken", library::taken(run.library(), 0), (3, NO_TAKEN));
    (0..3).for_each(|_| tick(run, 400));
    indicate(run, 3, TIME, 1, 8, u32::MAX);
    progress(run, "a step is open", 3, 1_200, 1);
    let step = Step { slot: 3, function: TIME, state: 2, distance: 0, value: 0, mark: 3 };
    taken(run, 0, step, 8, 1);
    tick(run, 7);
    indicate(run, 3, TIME, 2, 8, 240);
    taken(run, 0, Step { value: 240, ..step }, 8, 2);
    indicate(run, 3, DISTANCE, 0, 9, 220);
    let other = Step { slot: 3, function: DISTANCE, state: 2, distance: 1, value: 220, mark: 1_207 };
    taken(run, 1, other, 9, 0);
    indicate(run, 3, TIME, 1, 10, 1);
    indicate(run, 3, TIME, 3, 10, 2);
    taken(run, 2, Step { mark: 4, ..step }, 10, 3);
    must_be("past the last", library::taken(run.library(), 3), (3, NO_TAKEN));
    indicate(run, 3, TIME, 1, 11, 3);
    done(run, Event::Stop);
    progress(run, "in record complete", 4, 1_207, 4);
    taken(run, 3, Step { mark: 4, ..step }, 11, 1);
    must_be("the sequence is the old one", library::step_count(run.library()), 0);
    indicate(run, 3, TIME, 2, 11, 5);
    progress(run, "in ready", 0, 0, 0);
    must_be("nothing is being recorded", library::taken(run.library(), 0), (3, NO_TAKEN));
    must_be("what stays", library::step_count(run.library()), 3);
}

fn sent(run: &Run, i: usize, tan: u8, answer: u8, left: u32) {
    must_be(&format!("sent command {i}"), library::sent(run.library(), i), (0, Sent { tan, answer, left }));
}

/// What was recorded above: steps of mark 3 and 4 ticks and 1,207 mm between them. The first is answered, the second never.
fn playback(run: &mut Run) {
    recording(run);
    must_be("nothing sent", library::sent(run.library(), 0), (3, NO_SENT));
    report(run, 3, 1);
    done(run, Event::Start);
    progress(run, "at the start of a playback", 0, 0, 0);
    (0..2).for_each(|_| tick(run, 100));
    progress(run, "before the first is due", 2, 200, 0);
    must_be("nothing sent yet", library::sent(run.library(), 0), (3, NO_SENT));
    tick(run, 100);
    progress(run, "the first has left", 3, 300, 1);
    sent(run, 0, 1, 0, 3);
    for (status, answer) in [(1, 1), (2, 2)] {
        done(run, Event::Answer { slot: 3, message: vec![0x34, TIME, 64 * status + 2, 0, 1, 0xFF, 0xFF, 0xFF], room: 8 });
        sent(run, 0, 1, answer, 3);
    }
    tick(run, 907);
    progress(run, "the second has left", 4, 1_207, 2);
    sent(run, 1, 2, 0, 4);
    for waited in 1..=15 {
        tick(run, 0);
        sent(run, 1, 2, 0, 4);
        must_be("waited", library::progress(run.library()).ticks - 4, waited);
    }
    sent(run, 2, 3, 0, 5);
    tick(run, 0);
    must_be("in abort", run.model.state == State::Abort, true);
    progress(run, "in abort", 0, 0, 0);
    must_be("nothing is being played", library::sent(run.library(), 0), (3, NO_SENT));
}
