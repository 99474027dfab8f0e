//! The cases of document 01, and of the requests of document 02, as fixed runs, with what they must give written out.
//! Each event is compared with the model too, as in every run.

use super::event::Event;
use super::generate::{Pool, Random, Shape, FULL};
use super::messages::{self, Answer, Status};
use super::model::State;
use super::run::Run;
use std::fmt::Debug;
use std::rc::Rc;

/// Function 5 counts ticks, function 6 millimetres; both have state 2.
pub const TIME: u8 = 5;
pub const DISTANCE: u8 = 6;

const START: [u8; 8] = [0x32, 0x05, 0x42, 0x00, 0xFF, 0xFF, 0xFF, 0xFF];
const FINISH_240: [u8; 8] = [0x32, 0x05, 0x82, 0x00, 0xF0, 0x00, 0x00, 0x00];

pub fn all(run: &mut Run) {
    time_marks(run);
    distance_then_time(run);
    sixty_four(run);
    answered_after_15(run);
    silent_for_16(run);
    start_and_finish(run);
    two_depths(run);
    command_and_answer(run);
    state_commands(run);
    late_client(run);
    neighbours(run);
}

pub fn legal_pool() -> Pool {
    let random = &mut Random::new(14);
    let shape = Shape { functions: 2, states: 1, shortest: 1, longest: 1, unlisted: 0 };
    let mut pool = Pool::legal(random, shape, FULL);
    pool.states[0].state_id = 2;
    for (function, (id, trigger)) in pool.functions.iter_mut().zip([(TIME, 1), (DISTANCE, 2)]) {
        function.function_id = id;
        function.preferred_trigger = trigger;
    }
    pool
}

fn pool() -> Vec<u8> {
    legal_pool().bytes()
}

pub fn must_be<T: PartialEq + Debug>(what: &str, given: T, meant: T) {
    if given != meant {
        super::fail(&format!("case, {what}: {given:02X?}, meant was {meant:02X?}"));
    }
}

pub fn done(run: &mut Run, event: Event) {
    let number = run.event(event).number;
    must_be("number", number, 0);
}

/// The first eight lent bytes after the event, which must be done.
fn answered(run: &mut Run, event: Event) -> Vec<u8> {
    done(run, event);
    run.lent[..8].to_vec()
}

/// One client in slot 0, reporting ready.
fn one_client(run: &mut Run) {
    run.begin(0);
    done(run, Event::On);
    done(run, Event::Attach { slot: 0, name: 0xA000_0000_0000_0001, pool: Rc::new(pool()) });
    done(run, Event::Enable { slot: 0, room: 8 });
    done(run, Event::Report { slot: 0, report: 1 });
}

fn recording(run: &mut Run) {
    done(run, Event::Record);
    done(run, Event::Report { slot: 0, report: 2 });
}

fn playback(run: &mut Run) {
    done(run, Event::Report { slot: 0, report: 1 });
    done(run, Event::Start);
}

fn indicate(run: &mut Run, message: [u8; 8]) -> Vec<u8> {
    answered(run, Event::Indication { slot: 0, message: message.to_vec(), room: 8 })
}

fn one_shot(run: &mut Run, function: u8, tan: u8) {
    let given = indicate(run, [0x32, function, 0x02, tan, 0xF0, 0x00, 0x00, 0x00]);
    must_be("one-shot", given, vec![0x32, function, 0x02, 0x00, tan, 0xFF, 0xFF, 0xFF]);
}

fn tick(run: &mut Run, millimetres: u32) -> u32 {
    let given = run.event(Event::Tick { millimetres, room: 576 });
    must_be("tick", given.number, 0);
    given.count
}

fn answer(run: &mut Run, status: Status, tan: u8) -> Vec<u8> {
    let it = Answer { function: TIME, state: 2, status, error: 0x00, tan };
    answered(run, Event::Answer { slot: 0, message: messages::answer(&it).to_vec(), room: 8 })
}

/// The frames of a tick.
fn frames(run: &mut Run, millimetres: u32) -> Vec<Vec<u8>> {
    let count = tick(run, millimetres) as usize;
    run.lent[..9 * count].chunks(9).map(<[u8]>::to_vec).collect()
}

/// The ticks at which a frame came that had not come before, of so many ticks without an answer.
fn leaving_ticks(run: &mut Run, ticks: u32, millimetres: u32) -> Vec<u32> {
    let mut leaving = Vec::new();
    let mut seen = Vec::new();
    for number in 1..=ticks {
        let new: Vec<_> = frames(run, millimetres).into_iter().filter(|frame| !seen.contains(frame)).collect();
        leaving.extend(new.iter().map(|_| number));
        seen.extend(new);
    }
    leaving
}

/// "Time marks 0, 0, 5 leave at ticks 1, 2, 5."
fn time_marks(run: &mut Run) {
    one_client(run);
    recording(run);
    one_shot(run, TIME, 0);
    one_shot(run, TIME, 1);
    (0..5).for_each(|_| must_be("count", tick(run, 0), 0));
    one_shot(run, TIME, 2);
    done(run, Event::Stop);
    playback(run);
    must_be("leaving", leaving_ticks(run, 10, 0), vec![1, 2, 5]);
}

/// "Marks 1,000 mm then tick 2, at 400 mm a tick: 3 and 4."
fn distance_then_time(run: &mut Run) {
    one_client(run);
    recording(run);
    tick(run, 1_000);
    one_shot(run, DISTANCE, 0);
    tick(run, 7);
    one_shot(run, TIME, 1);
    done(run, Event::Stop);
    playback(run);
    must_be("leaving", leaving_ticks(run, 10, 400), vec![3, 4]);
}

/// "64 indications kept, the next answered 04."
fn sixty_four(run: &mut Run) {
    one_client(run);
    recording(run);
    (0..64).for_each(|tan| one_shot(run, TIME, tan));
    let given = indicate(run, [0x32, TIME, 0x02, 64, 0xF0, 0x00, 0x00, 0x00]);
    must_be("the 65th", given, vec![0x32, TIME, 0x02, 0x04, 64, 0xFF, 0xFF, 0xFF]);
    done(run, Event::Stop);
    must_be("steps", run.model.sequence.steps.len(), 64);
}

fn one_step_sent(run: &mut Run) {
    one_client(run);
    recording(run);
    one_shot(run, TIME, 0);
    done(run, Event::Stop);
    playback(run);
    must_be("count", tick(run, 0), 1);
}

/// Of document 02: "A command leaves again only at even ticks after it first left, so at 0, 2 and on to 14.": in the 15
/// ticks after, the same command again.
fn silent_for_15(run: &mut Run) {
    one_step_sent(run);
    let first = vec![run.lent[..9].to_vec()];
    for after in 1..=15 {
        let wanted = if after % 2 == 0 { first.clone() } else { Vec::new() };
        must_be("repeated", frames(run, 0), wanted);
    }
}

/// "A first answer after 15 ticks is in time".
fn answered_after_15(run: &mut Run) {
    silent_for_15(run);
    let given = answer(run, Status::Started, 1);
    must_be("acknowledged", given, vec![0x34, TIME, 0x42, 0x01, 0xFF, 0xFF, 0xFF, 0xFF]);
    (0..100).for_each(|_| must_be("count", tick(run, 0), 0));
    must_be("playback goes on", matches!(run.model.state, State::Playback(_)), true);
    answer(run, Status::Finished, 1);
    must_be("state", run.model.state == State::Ready, true);
}

/// "none by tick 16 aborts"
fn silent_for_16(run: &mut Run) {
    silent_for_15(run);
    must_be("count", tick(run, 0), 0);
    must_be("state", run.model.state == State::Abort, true);
}

/// "Start, TAN 0", "finish with 240": "Taking a repeated start for a second step" is an error; the value kept is that
/// of the finish.
fn start_and_finish(run: &mut Run) {
    one_client(run);
    recording(run);
    for _ in 0..3 {
        must_be("start", indicate(run, START), vec![0x32, 0x05, 0x42, 0x00, 0x00, 0xFF, 0xFF, 0xFF]);
        must_be("held", run.model.recording().map(|recording| recording.steps.len()), Some(1));
    }
    must_be("finish", indicate(run, FINISH_240), vec![0x32, 0x05, 0x82, 0x00, 0x00, 0xFF, 0xFF, 0xFF]);
    done(run, Event::Stop);
    must_be("values", values(run), vec![240]);
}

/// Depths of 240 and 220 stay 240 and 220.
fn two_depths(run: &mut Run) {
    one_client(run);
    recording(run);
    for (tan, value) in [(0, 240), (1, 220)] {
        indicate(run, [0x32, TIME, 0x42, tan, 0x11, 0x22, 0x33, 0x44]);
        indicate(run, [0x32, TIME, 0x82, tan, value, 0x00, 0x00, 0x00]);
    }
    done(run, Event::Stop);
    must_be("values", values(run), vec![240, 220]);
    playback(run);
    let sent: Vec<Vec<u8>> = (0..4).map(|_| frames(run, 0).iter().map(|frame| frame[5]).collect()).collect();
    must_be("values sent", sent, vec![vec![240], vec![220], vec![240], vec![220]]);
}

fn values(run: &Run) -> Vec<u32> {
    run.model.sequence.steps.iter().map(|step| step.value).collect()
}

/// "Command, function 5, state 2, TAN 255, value 240", after 254 others; "Answer": acknowledged.
fn command_and_answer(run: &mut Run) {
    one_client(run);
    recording(run);
    one_shot(run, TIME, 0);
    done(run, Event::Stop);
    for tan in 1..=254 {
        playback(run);
        tick(run, 0);
        answer(run, Status::Whole, tan);
    }
    playback(run);
    tick(run, 0);
    let frame = run.lent[..9].to_vec();
    must_be("command", frame, vec![0x00, 0x33, 0x05, 0x02, 0xFF, 0xF0, 0x00, 0x00, 0x00]);
    let message = vec![0x34, 0x05, 0x82, 0x00, 0xFF, 0xFF, 0xFF, 0xFF];
    let given = answered(run, Event::Answer { slot: 0, message, room: 8 });
    must_be("acknowledged", given, vec![0x34, 0x05, 0x82, 0xFF, 0xFF, 0xFF, 0xFF, 0xFF]);
    must_be("state", run.model.state == State::Ready, true);
    playback(run);
    tick(run, 0);
    must_be("the TAN after 255", run.lent[4], 0);
}

/// E.2, reason 01.
fn state_commands(run: &mut Run) {
    one_client(run);
    let given = answered(run, Event::Enable { slot: 0, room: 8 });
    must_be("enable", given, vec![0x30, 0x01, 0xFF, 0x01, 0xFF, 0xFF, 0xFF, 0xFF]);
    let given = answered(run, Event::Disable { slot: 0, room: 8 });
    must_be("disable", given, vec![0x30, 0x00, 0xFF, 0x01, 0xFF, 0xFF, 0xFF, 0xFF]);
}

/// "A client is enabled if wanted and its last report is not disabled", before the event that is judged: a wanted client whose first report in a
/// playback is abort does not end it. "Abort goes to ready at the first later report [..] where every enabled client's last report is abort": also at
/// one by which the last other client is disabled.
fn late_client(run: &mut Run) {
    one_client(run);
    done(run, Event::Attach { slot: 1, name: 0xA000_0000_0000_0002, pool: Rc::new(pool()) });
    done(run, Event::Enable { slot: 1, room: 8 });
    recording(run);
    one_shot(run, TIME, 0);
    done(run, Event::Stop);
    playback(run);
    done(run, Event::Report { slot: 1, report: 5 });
    must_be("in playback", matches!(run.model.state, State::Playback(_)), true);
    done(run, Event::Abort);
    must_be("in abort", run.model.state == State::Abort, true);
    done(run, Event::Report { slot: 0, report: 0 });
    must_be("in ready", run.model.state == State::Ready, true);
}

/// A drill, a sister of it whose identity number is another, and one of another make: the mask wants the make.
pub const DRILL: u64 = 0xA008_8100_2460_1267;
pub const SISTER: u64 = 0xA008_8100_2460_1268;
pub const OTHER_MAKE: u64 = 0xA008_8100_2480_1268;
pub const BUT_IDENTITY: u64 = 0xFFFF_FFFF_FFE0_0000;

/// The client's NAME and the master NAME in its pool, when the sequence was recorded and now; and what start gives.
const NEIGHBOURS: [((u64, u64), (u64, u64), u8); 13] = [
    // "where the stored master NAME equals the stored client NAME, and the loaded one equals the loaded client NAME, the mask applies to both"
    ((DRILL, DRILL), (DRILL, DRILL), 0),
    ((DRILL, DRILL), (SISTER, SISTER), 0),
    ((SISTER, SISTER), (DRILL, DRILL), 0),
    ((DRILL, DRILL), (OTHER_MAKE, OTHER_MAKE), 9),
    // "Otherwise all 64 bits count, as before."
    ((DRILL, DRILL), (DRILL, SISTER), 9),
    ((DRILL, DRILL), (SISTER, DRILL), 0),
    ((DRILL, SISTER), (DRILL, DRILL), 9),
    ((DRILL, SISTER), (SISTER, SISTER), 0),
    ((DRILL, SISTER), (SISTER, DRILL), 9),
    ((DRILL, SISTER), (DRILL, SISTER), 0),
    ((DRILL, OTHER_MAKE), (SISTER, OTHER_MAKE), 0),
    ((DRILL, OTHER_MAKE), (SISTER, SISTER), 9),
    ((DRILL, DRILL), (DRILL, OTHER_MAKE), 9),
];

/// Document 02, request 2.
fn neighbours(run: &mut Run) {
    for (stored, loaded, number) in NEIGHBOURS {
        run.begin(0);
        done(run, Event::On);
        named_client(run, stored);
        recording(run);
        one_shot(run, TIME, 0);
        done(run, Event::Stop);
        done(run, Event::Lost { slot: 0 });
        named_client(run, loaded);
        let given = run.event(Event::Start).number;
        must_be(&format!("start of {loaded:016X?}, recorded as {stored:016X?}"), given, number);
    }
}

/// In slot 0, reporting ready: its NAME, and the master NAME in its pool.
fn named_client(run: &mut Run, (name, master_name): (u64, u64)) {
    let mut pool = legal_pool();
    pool.base().master_name = master_name;
    pool.base().mask = BUT_IDENTITY;
    done(run, Event::Attach { slot: 0, name, pool: Rc::new(pool.bytes()) });
    done(run, Event::Enable { slot: 0, room: 8 });
    done(run, Event::Report { slot: 0, report: 1 });
}
