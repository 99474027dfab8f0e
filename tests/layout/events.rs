//! The master: every byte of it is by chance, but for the few fields that lead a call where it is to go. Then each event changes exactly the fields that
//! the rules of document 01 name, to what they say, and each reader gives exactly its fields.

use super::Seen;
use crate::library::{self, CheckView, Client, ClientView, Master, Outcome, Plain, ProgressView, Sent, Slot, SlotView, Step, Taken};
use crate::library::{NO_CLIENT, NO_PLAYBACK, NO_RECORDING, NO_SENT, NO_SLOT, NO_STEP, NO_TAKEN};
use crate::master::{blocks, render, stored};
use crate::pool::generate::{Pool, Random, Shape};

type Rows<'a> = &'a [(&'static str, &'static [&'static str])];

/// A function and a state that clients have here.
const FUNCTION: u8 = 0x5A;
const STATE: u8 = 0x2B;

pub fn all(seen: &mut Seen) {
    let mut random = Random::new(7);
    readers(seen, &mut random);
    for slot in 0..8 {
        clients(seen, &mut random, slot);
        attachment(seen, &mut random, slot);
    }
    states(seen, &mut random);
    for place in 0..64 {
        indication(seen, &mut random, place);
        leaving(seen, &mut random, place);
        answer(seen, &mut random, place);
    }
    counting(seen, &mut random);
    end_of_recording(seen, &mut random);
    stored_sequence(seen, &mut random);
    edition(seen, &mut random);
    verification(seen, &mut random);
}

fn any(random: &mut Random) -> Master {
    Master::made(|| random.number() as u8)
}

/// In this state.
fn any_in(random: &mut Random, state: u8) -> Master {
    Master { state, ..any(random) }
}

/// A wanted client of slot `slot` with this last report, whose pool has FUNCTION, with this trigger, and STATE.
fn with_client(m: &mut Master, slot: usize, report: u8, trigger: u8) {
    let client = &mut m.slots[slot];
    (client.taken, client.wanted, client.report) = (1, 1, report);
    client.profile.trigger[usize::from(FUNCTION)] = trigger;
    client.profile.states[usize::from(FUNCTION)] |= 1 << STATE;
}

/// The master in this state, with no recording and no playback: both are blank outside their states.
fn ended(m: &Master, state: u8) -> Master {
    Master { state, recording: NO_RECORDING, playback: NO_PLAYBACK, ..*m }
}

/// A done event: its new state is `wanted`.
fn event(seen: &mut Seen, what: &str, before: &Master, given: &Outcome, wanted: &Master) {
    seen.gives(what, given.number, 0, &[]);
    seen.changes(what, before, &given.master, wanted);
}

fn readers(seen: &mut Seen, random: &mut Random) {
    for count in [0, 1, 33, 63, 64] {
        let mut m = any(random);
        m.sequence.count = count;
        m.state = count as u8 % 6;
        (m.recording.count, m.playback.sent) = (64 - count, count);
        seen.gives("state", library::state(&m), m.state, &[("scm_master", &["state"])]);
        seen.gives("state", library::value::state(m.state), m.state, &[]);
        seen.gives("step count", library::step_count(&m), count, &[("scm_sequence", &["count"])]);
        seen.gives("step count", library::value::step_count(&m.sequence), count, &[]);
        let edition = if count == 0 { 0 } else { m.sequence.edition };
        seen.gives("edition", library::sequence_edition(&m), edition, &[("scm_sequence", &["edition"])]);
        seen.gives("edition", library::value::sequence_edition(&m.sequence), edition, &[]);
        for i in 0..65 {
            let wanted = if i < count { (0, m.sequence.steps[i]) } else { (3, NO_STEP) };
            let fields = &["slot", "function", "state", "distance", "value", "mark"];
            seen.gives("step", library::step(&m, i), wanted, &[("scm_sequence_step", fields), ("scm_sequence", &["steps"])]);
            let by_value = library::value::step(&m.sequence, i);
            seen.gives("step", (by_value.number, by_value.step), wanted, &[("scm_step_result", &["number", "step"])]);
            step_readers(seen, &m, i);
        }
        for state in 0..6 {
            progress(seen, &Master { state, ..m });
        }
        for slot in 0..9 {
            slot_readers(seen, &m, slot);
        }
    }
}

fn slot_readers(seen: &mut Seen, m: &Master, slot: usize) {
    let (number, s, c) = if slot < 8 { (0, m.slots[slot], m.sequence.clients[slot]) } else { (3, NO_SLOT, NO_CLIENT) };
    let fields = &["taken", "wanted", "report", "name"];
    let wanted = SlotView { taken: s.taken, wanted: s.wanted, report: s.report, name: s.name };
    seen.gives("slot", library::slot(m, slot), (number, wanted), &[("scm_slot_view", fields), ("scm_slot_state", fields)]);
    let r = library::value::slot(m, slot);
    let given = (r.number, r.taken, r.wanted, r.report, r.name);
    let fields = &["number", "taken", "wanted", "report", "name"];
    seen.gives("slot", given, (number, s.taken, s.wanted, s.report, s.name), &[("scm_slot_result", fields)]);

    let wanted = ClientView {
        used: c.used,
        name: c.name,
        master_name: c.master,
        version_length: c.version.length,
        version: c.version.bytes,
        configuration_length: c.configuration.length,
        configuration: c.configuration.bytes,
    };
    let view = &["used", "name", "master_name", "version_length", "version", "configuration_length", "configuration"];
    let record = &["used", "name", "master", "version", "configuration"];
    seen.gives("client", library::client(m, slot), (number, wanted), &[("scm_client_view", view), ("scm_client_record", record)]);
    let r = library::value::client(&m.sequence, slot);
    seen.gives("client", (r.number, r.client), (number, c), &[("scm_client_result", &["number", "client"]), ("scm_sequence", &["clients"])]);
}

/// Steps that are taken, and commands that have left.
fn step_readers(seen: &mut Seen, m: &Master, i: usize) {
    let wanted = if i < m.recording.count { (0, m.recording.steps[i]) } else { (3, NO_TAKEN) };
    let rows: Rows = &[("scm_taken_step", &["step", "tan", "status"]), ("scm_recording", &["count", "steps"])];
    seen.gives("taken", library::taken(m, i), wanted, rows);
    let by_value = library::value::taken(&m.recording, i);
    seen.gives("taken", (by_value.number, by_value.taken), wanted, &[("scm_taken_result", &["number", "taken"])]);
    let wanted = if i < m.playback.sent { (0, m.playback.commands[i]) } else { (3, NO_SENT) };
    let rows: Rows = &[("scm_sent_step", &["tan", "answer", "left"]), ("scm_playback", &["sent", "commands"])];
    seen.gives("sent", library::sent(m, i), wanted, rows);
    let by_value = library::value::sent(&m.playback, i);
    seen.gives("sent", (by_value.number, by_value.sent), wanted, &[("scm_sent_result", &["number", "sent"])]);
}

fn progress(seen: &mut Seen, m: &Master) {
    let (recording, playback) = (&m.recording, &m.playback);
    let (ticks, distance, count) = match m.state {
        4 => (playback.ticks, playback.distance, playback.sent),
        _ => (recording.ticks, recording.distance, recording.count),
    };
    let wanted = ProgressView { ticks, distance, count };
    seen.gives("progress", library::progress(m), wanted, &[("scm_progress_view", &["ticks", "distance", "count"])]);
    seen.gives("progress", library::value::progress(m.state, recording, playback), wanted, &[]);
}

/// Wanted, the last report, and a slot that is emptied.
fn clients(seen: &mut Seen, random: &mut Random, slot: usize) {
    let mut m = any_in(random, 1);
    m.slots[slot].taken = 1;
    for wanted in [0, 1] {
        m.slots[slot].wanted = 1 - wanted;
        let mut after = m;
        after.slots[slot].wanted = wanted;
        let mut out = [0; 8];
        let given = if wanted == 1 { library::enable(&m, slot, &mut out) } else { library::disable(&m, slot, &mut out) };
        event(seen, "enable or disable", &m, &given, &after);
    }
    for report in [1, 2, 4, 5] {
        m.slots[slot].wanted = 1;
        let mut after = m;
        after.slots[slot].report = report;
        event(seen, "report", &m, &library::report(&m, slot, u32::from(report)), &after);
    }
    let mut after = m;
    after.slots[slot] = NO_SLOT;
    event(seen, "lost", &m, &library::lost(&m, slot), &after);
}

/// An attachment fills its slot with what is kept of its pool.
fn attachment(seen: &mut Seen, random: &mut Random, slot: usize) {
    let shape = Shape { functions: 40, states: 40, shortest: 0, longest: 20, unlisted: 0 };
    let pool = Pool::legal(random, shape, 16_384).bytes();
    let mut m = any_in(random, 1);
    m.slots[slot].taken = 0;
    let name = random.number();
    let mut after = m;
    after.slots[slot] = Slot { taken: 1, wanted: 0, report: 0, name, profile: library::profile_of(&pool) };
    event(seen, "attach", &m, &library::attach(&m, slot, name, &pool), &after);
}

/// What leads from one state to another and changes nothing else, or blanks what is not needed there.
fn states(seen: &mut Seen, random: &mut Random) {
    let m = any_in(random, 0);
    event(seen, "on", &m, &library::on(&m), &Master { state: 1, ..m });
    let mut m = any_in(random, 1);
    m.slots.iter_mut().for_each(|slot| slot.report = 0);
    event(seen, "off", &m, &library::off(&m), &Master { state: 0, ..m });
    m.slots.iter_mut().for_each(|slot| slot.report = 1);
    with_client(&mut m, 3, 1, 1);
    event(seen, "record", &m, &library::record(&m), &Master { state: 2, recording: NO_RECORDING, ..m });
    let m = any_in(random, 3);
    event(seen, "cancel", &m, &library::cancel(&m), &ended(&m, 1));
    let m = any_in(random, 4);
    event(seen, "abort", &m, &library::abort(&m), &ended(&m, 5));
    let mut m = any_in(random, 4);
    with_client(&mut m, 6, 4, 1);
    let message = [0x31, 0xFF, 0xFF, 2, 0xFF, 0xFF, 0xFF, 0xFF];
    event(seen, "client abort", &m, &library::client_abort(&m, 6, &message), &ended(&m, 5));
}

/// E.4, whose answer's bytes are those of E.5.
fn indicated(seen: &mut Seen, what: &str, m: &Master, slot: usize, message: [u8; 8], after: &Master) {
    let mut out = [0; 8];
    event(seen, what, m, &library::indication(m, slot, &message, &mut out), after);
    seen.gives(what, out, [0x32, message[1], message[2], 0, message[3], 0xFF, 0xFF, 0xFF], &[]);
}

/// An indication that begins step `place` of a recording, and one that finishes it.
fn indication(seen: &mut Seen, random: &mut Random, place: usize) {
    let (slot, tan, value) = (place % 8, random.number() as u8, random.number() as u32);
    let trigger = random.pick(&[1, 2, 255]);
    let mut m = any_in(random, 2);
    with_client(&mut m, slot, 2, trigger);
    m.recording.count = place;
    m.recording.steps.iter_mut().for_each(|taken| taken.tan = !tan);
    m.recording.clients[slot].used = u8::from(random.once_in(2));

    let distance = u8::from(trigger == 2);
    let mark = if trigger == 2 { m.recording.distance } else { m.recording.ticks };
    let mut after = m;
    after.recording.count = place + 1;
    let step = Step { slot: slot as u8, function: FUNCTION, state: STATE, distance, value: 0, mark };
    after.recording.steps[place] = Taken { step, tan, status: 1 };
    let Slot { name, profile, .. } = m.slots[slot];
    if m.recording.clients[slot].used == 0 {
        let (version, configuration) = (profile.version, profile.configuration);
        after.recording.clients[slot] = Client { used: 1, name, master: profile.master, version, configuration };
    }
    let bytes = value.to_le_bytes();
    indicated(seen, "start of a step", &m, slot, [0x32, FUNCTION, 0x40 + STATE, tan, 9, 9, 9, 9], &after);

    let m = after;
    after.recording.steps[place].status = 2;
    after.recording.steps[place].step.value = value;
    let message = [0x32, FUNCTION, 0x80 + STATE, tan, bytes[0], bytes[1], bytes[2], bytes[3]];
    indicated(seen, "end of a step", &m, slot, message, &after);
}

/// A playback in which step `place` is the next to leave, and all before it are done.
fn playing(random: &mut Random, place: usize) -> Master {
    let mut m = any_in(random, 4);
    m.playback.ticks = random.below(30_000) as u32;
    m.playback.distance = random.below(1 << 30) as u32;
    m.playback.sent = place;
    m.playback.commands.iter_mut().for_each(|command| command.answer = 2);
    m.sequence.count = 64;
    m
}

/// The step of this place leaves when the ticks or millimetres counted reach its mark, and its frame says it.
fn leaving(seen: &mut Seen, random: &mut Random, place: usize) {
    for by_distance in [0, 1] {
        let mut m = playing(random, place);
        let counted = if by_distance == 1 { m.playback.distance + 700 } else { m.playback.ticks + 1 };
        m.sequence.steps[place].distance = by_distance;
        m.sequence.steps[place].mark = counted + 1;
        let mut after = m;
        after.playback.ticks += 1;
        after.playback.distance += 700;
        let mut frames = [0xEE; 576];
        event(seen, "tick before a step is due", &m, &library::tick(&m, 700, &mut frames), &after);
        seen.gives("frames", frames, [0; 576], &[]);

        m.sequence.steps[place].mark = counted;
        after.sequence.steps[place].mark = counted;
        after.tan = m.tan.wrapping_add(1);
        after.playback.sent = place + 1;
        after.playback.commands[place] = Sent { tan: after.tan, answer: 0, left: after.playback.ticks };
        let given = library::value::tick(&m, 700, &mut frames);
        event(seen, "tick at which a step leaves", &m, &given, &after);
        seen.gives("count", given.count, 1, &[("scm_outcome", &["count"])]);
        let Step { slot, function, state, value, .. } = m.sequence.steps[place];
        let value = value.to_le_bytes();
        let wanted = [slot, 0x33, function, state, after.tan, value[0], value[1], value[2], value[3]];
        seen.gives("frame", &frames[..9], &wanted[..], &[]);
    }
}

/// An answer marks the command that it matches, and no other; without one, 16 ticks after it left, the playback is over.
fn answer(seen: &mut Seen, random: &mut Random, place: usize) {
    let mut m = playing(random, 64);
    for (i, step) in m.sequence.steps.iter_mut().enumerate() {
        step.slot = (i % 8) as u8;
        step.state %= 64;
    }
    m.playback.commands.iter_mut().zip(100..).for_each(|(command, tan)| command.tan = tan);
    m.playback.commands[place].answer = 0;
    let other = (place + 1) % 64;
    m.playback.commands[other].answer = 1;
    let slot = place % 8;
    with_client(&mut m, slot, 4, 1);
    let step = m.sequence.steps[place];
    for (status, answer) in [(0x40, 1), (0x80, 2), (0x00, 2)] {
        let tan = m.playback.commands[place].tan;
        let message = [0x34, step.function, status + step.state, 0, tan, 0xFF, 0xFF, 0xFF];
        let mut after = m;
        after.playback.commands[place].answer = answer;
        let mut out = [0; 8];
        event(seen, "answer", &m, &library::answer(&m, slot, &message, &mut out), &after);
        seen.gives("acknowledgement", out, [0x34, message[1], message[2], tan, 0xFF, 0xFF, 0xFF, 0xFF], &[]);
    }
    let now = m.playback.ticks + 1;
    for (left, over) in [(now.wrapping_sub(15), false), (now.wrapping_sub(16), true)] {
        m.playback.commands[place].left = left;
        let mut after = m;
        after.playback.ticks = now;
        if over {
            after = ended(&m, 5);
        }
        event(seen, "tick on which an answer is late", &m, &library::tick(&m, 0, &mut [0; 576]), &after);
    }
}

/// A tick of a recording counts ticks and millimetres.
fn counting(seen: &mut Seen, random: &mut Random) {
    for state in [2, 3] {
        let mut m = any_in(random, state);
        m.recording.ticks = 0x1234;
        m.recording.distance = 0x2345_6789;
        let mut after = m;
        after.recording.ticks += 1;
        after.recording.distance += 0xABCD;
        event(seen, "tick of a recording", &m, &library::tick(&m, 0xABCD, &mut [0; 576]), &after);
    }
}

/// The steps of a recording and their clients become the sequence.
fn end_of_recording(seen: &mut Seen, random: &mut Random) {
    for count in [8, 64] {
        let mut m = any_in(random, 2);
        m.recording.count = count;
        for (i, taken) in m.recording.steps.iter_mut().enumerate() {
            taken.step.slot = (i % 8) as u8;
            taken.status = 2 * (i as u8 % 2);
        }
        m.recording.clients.iter_mut().for_each(|client| client.used = 1);
        let mut after = ended(&m, 1);
        (after.sequence.count, after.sequence.edition) = (count, 1);
        after.sequence.clients = m.recording.clients;
        for (i, (step, taken)) in after.sequence.steps.iter_mut().zip(&m.recording.steps).enumerate() {
            *step = if i < count { taken.step } else { NO_STEP };
        }
        event(seen, "stop", &m, &library::stop(&m), &after);
    }
}

/// Each field of a sequence is stored at its place in its block, and loaded from there.
fn stored_sequence(seen: &mut Seen, random: &mut Random) {
    for (clients, steps) in [(8, 64), (8, 8), (1, 1)] {
        let sequence = blocks::sequence(random, clients, steps);
        let wanted = stored::of(&sequence);
        let m = Master { sequence: render::sequence(&sequence), ..any_in(random, 1) };
        let mut out = vec![0; wanted.len()];
        let given = library::value::store(&m, &mut out);
        event(seen, "store", &m, &given, &m);
        seen.gives("bytes stored", given.count as usize, wanted.len(), &[("scm_outcome", &["count"])]);
        seen.gives("blocks", &out, &wanted, &[]);
        let other = any_in(random, 1);
        event(seen, "load", &other, &library::load(&other, &wanted), &Master { sequence: m.sequence, ..other });
    }
}

/// Of all fields the edition is set, whatever it was.
fn edition(seen: &mut Seen, random: &mut Random) {
    for edition in [1, 2] {
        let mut m = any_in(random, 1);
        m.sequence.count = 1 + random.below(64);
        event(seen, "edition", &m, &library::edition(&m, edition), &m.in_edition(edition));
        event(seen, "edition", &m, &library::value::edition(&m, edition), &m.in_edition(edition));
    }
}

/// The check that does not hold: its number, slot and step, in every state.
fn verified(seen: &mut Seen, m: &Master, number: u8, slot: usize, step: usize) {
    for state in 0..6 {
        let m = Master { state, ..*m };
        let fields = &["slot", "step"];
        seen.gives("verification", library::verify(&m), (number, CheckView { slot, step }), &[("scm_check_view", fields)]);
        let given = library::value::verify(&m);
        let fields = &["number", "slot", "step"];
        seen.gives("verification", (given.number, given.slot, given.step), (number, slot, step), &[("scm_check_result", fields)]);
    }
}

/// No step, and each of the 64 with a function that its client lacks.
fn steps_verified(seen: &mut Seen, m: &Master) {
    let mut empty = *m;
    empty.sequence.count = 0;
    verified(seen, &empty, 7, 0, 0);
    for (i, slot) in (0..64).map(|i| (i, i % 8)) {
        let mut other = *m;
        other.sequence.steps[i].function = FUNCTION ^ 1;
        other.slots[slot].profile.trigger[usize::from(FUNCTION ^ 1)] = 0;
        verified(seen, &other, 11, slot, i);
    }
}

/// Ready, with a client in every slot and a sequence of 64 steps, of one slot after the other: every check of a start holds.
fn startable(random: &mut Random) -> Master {
    let mut m = any_in(random, 1);
    m.sequence.count = 64;
    for slot in 0..8 {
        with_client(&mut m, slot, 1, 1);
        let Slot { name, profile, .. } = &mut m.slots[slot];
        profile.version.length = 63;
        profile.configuration.length = 63;
        let kept = Client { used: 1, name: *name, master: profile.master, version: profile.version, configuration: profile.configuration };
        profile.mask |= 1;
        m.sequence.clients[slot] = kept;
    }
    for (i, step) in m.sequence.steps.iter_mut().enumerate() {
        (step.slot, step.function, step.state) = ((i % 8) as u8, FUNCTION, STATE);
    }
    m
}

/// A start looks at what the sequence keeps of a client and at the client that is there now.
fn verification(seen: &mut Seen, random: &mut Random) {
    let m = startable(random);
    event(seen, "start", &m, &library::start(&m), &Master { state: 4, playback: NO_PLAYBACK, ..m });
    verified(seen, &m, 0, 0, 0);
    steps_verified(seen, &m);
    for slot in 0..8 {
        let edits: [(u8, fn(&mut Slot, &mut Client)); 10] = [
            (8, |slot, _| slot.wanted = 0),
            (8, |slot, _| slot.report = 0),
            (9, |slot, _| slot.name ^= 1),
            (9, |_, client| client.name ^= 1),
            (9, |_, client| client.master ^= 1 << 63),
            (9, |slot, _| slot.profile.master ^= 1),
            (10, |slot, _| slot.profile.version.bytes[62] ^= 1),
            (10, |_, client| client.configuration.bytes[62] ^= 1),
            (11, |slot, _| slot.profile.states[usize::from(FUNCTION)] &= !(1 << STATE)),
            (12, |slot, _| slot.report = 2),
        ];
        for (number, edit) in edits {
            let mut other = m;
            edit(&mut other.slots[slot], &mut other.sequence.clients[slot]);
            let given = library::start(&other);
            seen.gives("start", given.number, number, &[]);
            seen.changes("start refused", &other, &given.master, &other);
            // The first step of a slot is that of its number.
            verified(seen, &other, number, slot, if number == 11 { slot } else { 0 });
        }
        identity_verified(seen, &m, slot);
    }
}

/// The mask leaves one bit of the NAME open: only in edition 2 a start looks at it, and only if it is one of the lowest 21.
fn identity_verified(seen: &mut Seen, m: &Master, slot: usize) {
    for bit in 0..64 {
        let mut other = *m;
        other.slots[slot].name ^= 1 << bit;
        other.slots[slot].profile.mask &= !(1 << bit);
        for edition in [0, 1, 2, 3, 258, u32::MAX] {
            let (number, named) = if edition == 2 && bit < 21 { (9, slot) } else { (0, 0) };
            let other = other.in_edition(edition);
            seen.gives("start", library::start(&other).number, number, &[]);
            seen.gives("verification", library::verify(&other), (number, CheckView { slot: named, step: 0 }), &[]);
        }
    }
}
