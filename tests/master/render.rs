//! The model's state as the library's struct: every field, blank cells zero; and what the readers give of it.

use super::kept::Kept;
use super::library::{self, CheckView, ClientView, ProgressView, SlotView};
use super::model::{Client, Master, Report, State, SLOTS};
use super::playback::{Answered, Command, Playback};
use super::recording::{Identity, Mark, Progress, Recording, Sequence, Step, Taken};
use std::collections::BTreeMap;
use std::rc::Rc;

/// Remembers the profiles that it rendered last, slot by slot, for a pool may be large and stays the same for long.
pub struct Renderer {
    profiles: [Option<(Rc<Kept>, Box<library::Profile>)>; SLOTS],
}

impl Renderer {
    pub fn new() -> Renderer {
        Renderer { profiles: Default::default() }
    }

    pub fn render(&mut self, master: &Master, into: &mut library::Master) {
        into.state = state(&master.state);
        into.tan = master.tan;
        for (place, client) in master.slots.iter().enumerate() {
            match client {
                Some(client) => self.slot(place, client, &mut into.slots[place]),
                None => into.slots[place] = library::NO_SLOT,
            }
        }
        into.sequence = sequence(&master.sequence);
        into.recording = master.recording().map_or(library::NO_RECORDING, recording);
        into.playback = match &master.state {
            State::Playback(it) => playback(it),
            _ => library::NO_PLAYBACK,
        };
    }

    fn slot(&mut self, place: usize, client: &Client, into: &mut library::Slot) {
        into.taken = 1;
        into.wanted = u8::from(client.wanted);
        into.report = report(client.report);
        into.name = client.name;
        let cell = &mut self.profiles[place];
        if !cell.as_ref().map_or(false, |(pool, _)| Rc::ptr_eq(pool, &client.pool)) {
            *cell = Some((client.pool.clone(), Box::new(profile(&client.pool))));
        }
        into.profile = *cell.as_ref().unwrap().1;
    }
}

fn state(state: &State) -> u8 {
    match state {
        State::Inactive => 0,
        State::Ready => 1,
        State::Record(_) => 2,
        State::RecordComplete(_) => 3,
        State::Playback(_) => 4,
        State::Abort => 5,
    }
}

fn report(report: Report) -> u8 {
    match report {
        Report::Disabled => 0,
        Report::Ready => 1,
        Report::Record => 2,
        Report::Playback => 4,
        Report::Abort => 5,
    }
}

fn label(bytes: &[u8]) -> library::Label {
    let mut label = library::NO_LABEL;
    label.length = bytes.len() as u8;
    label.bytes[..bytes.len()].copy_from_slice(bytes);
    label
}

fn profile(pool: &Kept) -> library::Profile {
    let mut profile = library::Profile {
        master: pool.master_name,
        mask: pool.mask,
        version: label(&pool.version_label),
        configuration: label(&pool.configuration_label),
        ..library::NO_PROFILE
    };
    for function in &pool.functions {
        let id = usize::from(function.id);
        profile.trigger[id] = function.trigger;
        profile.states[id] = function.states.iter().fold(0, |bits, &state| bits | 1 << state);
    }
    profile
}

fn step(step: &Step) -> library::Step {
    let (distance, mark) = match step.mark {
        Mark::Ticks(mark) => (0, mark),
        Mark::Millimetres(mark) => (1, mark),
    };
    library::Step {
        slot: step.slot as u8,
        function: step.function,
        state: step.state,
        distance,
        value: step.value,
        mark,
    }
}

fn client(identity: &Identity) -> library::Client {
    library::Client {
        used: 1,
        name: identity.name,
        master: identity.master_name,
        version: label(&identity.version_label),
        configuration: label(&identity.configuration_label),
    }
}

fn clients(identities: &BTreeMap<usize, Identity>) -> [library::Client; SLOTS] {
    let mut cells = [library::NO_CLIENT; SLOTS];
    for (&slot, identity) in identities {
        cells[slot] = client(identity);
    }
    cells
}

pub fn sequence(sequence: &Sequence) -> library::Sequence {
    let mut cells = library::Sequence {
        count: sequence.steps.len(),
        edition: sequence.edition,
        clients: clients(&sequence.clients),
        ..library::NO_SEQUENCE
    };
    for (cell, it) in cells.steps.iter_mut().zip(&sequence.steps) {
        *cell = step(it);
    }
    cells
}

fn taken(taken: &Taken) -> library::Taken {
    let status = match taken.progress {
        Progress::OneShot => 0,
        Progress::Open => 1,
        Progress::Done => 2,
        Progress::Failed => 3,
    };
    library::Taken { step: step(&taken.step), tan: taken.tan, status }
}

fn recording(recording: &Recording) -> library::Recording {
    let mut cells = library::Recording {
        ticks: recording.ticks,
        distance: recording.millimetres,
        count: recording.steps.len(),
        clients: clients(&recording.clients),
        ..library::NO_RECORDING
    };
    for (cell, it) in cells.steps.iter_mut().zip(&recording.steps) {
        *cell = taken(it);
    }
    cells
}

fn sent(command: &Command) -> library::Sent {
    let answer = match command.answered {
        Answered::Not => 0,
        Answered::Started => 1,
        Answered::Done => 2,
    };
    library::Sent { tan: command.tan, answer, left: command.left }
}

fn playback(playback: &Playback) -> library::Playback {
    let mut cells = library::Playback {
        ticks: playback.ticks,
        distance: playback.millimetres,
        sent: playback.commands.len(),
        ..library::NO_PLAYBACK
    };
    for (cell, it) in cells.commands.iter_mut().zip(&playback.commands) {
        *cell = sent(it);
    }
    cells
}

/// What the readers must give: a number and a view; a slot above 7 and a step or a command past the end give 3 and nothing else.
pub mod view {
    use super::*;

    const NO_SLOT: SlotView = SlotView { taken: 0, wanted: 0, report: 0, name: 0 };

    pub fn state(master: &Master) -> u8 {
        super::state(&master.state)
    }

    pub fn slot(master: &Master, slot: usize) -> (u8, SlotView) {
        match master.slots.get(slot) {
            None => (3, NO_SLOT),
            Some(None) => (0, NO_SLOT),
            Some(Some(client)) => {
                let (wanted, report) = (u8::from(client.wanted), report(client.report));
                (0, SlotView { taken: 1, wanted, report, name: client.name })
            }
        }
    }

    /// "0 with no sequence"
    pub fn edition(master: &Master) -> u32 {
        if master.sequence.steps.is_empty() { 0 } else { master.sequence.edition }
    }

    pub fn step(master: &Master, place: usize) -> (u8, library::Step) {
        match master.sequence.steps.get(place) {
            None => (3, library::NO_STEP),
            Some(it) => (0, super::step(it)),
        }
    }

    pub fn client(master: &Master, slot: usize) -> (u8, ClientView) {
        match master.sequence.clients.get(&slot) {
            Some(identity) => (0, flat(&super::client(identity))),
            None => (if slot < SLOTS { 0 } else { 3 }, flat(&library::NO_CLIENT)),
        }
    }

    /// In playback its ticks and millimetres so far and the commands sent; in record and record complete those of the recording and the steps taken;
    /// in any other state there is neither.
    pub fn progress(master: &Master) -> ProgressView {
        let (ticks, distance, count) = match &master.state {
            State::Playback(it) => (it.ticks, it.millimetres, it.commands.len()),
            State::Record(it) | State::RecordComplete(it) => (it.ticks, it.millimetres, it.steps.len()),
            State::Inactive | State::Ready | State::Abort => (0, 0, 0),
        };
        ProgressView { ticks, distance, count }
    }

    pub fn taken(master: &Master, place: usize) -> (u8, library::Taken) {
        match master.recording().and_then(|recording| recording.steps.get(place)) {
            None => (3, library::NO_TAKEN),
            Some(it) => (0, super::taken(it)),
        }
    }

    pub fn sent(master: &Master, place: usize) -> (u8, library::Sent) {
        match &master.state {
            State::Playback(it) if place < it.commands.len() => (0, super::sent(&it.commands[place])),
            _ => (3, library::NO_SENT),
        }
    }

    /// The number of the first check that does not hold, its slot and its step.
    pub fn verify(master: &Master) -> (u8, CheckView) {
        match master.verify() {
            Ok(()) => (0, CheckView { slot: 0, step: 0 }),
            Err(failed) => (failed.refused.number, CheckView { slot: failed.slot, step: failed.step }),
        }
    }

    fn flat(client: &library::Client) -> ClientView {
        ClientView {
            used: client.used,
            name: client.name,
            master_name: client.master,
            version_length: client.version.length,
            version: client.version.bytes,
            configuration_length: client.configuration.length,
            configuration: client.configuration.bytes,
        }
    }
}
