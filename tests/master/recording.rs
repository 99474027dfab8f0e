//! The model's recording: what is taken down in record and record complete, and the sequence that stays of it.

use super::messages::{self, Indication, Status};
use super::model::{self, Client, Master, Outcome, Report, State, LAST_TICK};
use std::collections::BTreeMap;

/// "At most 64 steps".
pub const MOST_STEPS: usize = 64;

#[derive(Clone, Copy, PartialEq, Debug)]
pub enum Mark {
    Ticks(u32),
    Millimetres(u32),
}

#[derive(Clone, Copy, PartialEq, Debug)]
pub struct Step {
    pub slot: usize,
    pub function: u8,
    pub state: u8,
    pub value: u32,
    pub mark: Mark,
}

/// "NAME, master NAME and both labels are kept with each client as its first step is stored".
#[derive(Clone, PartialEq, Debug)]
pub struct Identity {
    pub name: u64,
    pub master_name: u64,
    pub version_label: Vec<u8>,
    pub configuration_label: Vec<u8>,
}

impl Identity {
    pub fn of(client: &Client) -> Identity {
        Identity {
            name: client.name,
            master_name: client.pool.master_name,
            version_label: client.pool.version_label.clone(),
            configuration_label: client.pool.configuration_label.clone(),
        }
    }
}

/// "a recording gives 1"
pub const RECORDED: u32 = 1;

/// Steps in order of start, and the clients that they are of, by slot. "A sequence has an edition, 1 or 2"; it is 0 "with no
/// sequence".
#[derive(Clone, PartialEq, Debug, Default)]
pub struct Sequence {
    pub edition: u32,
    pub steps: Vec<Step>,
    pub clients: BTreeMap<usize, Identity>,
}

#[derive(Clone, Copy, PartialEq, Debug)]
pub enum Progress {
    OneShot,
    Open,
    Done,
    Failed,
}

#[derive(Clone, PartialEq, Debug)]
pub struct Taken {
    pub step: Step,
    pub tan: u8,
    pub progress: Progress,
}

#[derive(Clone, PartialEq, Debug, Default)]
pub struct Recording {
    pub ticks: u32,
    pub millimetres: u32,
    pub steps: Vec<Taken>,
    pub clients: BTreeMap<usize, Identity>,
}

/// The error in byte 4 of E.5, and the rule that gives it.
type Reply = (u8, &'static str);

impl Recording {
    pub fn open(&self) -> bool {
        self.steps.iter().any(|taken| taken.progress == Progress::Open)
    }

    /// "Look for this client's step with this TAN."
    fn find(&mut self, slot: usize, tan: u8) -> Option<&mut Taken> {
        self.steps.iter_mut().find(|taken| taken.step.slot == slot && taken.tan == tan)
    }

    /// "When it ends, only one-shot and done steps stay." Client records are "dropped if none of its steps stays".
    pub fn sequence(&self) -> Sequence {
        let stays = |taken: &&Taken| matches!(taken.progress, Progress::OneShot | Progress::Done);
        let steps: Vec<Step> = self.steps.iter().filter(stays).map(|taken| taken.step).collect();
        let mut clients = self.clients.clone();
        clients.retain(|&slot, _| steps.iter().any(|step| step.slot == slot));
        Sequence { edition: RECORDED, steps, clients }
    }

    /// "Not found: 01 unknown function, 02 unknown state, 03 if status is 10 or 11, FF in record complete, 04 if 64 are
    /// held, else a new step, answered 00: status 00 one-shot with its value, 01 open."
    fn begin(&mut self, slot: usize, client: &Client, it: &Indication, complete: bool) -> Reply {
        let function = match client.pool.function(it.function) {
            Some(function) => function,
            None => return (0x01, "01 unknown function"),
        };
        if !function.states.contains(&it.state) {
            return (0x02, "02 unknown state");
        }
        let (progress, value, rule) = match it.status {
            Status::Whole => (Progress::OneShot, it.value, "00 new one-shot"),
            Status::Started => (Progress::Open, 0, "00 new open"),
            Status::Finished => return (0x03, "03 not found, status 10"),
            Status::Error => return (0x03, "03 not found, status 11"),
        };
        if complete {
            return (0xFF, "FF record complete");
        }
        if self.steps.len() == MOST_STEPS {
            return (0x04, "04 64 held");
        }
        let mark = self.mark(function.trigger);
        let step = Step { slot, function: it.function, state: it.state, value, mark };
        self.steps.push(Taken { step, tan: it.tan, progress });
        self.clients.entry(slot).or_insert_with(|| Identity::of(client));
        (0x00, rule)
    }

    /// "The mark is ticks since the start, or millimetres if the preferred trigger is 2 in the pool then loaded".
    fn mark(&self, trigger: u8) -> Mark {
        if trigger == 2 {
            Mark::Millimetres(self.millimetres)
        } else {
            Mark::Ticks(self.ticks)
        }
    }
}

impl Taken {
    /// "Found, other function or state: 03." "Found: one-shot takes 00; open takes 01 (no change), 10 (done, this
    /// message's value kept) and 11 (failed, answer FF); done takes 01 and 10; failed takes 01 and 11 (answer FF). The
    /// other accepted ones answer 00; only the changes named here are made. Any other status answers 03."
    fn goes_on(&mut self, it: &Indication) -> Reply {
        if self.step.function != it.function {
            return (0x03, "03 other function");
        }
        if self.step.state != it.state {
            return (0x03, "03 other state");
        }
        match (self.progress, it.status) {
            (Progress::OneShot, Status::Whole) => (0x00, "00 one-shot repeated"),
            (Progress::Open, Status::Started) => (0x00, "00 start repeated"),
            (Progress::Open, Status::Finished) => {
                self.progress = Progress::Done;
                self.step.value = it.value;
                (0x00, "00 done")
            }
            (Progress::Open, Status::Error) => {
                self.progress = Progress::Failed;
                (0xFF, "FF failed")
            }
            (Progress::Done, Status::Started) => (0x00, "00 done takes 01"),
            (Progress::Done, Status::Finished) => (0x00, "00 done takes 10"),
            (Progress::Failed, Status::Started) => (0x00, "00 failed takes 01"),
            (Progress::Failed, Status::Error) => (0xFF, "FF failed takes 11"),
            (Progress::OneShot, _) => (0x03, "03 status for one-shot"),
            (Progress::Open, _) => (0x03, "03 status for open"),
            (Progress::Done, _) => (0x03, "03 status for done"),
            (Progress::Failed, _) => (0x03, "03 status for failed"),
        }
    }
}

impl Master {
    pub fn recording(&self) -> Option<&Recording> {
        match &self.state {
            State::Record(recording) | State::RecordComplete(recording) => Some(recording),
            _ => None,
        }
    }

    /// "Ready to record: 14, then 12."
    pub fn record(&mut self) -> Outcome {
        self.ready()?;
        if self.enabled_clients().next().is_none() {
            return model::refuse(14);
        }
        if self.enabled_clients().any(|client| client.report != Report::Ready) {
            return model::refuse(12);
        }
        self.state = State::Record(Recording::default());
        model::done()
    }

    /// "Record: stop goes to record complete if a step is open, else ready".
    pub fn stop(&mut self) -> Outcome {
        let recording = match &self.state {
            State::Record(recording) => recording.clone(),
            _ => return model::refuse(2),
        };
        if recording.open() {
            self.state = State::RecordComplete(recording);
        } else {
            self.end(&recording);
        }
        model::done()
    }

    /// "in both, cancel [..] goes to ready and keeps the old sequence."
    pub fn cancel(&mut self) -> Outcome {
        if self.recording().is_none() {
            return model::refuse(2);
        }
        self.state = State::Ready;
        model::done()
    }

    /// "A recording that keeps no step also keeps the old one."
    fn end(&mut self, recording: &Recording) {
        let sequence = recording.sequence();
        if !sequence.steps.is_empty() {
            self.sequence = sequence;
        }
        self.state = State::Ready;
    }

    /// "in both, [..] tick 36,000 goes to ready and keeps the old sequence."
    pub fn tick_recording(&mut self, millimetres: u32) {
        if let State::Record(recording) | State::RecordComplete(recording) = &mut self.state {
            recording.ticks += 1;
            recording.millimetres += millimetres;
            if recording.ticks == LAST_TICK {
                self.state = State::Ready;
            }
        }
    }

    /// E.4, answered with E.5.
    pub fn indication(&mut self, slot: usize, message: &[u8], out: &mut [u8]) -> Outcome {
        model::room(out, 8)?;
        let it = model::readable(messages::read_indication(message))?;
        self.occupied(slot)?;
        self.active()?;
        let client = self.slots[slot].clone().unwrap();
        let (error, rule) = match self.state {
            _ if !client.enabled() => return model::refuse_by(5, "not enabled"),
            State::Record(_) | State::RecordComplete(_) if client.report == Report::Record => {
                self.take_down(slot, &client, &it)
            }
            State::Record(_) | State::RecordComplete(_) => return model::refuse_by(5, "not reporting record"),
            State::Playback(_) if it.status == Status::Error => self.interrupted(slot, &it),
            State::Playback(_) => return model::refuse_by(5, "in playback, status not 11"),
            _ => return model::refuse_by(5, "in ready or abort"),
        };
        out[..8].copy_from_slice(&messages::indication_response(&it, error));
        model::done_by(rule)
    }

    fn take_down(&mut self, slot: usize, client: &Client, it: &Indication) -> Reply {
        let complete = matches!(self.state, State::RecordComplete(_));
        let recording = match &mut self.state {
            State::Record(recording) | State::RecordComplete(recording) => recording,
            _ => unreachable!(),
        };
        let reply = match recording.find(slot, it.tan) {
            Some(taken) => taken.goes_on(it),
            None => recording.begin(slot, client, it, complete),
        };
        // "record complete goes to ready when none is open"
        if complete && !recording.open() {
            let recording = recording.clone();
            self.end(&recording);
        }
        reply
    }

    /// "In playback an E.4 of status 11 from an enabled client is answered with error 06 and aborts if that client's
    /// function is a step of the sequence; if not, it is answered FF and changes nothing."
    fn interrupted(&mut self, slot: usize, it: &Indication) -> Reply {
        if self.sequence.steps.iter().any(|step| step.slot == slot && step.function == it.function) {
            self.state = State::Abort;
            return (0x06, "06 playback, a step");
        }
        (0xFF, "FF playback, no step")
    }
}
