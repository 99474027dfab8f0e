//! A model of the master, written from document 01 and the requests of document 02 alone: its clients, its states, and
//! what leads from one to another. It is plain on purpose. Their sentences are quoted above the lines that follow them.
//! What is recorded is in recording.rs, the checks before a start in verification.rs, what is played back in
//! playback.rs, what is stored and loaded in stored.rs.

use super::kept::{self, Kept};
use super::messages;
use super::playback::Playback;
use super::recording::{Recording, Sequence};
use std::rc::Rc;

/// "Eight slots."
pub const SLOTS: usize = 8;
/// "tick 36,000"
pub const LAST_TICK: u32 = 36_000;

#[derive(Clone, Copy, PartialEq, Eq, Debug)]
pub enum Report {
    Disabled,
    Ready,
    Record,
    Playback,
    Abort,
}

impl Report {
    /// The numbers of decoded reports. "a report of no known state" is none.
    pub fn of(number: u32) -> Option<Report> {
        match number {
            0 => Some(Report::Disabled),
            1 => Some(Report::Ready),
            2 => Some(Report::Record),
            4 => Some(Report::Playback),
            5 => Some(Report::Abort),
            _ => None,
        }
    }
}

#[derive(Clone, Debug)]
pub struct Client {
    pub name: u64,
    pub pool: Rc<Kept>,
    pub wanted: bool,
    pub report: Report,
}

impl Client {
    /// "A client is enabled if wanted and its last report is not disabled."
    pub fn enabled(&self) -> bool {
        self.wanted && self.report != Report::Disabled
    }
}

#[derive(Clone, PartialEq, Debug)]
pub enum State {
    Inactive,
    Ready,
    Record(Recording),
    RecordComplete(Recording),
    Playback(Playback),
    Abort,
}

/// An accepted event: the frames that a tick wrote, or the bytes that a store did, and by which rule, where several lead to
/// number 0.
#[derive(Clone, Copy, PartialEq, Debug)]
pub struct Done {
    pub count: u32,
    pub rule: &'static str,
}

/// A refused one: its number, the D.9 code and the object with number 6, and by which rule, where several lead to it.
#[derive(Clone, Copy, PartialEq, Debug)]
pub struct Refused {
    pub number: u8,
    pub code: u8,
    pub object: u16,
    pub rule: &'static str,
}

pub type Outcome = Result<Done, Refused>;

pub fn done() -> Outcome {
    done_by("")
}

pub fn done_by(rule: &'static str) -> Outcome {
    Ok(Done { count: 0, rule })
}

pub fn refuse<T>(number: u8) -> Result<T, Refused> {
    refuse_by(number, "")
}

pub fn refuse_by<T>(number: u8, rule: &'static str) -> Result<T, Refused> {
    Err(Refused { number, code: 0, object: 0, rule })
}

/// Number 1: "lent output too short".
pub fn room(out: &[u8], wanted: usize) -> Result<(), Refused> {
    if out.len() < wanted {
        return refuse(1);
    }
    Ok(())
}

/// Number 4, where something that came in could not be read.
pub fn readable<T>(read: Option<T>) -> Result<T, Refused> {
    match read {
        Some(it) => Ok(it),
        None => refuse(4),
    }
}

#[derive(Clone, Debug)]
pub struct Master {
    pub state: State,
    pub tan: u8,
    pub slots: [Option<Client>; SLOTS],
    pub sequence: Sequence,
}

impl Master {
    /// "The TAN starts at 0 when the master is made".
    pub fn new() -> Master {
        Master { state: State::Inactive, tan: 0, slots: Default::default(), sequence: Sequence::default() }
    }

    pub fn client(&self, slot: usize) -> Option<&Client> {
        self.slots.get(slot).and_then(Option::as_ref)
    }

    pub fn enabled(&self, slot: usize) -> bool {
        self.client(slot).map_or(false, Client::enabled)
    }

    pub fn enabled_clients(&self) -> impl Iterator<Item = &Client> {
        self.slots.iter().flatten().filter(|client| client.enabled())
    }

    /// Number 3: "slot above 7, empty".
    pub fn occupied(&self, slot: usize) -> Result<(), Refused> {
        if self.client(slot).is_none() {
            return refuse_by(3, if slot < SLOTS { "empty" } else { "above 7" });
        }
        Ok(())
    }

    /// "While the master is inactive, every call on it but "on" gives 2".
    pub fn active(&self) -> Result<(), Refused> {
        if self.state == State::Inactive {
            return refuse(2);
        }
        Ok(())
    }

    /// Number 2, of what is allowed in state ready alone.
    pub fn ready(&self) -> Result<(), Refused> {
        if self.state != State::Ready {
            return refuse(2);
        }
        Ok(())
    }

    // "Master: inactive to ready (on); ready to inactive (off; 13 unless each attached client last reported disabled).
    // Neither changes anything else."

    pub fn on(&mut self) -> Outcome {
        if self.state != State::Inactive {
            return refuse(2);
        }
        self.state = State::Ready;
        done()
    }

    pub fn off(&mut self) -> Outcome {
        self.ready()?;
        if self.slots.iter().flatten().any(|client| client.report != Report::Disabled) {
            return refuse(13);
        }
        self.state = State::Inactive;
        done()
    }

    /// "Attaching (state ready) takes a NAME and pool and fills an empty slot, wanted off, last report disabled."
    pub fn attach(&mut self, slot: usize, name: u64, pool: &[u8]) -> Outcome {
        if slot >= SLOTS {
            return refuse_by(3, "above 7");
        }
        if self.slots[slot].is_some() {
            return refuse_by(3, "taken");
        }
        if self.slots.iter().flatten().any(|client| client.name == name) {
            return refuse_by(3, "NAME attached");
        }
        self.ready()?;
        let pool = match kept::accept(pool) {
            Ok(pool) => Rc::new(pool),
            Err((code, object)) => return Err(Refused { number: 6, code, object, rule: "" }),
        };
        self.slots[slot] = Some(Client { name, pool, wanted: false, report: Report::Disabled });
        done()
    }

    pub fn enable(&mut self, slot: usize, out: &mut [u8]) -> Outcome {
        self.want(slot, true, out)
    }

    pub fn disable(&mut self, slot: usize, out: &mut [u8]) -> Outcome {
        self.want(slot, false, out)
    }

    /// "Enabling and disabling (state ready) set wanted and write E.2, reason 01."
    fn want(&mut self, slot: usize, wanted: bool, out: &mut [u8]) -> Outcome {
        room(out, 8)?;
        self.occupied(slot)?;
        self.ready()?;
        self.slots[slot].as_mut().unwrap().wanted = wanted;
        out[..8].copy_from_slice(&messages::state_command(wanted));
        done()
    }

    pub fn report(&mut self, slot: usize, report: u32) -> Outcome {
        let report = readable(Report::of(report))?;
        self.occupied(slot)?;
        self.active()?;
        let client = self.slots[slot].as_mut().unwrap();
        // "A report other than disabled from a client not wanted gives 5, unless its last report was not disabled;
        // then it is taken."
        if report != Report::Disabled && !client.wanted && client.report == Report::Disabled {
            return refuse(5);
        }
        let enabled = client.enabled();
        client.report = report;
        if !enabled {
            self.leave_abort();
            return done_by("not enabled");
        }
        match report {
            // "A lost client empties its slot; so does a wanted client that reports disabled after another report."
            Report::Disabled => self.empty(slot),
            // "to abort on [..] an enabled client [..] reporting record or abort"
            Report::Record | Report::Abort if matches!(self.state, State::Playback(_)) => self.state = State::Abort,
            _ => self.leave_abort(),
        }
        done_by("enabled")
    }

    pub fn lost(&mut self, slot: usize) -> Outcome {
        self.occupied(slot)?;
        self.active()?;
        if self.enabled(slot) {
            self.empty(slot);
            return done_by("enabled");
        }
        self.slots[slot] = None;
        self.leave_abort();
        done_by("not enabled")
    }

    /// The slot of a client that was enabled until now, lost or disabled. "in both [record, record complete], [..] the
    /// loss or disabling of an enabled client [..] goes to ready and keeps the old sequence"; playback goes "to abort
    /// on [..] an enabled client lost, disabled".
    fn empty(&mut self, slot: usize) {
        self.slots[slot] = None;
        match self.state {
            State::Record(_) | State::RecordComplete(_) => self.state = State::Ready,
            State::Playback(_) => self.state = State::Abort,
            _ => self.leave_abort(),
        }
    }

    /// "Abort goes to ready at the first later report, loss or tick where every enabled client's last report is abort."
    pub fn leave_abort(&mut self) {
        let all_abort = self.enabled_clients().all(|client| client.report == Report::Abort);
        if self.state == State::Abort && all_abort {
            self.state = State::Ready;
        }
    }

    /// E.3. Playback goes to abort on "E.3 from an enabled client". "E.3 otherwise gives 5."
    pub fn client_abort(&mut self, slot: usize, message: &[u8]) -> Outcome {
        readable(messages::read_client_abort(message))?;
        self.occupied(slot)?;
        self.active()?;
        if !matches!(self.state, State::Playback(_)) {
            return refuse_by(5, "not in playback");
        }
        if !self.enabled(slot) {
            return refuse_by(5, "not enabled");
        }
        self.state = State::Abort;
        done()
    }

    /// Playback goes "to abort on the operator's word".
    pub fn abort(&mut self) -> Outcome {
        if !matches!(self.state, State::Playback(_)) {
            return refuse(2);
        }
        self.state = State::Abort;
        done()
    }

    /// "A tick is 100 ms and brings the millimetres driven (0 to 65,535; more gives 4)."
    pub fn tick(&mut self, millimetres: u32, frames: &mut [u8]) -> Outcome {
        room(frames, 576)?;
        if millimetres > 65_535 {
            return refuse(4);
        }
        self.active()?;
        // "An aborting tick, or one in another active state, writes 576 zero bytes, count 0."
        let mut written = Vec::new();
        match self.state {
            State::Record(_) | State::RecordComplete(_) => self.tick_recording(millimetres),
            State::Playback(_) => written = self.tick_playback(millimetres),
            _ => self.leave_abort(),
        }
        let count = written.len() as u32;
        let mut bytes = written.concat();
        bytes.resize(576, 0);
        frames[..576].copy_from_slice(&bytes);
        Ok(Done { count, rule: "" })
    }
}
