//! What a recording keeps, reckoned from the indications that were answered and the ticks that were accepted, without the model: "order of
//! start", the mark at the start, and the 32-bit value of the finishing or the one-shot indication; its edition is the first.

use crate::event::Event;
use crate::library::{Master, Outcome, Step};

const READY: u8 = 1;
const RECORD_COMPLETE: u8 = 3;
const LAST_TICK: u32 = 36_000;

/// The statuses of an E.4.
const ONE_SHOT: u8 = 0;
const STARTS: u8 = 1;
const FINISHES: u8 = 2;

struct Taken {
    tan: u8,
    step: Step,
    /// One-shot, or finished: it stays.
    whole: bool,
    failed: bool,
}

/// The recording that goes on, as it is seen from outside.
#[derive(Default)]
pub struct Log {
    on: bool,
    ticks: u32,
    millimetres: u32,
    steps: Vec<Taken>,
}

impl Log {
    /// The promise that an accepted event broke, if any; `out` is what it wrote.
    pub fn check(&mut self, event: &Event, old: &Master, given: &Outcome, out: &[u8]) -> Option<&'static str> {
        match event {
            Event::Record => *self = Log { on: true, ..Log::default() },
            Event::Tick { millimetres, .. } => self.pass(1, *millimetres),
            Event::Indication { slot, message, .. } if self.on => self.indication(*slot, message, old, out[3]),
            _ => {}
        }
        let ended = self.on && given.master.state == READY;
        if matches!(event, Event::Tick { .. }) && self.on && ended != (self.ticks == LAST_TICK) {
            return Some("a tick ends a recording at tick 36,000 and at no other");
        }
        let wanted = match event {
            Event::Stop | Event::Indication { .. } if ended => self.kept(),
            _ => Vec::new(),
        };
        self.on = self.on && (2..=RECORD_COMPLETE).contains(&given.master.state);
        let sequence = &given.master.sequence;
        let alters = matches!(event, Event::Load { .. } | Event::Edition { .. });
        if wanted.is_empty() && !alters && *sequence != old.sequence {
            return Some("a sequence stays until a recording that keeps a step is ended, another one is loaded, or it gets an edition");
        }
        if !wanted.is_empty() && (sequence.steps.get(..sequence.count) != Some(&wanted[..]) || sequence.edition != 1) {
            return Some("the one-shot and done steps are kept, in order of start, with the value and mark of each, in edition 1");
        }
        None
    }

    /// So many ticks.
    pub fn pass(&mut self, ticks: u32, millimetres: u32) {
        self.ticks += ticks;
        self.millimetres = self.millimetres.wrapping_add(ticks.wrapping_mul(millimetres));
    }

    /// E.4: function, state and status, TAN, value; the error of its E.5 says whether it was taken.
    fn indication(&mut self, slot: usize, message: &[u8], old: &Master, error: u8) {
        let (function, state, status, tan) = (message[1], message[2] % 64, message[2] / 64, message[3]);
        let value = u32::from_le_bytes([message[4], message[5], message[6], message[7]]);
        let known = self.steps.iter_mut().find(|taken| usize::from(taken.step.slot) == slot && taken.tan == tan);
        match (known, status, error) {
            (Some(taken), FINISHES, 0) if !taken.whole => {
                taken.whole = true;
                taken.step.value = value;
            }
            (Some(taken), _, 0xFF) => taken.failed = true,
            (None, ONE_SHOT | STARTS, 0) => {
                let distance = u8::from(old.slots[slot].profile.trigger[usize::from(function)] == 2);
                let mark = if distance == 1 { self.millimetres } else { self.ticks };
                let step = Step { slot: slot as u8, function, state, distance, value, mark };
                self.steps.push(Taken { tan, step, whole: status == ONE_SHOT, failed: false });
            }
            _ => {}
        }
    }

    fn kept(&self) -> Vec<Step> {
        self.steps.iter().filter(|taken| taken.whole && !taken.failed).map(|taken| taken.step).collect()
    }
}
