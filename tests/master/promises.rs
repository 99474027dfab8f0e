//! Promises of documents 01 and 02 that are checked at run time on what the library gives, without the model.

use std::collections::VecDeque;

use super::event::Event;
use super::library::{Master, Outcome, Step};

const PLAYBACK: u8 = 4;
const ABORT: u8 = 5;
const FRAMES: usize = 576;
const LAST_TICK: u32 = 36_000;
const BLOCK: usize = 512;
const MOST_BLOCKS: usize = 7;

type Broken = Option<String>;

pub struct Promises {
    watch: Option<Watch>,
    rate: Rate,
}

impl Promises {
    pub fn new() -> Promises {
        Promises { watch: None, rate: Rate::default() }
    }

    /// The promise that an event broke, if any: the state before it, what it gave, and the lent bytes before and after.
    pub fn check(&mut self, event: &Event, old: &Master, given: &Outcome, before: &[u8], after: &[u8]) -> Broken {
        if given.number != 0 {
            return refusal(old, given, before, after);
        }
        if before[event.room()..] != after[event.room()..] {
            return broken("bytes that are not lent stay");
        }
        match (event, &mut self.watch) {
            (Event::Start, _) => self.watch = Some(Watch::new(old)),
            (Event::Tick { millimetres, .. }, watch) => {
                if let Some(promise) = frame_count(given, before, after) {
                    return Some(promise);
                }
                if let Some(promise) = self.rate.tick(&after[..9 * given.count as usize]) {
                    return Some(promise);
                }
                if let Some(watch) = watch {
                    if let Some(promise) = watch.tick(*millimetres, given, &after[..FRAMES]) {
                        return Some(promise);
                    }
                }
            }
            (Event::Answer { slot, message, .. }, Some(watch)) => watch.answer(*slot, message),
            (Event::Store { .. } | Event::Load { .. } | Event::Edition { .. }, _) => {
                if let Some(promise) = keeps(event, old, given, before, after) {
                    return Some(promise);
                }
            }
            _ => {}
        }
        if given.master.state != PLAYBACK {
            self.watch = None;
        } else if self.watch.is_none() {
            return broken("playback begins with a start");
        }
        None
    }
}

fn broken(promise: &str) -> Broken {
    Some(promise.to_string())
}

/// "Every number but 0 leaves the state and all lent memory unchanged."
fn refusal(old: &Master, given: &Outcome, before: &[u8], after: &[u8]) -> Broken {
    if given.master != *old {
        return broken("a refusal leaves the state unchanged");
    }
    if before != after {
        return broken("a refusal leaves the lent memory unchanged");
    }
    if given.count != 0 || (given.number != 6 && (given.code, given.object) != (0, 0)) {
        return broken("a refusal gives no other numbers");
    }
    None
}

/// The frame count is that of the frames in the buffer, which stand at its head. "Bytes past 576 stay."
fn frame_count(given: &Outcome, before: &[u8], after: &[u8]) -> Broken {
    let filled: Vec<bool> = after[..FRAMES].chunks(9).map(|frame| frame.iter().any(|&byte| byte != 0)).collect();
    let count = filled.iter().filter(|&&filled| filled).count();
    if count != given.count as usize || filled[..count].contains(&false) {
        return broken("the frame count is that of the frames");
    }
    if before[FRAMES..] != after[FRAMES..] {
        return broken("bytes past 576 stay");
    }
    None
}

/// What happens to a sequence in ready.
fn keeps(event: &Event, old: &Master, given: &Outcome, before: &[u8], after: &[u8]) -> Broken {
    match event {
        Event::Store { .. } => stores(old, given, before, after),
        Event::Load { .. } if given.master != (Master { sequence: given.master.sequence, ..*old }) => {
            broken("a load changes nothing but the sequence")
        }
        Event::Edition { edition } if given.master != old.in_edition(*edition) || !matches!(edition, 1 | 2) => {
            broken("a sequence gets edition 1 or 2, and nothing else changes")
        }
        _ => None,
    }
}

/// "blocks of 512 bytes, each with its own check": "the wrapping sum of the block's 127 leading 32-bit words and its number
/// from 1". "Bytes past the blocks stay. The state does not change."
fn stores(old: &Master, given: &Outcome, before: &[u8], after: &[u8]) -> Broken {
    let written = given.count as usize;
    if given.master != *old {
        return broken("a store changes nothing of the master");
    }
    if written == 0 || written % BLOCK != 0 || written > MOST_BLOCKS * BLOCK {
        return broken("a sequence is one to seven blocks");
    }
    if before[written..] != after[written..] {
        return broken("bytes past the blocks stay");
    }
    for (block, number) in after[..written].chunks(BLOCK).zip(1u32..) {
        let mut words = block.chunks(4).map(|word| u32::from_le_bytes(word.try_into().unwrap()));
        let sum = words.by_ref().take(127).fold(number, u32::wrapping_add);
        if words.next() != Some(sum) {
            return broken("the check of a block is the sum of its words and its number");
        }
    }
    None
}

/// E.1: a command leaves at most five times a second, and 100 ms lie between two times at least. By the bytes of the
/// frames alone, whatever playback they are of: those of the last nine ticks, the newest last.
#[derive(Default)]
struct Rate {
    last: VecDeque<Vec<[u8; 9]>>,
}

impl Rate {
    fn tick(&mut self, frames: &[u8]) -> Broken {
        let frames: Vec<[u8; 9]> = frames.chunks(9).map(|frame| frame.try_into().unwrap()).collect();
        for frame in &frames {
            let times = |frames: &Vec<[u8; 9]>| frames.iter().filter(|&other| other == frame).count();
            let now = times(&frames);
            if now + self.last.back().map_or(0, times) > 1 {
                return broken("a command leaves once in two ticks in a row at most");
            }
            if now + self.last.iter().map(times).sum::<usize>() > 5 {
                return broken("a command leaves five times in ten ticks in a row at most");
            }
        }
        self.last.push_back(frames);
        if self.last.len() > 9 {
            self.last.pop_front();
        }
        None
    }
}

/// A command that has left: its frame, the tick at which it first left, and whether any answer was taken for it.
struct Left {
    frame: [u8; 9],
    tick: u32,
    answered: bool,
}

/// A playback as it is seen from outside: the steps it was started with, and what left since.
struct Watch {
    steps: Vec<Step>,
    /// The first tick whose count reaches the step's mark.
    due: Vec<Option<u32>>,
    left: Vec<Left>,
    ticks: u32,
    millimetres: u64,
    tan: u8,
}

impl Watch {
    fn new(master: &Master) -> Watch {
        let steps = master.sequence.steps[..master.sequence.count].to_vec();
        let due = vec![None; steps.len()];
        Watch { steps, due, left: Vec::new(), ticks: 0, millimetres: 0, tan: master.tan }
    }

    fn tick(&mut self, millimetres: u32, given: &Outcome, frames: &[u8]) -> Broken {
        self.count(millimetres);
        let late = self.left.iter().any(|left| !left.answered && self.ticks - left.tick >= 16);
        let over = late || self.ticks >= LAST_TICK;
        if given.master.state != PLAYBACK {
            return match (over, given.master.state, given.count) {
                (false, _, _) => broken("a tick ends a playback at tick 36,000 or 16 ticks after a step left"),
                (_, ABORT, 0) => None,
                _ => broken("an aborting tick goes to abort and sends nothing"),
            };
        }
        if over {
            return broken("16 ticks after it left, and at tick 36,000, a step is answered or the playback is over");
        }
        self.leave();
        let leaving = self.left.iter().filter(|left| !left.answered && (self.ticks - left.tick) % 2 == 0);
        let mut wanted: Vec<u8> = leaving.flat_map(|left| left.frame).collect();
        wanted.resize(FRAMES, 0);
        if frames != &wanted[..] {
            return Some(self.first_wrong(frames, &wanted));
        }
        None
    }

    fn count(&mut self, millimetres: u32) {
        self.ticks += 1;
        self.millimetres += u64::from(millimetres);
        for (due, step) in self.due.iter_mut().zip(&self.steps) {
            let counted = if step.distance == 1 { self.millimetres } else { u64::from(self.ticks) };
            if due.is_none() && counted >= u64::from(step.mark) {
                *due = Some(self.ticks);
            }
        }
    }

    /// Step i first appears at exactly the greatest of d(j) + i − j over j up to i.
    fn leaving_tick(&self, step: usize) -> Option<u32> {
        let mut latest = 0;
        for (earlier, due) in self.due[..=step].iter().enumerate() {
            latest = latest.max((*due)? + (step - earlier) as u32);
        }
        Some(latest)
    }

    fn leave(&mut self) {
        for place in self.left.len()..self.steps.len() {
            if self.leaving_tick(place) != Some(self.ticks) {
                return;
            }
            self.tan = self.tan.wrapping_add(1);
            let frame = frame(&self.steps[place], self.tan);
            self.left.push(Left { frame, tick: self.ticks, answered: false });
        }
    }

    /// The TAN of E.7 is its byte 5.
    fn answer(&mut self, slot: usize, message: &[u8]) {
        for left in &mut self.left {
            if usize::from(left.frame[0]) == slot && left.frame[4] == message[4] {
                left.answered = true;
            }
        }
    }

    fn first_wrong(&self, frames: &[u8], wanted: &[u8]) -> String {
        let place = (0..64).find(|place| frames[9 * place..9 * place + 9] != wanted[9 * place..9 * place + 9]);
        let place = place.unwrap_or(0);
        let of = |bytes: &[u8]| format!("{:02X?}", &bytes[9 * place..9 * place + 9]);
        format!(
            "each step leaves at its tick and at every second one after it until answered: frame {place} is {}, not {}",
            of(frames),
            of(wanted)
        )
    }
}

/// "slot, then the eight of E.6"
fn frame(step: &Step, tan: u8) -> [u8; 9] {
    let value = step.value.to_le_bytes();
    [step.slot, 0x33, step.function, step.state, tan, value[0], value[1], value[2], value[3]]
}
