//! Bytes to events on one master. Every byte string means something: an operation is a byte and its operands follow; where the bytes end,
//! operands are 0. Operations may speak of what the master holds (a held step, a sent one), so that few bytes reach deep states.

use crate::event::Event;
use crate::messages::{self, Answer, Indication, Status};
use crate::model::{State, SLOTS};
use crate::pair::{Pair, BUFFER};
use crate::playback::Answered;
use crate::pools::{edited, Pools};
use crate::storing::Known;
use std::rc::Rc;

/// So many events, at most, of one input.
const MOST_EVENTS: u64 = 700;
const FRAMES: usize = 576;
const ANSWER: usize = 8;

/// The last of eight IDs of a function or a state are these, which a pool may not have; the others are its own.
const FUNCTIONS: [u8; 2] = [5, 200];
const STATES: [u8; 2] = [2, 62];
const OWN: usize = 6;
const VALUES: [u32; 8] = [0, 240, u32::MAX, 0x1234_5678, 0x8000_0000, 0xFFFF, 0x1_0000, 1];
const SPEEDS: [u32; 12] = [0, 1, 100, 400, 1_000, 9_999, 65_534, 65_535, 65_536, u32::MAX, 255, 256];
/// By their place: ready, record, disabled, playback, abort, and three of no known state.
const REPORTS: [u32; 8] = [1, 2, 0, 4, 5, 3, 6, 257];
const ERRORS: [u8; 8] = [0, 0, 0, 0, 1, 2, 0xFF, 4];
/// By their place, the first two are editions, the others are none.
const EDITIONS: [u32; 8] = [2, 1, 0, 3, 257, 65_538, 0x8000_0001, u32::MAX];
/// What NAMEs differ in, within the identity number and just above it.
const IDENTITIES: [u64; 4] = [1, 1 << 20, 1 << 21, 0x1F_FFFF];

/// The operations, by the byte that begins each.
pub mod op {
    pub const ON: u8 = 0;
    pub const OFF: u8 = 1;
    pub const ATTACH: u8 = 2; // slot, sample and NAME, variant
    pub const ENABLE: u8 = 3; // slot
    pub const DISABLE: u8 = 4; // slot
    pub const REPORT: u8 = 5; // slot and report
    pub const LOST: u8 = 6; // slot
    pub const RECORD: u8 = 7;
    pub const STOP: u8 = 8;
    pub const CANCEL: u8 = 9;
    pub const INDICATE: u8 = 10; // slot, function and status; state and value; TAN
    pub const GO_ON: u8 = 11; // which held step; status and value
    pub const CLIENT_ABORT: u8 = 12; // slot and error
    pub const START: u8 = 13;
    pub const ABORT: u8 = 14;
    pub const TICK: u8 = 15; // speed
    pub const TICKS: u8 = 16; // speed, how many
    pub const SKIP: u8 = 17; // speed, how many (two bytes)
    pub const ANSWER: u8 = 18; // which sent step; status, error and what does not match
    pub const RAW: u8 = 19; // slot and call, length, bytes
    pub const LEND: u8 = 20; // the next event is lent other than enough
    pub const FAR: u8 = 21; // the next event is of a slot that is not
    pub const SPOIL: u8 = 22; // place and bits of the next message
    pub const ALL_REPORT: u8 = 23; // report of every client
    pub const MANY: u8 = 24; // as INDICATE, how many: TANs count up from the one given
    pub const PLAY: u8 = 25; // speed, how many: ticks, each with an answer "done" to what is sent
    pub const READERS: u8 = 26;
    pub const EDITED: u8 = 27; // as ATTACH, with edits of the pool
    pub const STORE: u8 = 28;
    pub const LOAD: u8 = 29; // from which blocks, and their operands; how many edits, and these
    pub const EDITION: u8 = 30; // which edition, or any number (four bytes)
    pub const ALL: u8 = 31;
}

/// What is left of an input.
pub struct Bytes<'a>(pub &'a [u8]);

impl<'a> Bytes<'a> {
    pub fn next(&mut self) -> Option<u8> {
        let (first, rest) = self.0.split_first()?;
        self.0 = rest;
        Some(*first)
    }

    pub fn byte(&mut self) -> u8 {
        self.next().unwrap_or(0)
    }

    pub fn wide(&mut self) -> u16 {
        u16::from_le_bytes([self.byte(), self.byte()])
    }

    pub fn long(&mut self) -> u32 {
        u32::from(self.wide()) | u32::from(self.wide()) << 16
    }

    /// At most so many bytes.
    pub fn take(&mut self, most: usize) -> &'a [u8] {
        let (taken, rest) = self.0.split_at(most.min(self.0.len()));
        self.0 = rest;
        taken
    }

    pub fn rest(&mut self) -> &'a [u8] {
        self.take(usize::MAX)
    }
}

/// What is other than usual about the next event.
#[derive(Default)]
struct Twist {
    room: Option<u8>,
    far: Option<u8>,
    spoil: Option<(u8, u8)>,
}

pub struct Play<'a> {
    pub pair: &'a mut Pair,
    pub pools: &'a Pools,
    known: &'a Known,
    /// What was stored last.
    stored: Vec<u8>,
    bytes: Bytes<'a>,
    twist: Twist,
    end: u64,
}

impl<'a> Play<'a> {
    pub fn new(pair: &'a mut Pair, pools: &'a Pools, known: &'a Known, bytes: Bytes<'a>) -> Play<'a> {
        pair.begin();
        let end = pair.events + MOST_EVENTS;
        Play { pair, pools, known, stored: Vec::new(), bytes, twist: Twist::default(), end }
    }

    pub fn run(mut self) {
        while self.pair.events < self.end {
            match self.bytes.next() {
                Some(byte) => self.operation(byte % op::ALL),
                None => break,
            }
        }
        self.pair.end();
    }

    fn operation(&mut self, operation: u8) {
        match operation {
            op::ON => self.does(Event::On),
            op::OFF => self.does(Event::Off),
            op::ATTACH => self.attach(0),
            op::EDITED => self.attach(2),
            op::RECORD => self.does(Event::Record),
            op::STOP => self.does(Event::Stop),
            op::CANCEL => self.does(Event::Cancel),
            op::START => self.does(Event::Start),
            op::ABORT => self.does(Event::Abort),
            op::INDICATE => self.indicate(false),
            op::MANY => self.indicate(true),
            op::GO_ON => self.go_on(),
            op::TICK => self.ticks(1),
            op::TICKS => self.ticks(64),
            op::SKIP => self.skip(),
            op::ANSWER => self.answer(),
            op::PLAY => self.play(),
            op::RAW => self.raw(),
            op::READERS => self.pair.readers(),
            op::STORE => self.store(),
            op::LOAD => self.load(),
            op::EDITION => self.edition(),
            op::LEND => self.twist.room = self.bytes.next(),
            op::FAR => self.twist.far = self.bytes.next(),
            op::SPOIL => self.twist.spoil = Some((self.bytes.byte(), self.bytes.byte())),
            op::ALL_REPORT => self.all_report(),
            _ => self.of_slot(operation),
        }
    }

    /// Operations of one byte: the slot, and something else in the other five bits.
    fn of_slot(&mut self, operation: u8) {
        let byte = self.bytes.byte();
        let (slot, other) = (usize::from(byte % 8), byte / 8);
        self.does(match operation {
            op::ENABLE => Event::Enable { slot, room: ANSWER },
            op::DISABLE => Event::Disable { slot, room: ANSWER },
            op::LOST => Event::Lost { slot },
            op::REPORT => Event::Report { slot, report: REPORTS[usize::from(other % 8)] },
            _ => Event::ClientAbort { slot, message: vec![0x31, 0xFF, 0xFF, [1, 2, 3, 0xFF, 0, 4][usize::from(other % 6)], 0, 0, 0, 0] },
        });
    }

    fn all_report(&mut self) {
        let report = REPORTS[usize::from(self.bytes.byte() % 8)];
        for slot in 0..SLOTS {
            if self.pair.library.slots[slot].taken == 1 {
                self.does(Event::Report { slot, report });
            }
        }
    }

    fn does(&mut self, mut event: Event) {
        let twist = std::mem::take(&mut self.twist);
        if let Some(far) = twist.far {
            move_far(&mut event, far);
        }
        if let Some(lent) = twist.room {
            lend(&mut event, lent);
        }
        if let Some((place, bits)) = twist.spoil {
            spoil(&mut event, usize::from(place), bits);
        }
        self.pair.event(&event);
    }

    /// The NAME is the sample's own in this slot, one that is attached, another sample's, or one with a bit changed, or with another identity number.
    fn attach(&mut self, edits: usize) {
        let slot = usize::from(self.bytes.byte() % 8);
        let (which, variant) = (self.bytes.byte(), usize::from(self.bytes.byte()));
        let client = self.pools.client(usize::from(which % 8), variant).clone();
        let own = client.name ^ (slot as u64) << 32;
        let name = match which / 8 {
            0..=15 => own,
            16..=19 => self.pair.model.slots.iter().flatten().next().map_or(own, |client| client.name),
            20..=23 => self.pools.client(usize::from(which % 8) + 1, 0).name ^ (slot as u64) << 32,
            bit @ 24..=27 => own ^ 1 << (bit * 2),
            place => own ^ IDENTITIES[usize::from(place) % 4],
        };
        let pool = if edits == 0 { client.pool } else { Rc::new(edited(client.pool.to_vec(), &mut self.bytes, edits)) };
        self.does(Event::Attach { slot, name, pool });
    }

    fn value(&mut self, form: u8) -> u32 {
        match form % 32 {
            form @ 0..=23 => VALUES[usize::from(form % 8)],
            _ => self.bytes.long(),
        }
    }

    /// The IDs of a function and a state of a slot's client, by their place in its pool.
    fn ids(&self, slot: usize, function: usize, state: usize) -> (u8, u8) {
        let functions = self.pair.model.client(slot).map_or(&[][..], |client| &client.pool.functions);
        let own = functions.get(function % functions.len().max(1)).filter(|_| function < OWN);
        let states = own.map_or(&[][..], |function| &function.states);
        let own_state = states.get(state % states.len().max(1)).filter(|_| state < OWN);
        (own.map_or(FUNCTIONS[function % 2], |function| function.id), own_state.copied().unwrap_or(STATES[state % 2]))
    }

    fn indicate(&mut self, many: bool) {
        let (first, second, tan) = (self.bytes.byte(), self.bytes.byte(), self.bytes.byte());
        let value = self.value(second / 8);
        let times = if many { 1 + self.bytes.byte() % 65 } else { 1 };
        let (function, state) = self.ids(usize::from(first % 8), usize::from(first / 8 % 8), usize::from(second % 8));
        let mut it = Indication { function, state, status: Status::ALL[usize::from(first / 64)], tan, value };
        for time in 0..times {
            it.tan = tan.wrapping_add(time);
            let message = messages::indication(&it).to_vec();
            self.does(Event::Indication { slot: usize::from(first % 8), message, room: ANSWER });
        }
    }

    /// A further E.4 of a step that is held; of a step of the sequence in playback.
    fn go_on(&mut self) {
        let (which, how) = (usize::from(self.bytes.byte()), self.bytes.byte());
        let status = Status::ALL[usize::from(how % 4)];
        let value = self.value(how / 4);
        let held = self.pair.model.recording().and_then(|it| it.steps.get(which % it.steps.len().max(1)).cloned());
        let steps = &self.pair.model.sequence.steps;
        let (step, tan) = match (held, steps.get(which % steps.len().max(1))) {
            (Some(taken), _) => (taken.step, taken.tan),
            (None, Some(step)) => (*step, 0),
            (None, None) => return,
        };
        let it = Indication { function: step.function, state: step.state, status, tan, value };
        self.does(Event::Indication { slot: step.slot, message: messages::indication(&it).to_vec(), room: ANSWER });
    }

    fn speed(&mut self) -> u32 {
        match self.bytes.byte() {
            byte @ 0..=239 => SPEEDS[usize::from(byte) % SPEEDS.len()],
            _ => u32::from(self.bytes.wide()),
        }
    }

    /// At most `most` ticks.
    fn ticks(&mut self, most: u8) {
        let millimetres = self.speed();
        let times = if most == 1 { 1 } else { 1 + self.bytes.byte() % most };
        for _ in 0..times {
            self.does(Event::Tick { millimetres, room: FRAMES });
        }
    }

    fn skip(&mut self) {
        let millimetres = self.speed();
        let ticks = u32::from(self.bytes.wide());
        if millimetres <= 65_535 {
            self.pair.skip(ticks, millimetres);
        }
    }

    /// The sent steps: slot, function, state, TAN, and whether an answer is still waited for.
    fn sent(&self) -> Vec<(usize, Answer, bool)> {
        let playback = match &self.pair.model.state {
            State::Playback(playback) => playback,
            _ => return Vec::new(),
        };
        let sent = playback.commands.iter().zip(&self.pair.model.sequence.steps);
        sent.map(|(command, step)| {
            let answer = Answer { function: step.function, state: step.state, status: Status::Finished, error: 0, tan: command.tan };
            (step.slot, answer, command.answered == Answered::Not)
        })
        .collect()
    }

    /// An answer to a sent step, the youngest being 0, that may differ in one thing.
    fn answer(&mut self) {
        let (which, how) = (usize::from(self.bytes.byte()), self.bytes.byte());
        let sent = self.sent();
        let missing = (0, Answer { function: 5, state: 2, status: Status::Whole, error: 0, tan: which as u8 }, false);
        let (mut slot, mut it, _) = sent.into_iter().rev().cycle().nth(which % 64).unwrap_or(missing);
        it.status = Status::ALL[usize::from(how % 4)];
        it.error = ERRORS[usize::from(how / 4 % 8)];
        match how / 32 {
            4 => slot = (slot + 1) % SLOTS,
            5 => it.tan = it.tan.wrapping_add(1),
            6 => it.function ^= 1,
            7 => it.state ^= 1,
            _ => {}
        }
        self.does(Event::Answer { slot, message: messages::answer(&it).to_vec(), room: ANSWER });
    }

    /// Ticks, and an answer to every step that is sent, as clients give it that are never late.
    fn play(&mut self) {
        let millimetres = self.speed();
        for _ in 0..1 + self.bytes.byte() % 65 {
            self.does(Event::Tick { millimetres, room: FRAMES });
            for (slot, it, _) in self.sent().into_iter().filter(|(_, _, waited)| *waited) {
                self.does(Event::Answer { slot, message: messages::answer(&it).to_vec(), room: ANSWER });
            }
        }
    }

    fn store(&mut self) {
        let needed = self.pair.model.stored_bytes();
        let twisted = self.twist.room.is_some();
        self.does(Event::Store { room: needed });
        if !twisted && needed > 0 && self.pair.library.state == 1 {
            self.stored = self.pair.lent[..needed].to_vec();
        }
    }

    /// What was stored last, or blocks that are known, with an edit or two.
    fn load(&mut self) {
        let blocks = self.known.blocks(&mut self.bytes, &self.stored, 2);
        self.does(Event::Load { blocks: Rc::new(blocks) });
    }

    fn edition(&mut self) {
        let edition = match self.bytes.byte() {
            byte @ 0..=239 => EDITIONS[usize::from(byte % 8)],
            _ => self.bytes.long(),
        };
        self.does(Event::Edition { edition });
    }

    /// Any bytes of any length to one of the calls that read a message.
    fn raw(&mut self) {
        let byte = self.bytes.byte();
        let slot = usize::from(byte % 8);
        let length = usize::from(self.bytes.byte() % 20);
        let message = self.bytes.take(length).to_vec();
        self.does(match byte / 8 % 3 {
            0 => Event::Indication { slot, message, room: ANSWER },
            1 => Event::Answer { slot, message, room: ANSWER },
            _ => Event::ClientAbort { slot, message },
        });
    }
}

/// A slot that is not, and would be this one if its number were cut to a byte, to 16 or to 32 bits.
fn move_far(event: &mut Event, far: u8) {
    if let Event::Attach { slot, .. }
    | Event::Enable { slot, .. }
    | Event::Disable { slot, .. }
    | Event::Report { slot, .. }
    | Event::Lost { slot }
    | Event::Indication { slot, .. }
    | Event::ClientAbort { slot, .. }
    | Event::Answer { slot, .. } = event
    {
        *slot = [8, 15, 256 + *slot, 65_536 + *slot, (1 << 32) + *slot, usize::MAX][usize::from(far) % 6];
    }
}

/// Nothing, one byte too few, one more than enough, all there is, or any length.
fn lend(event: &mut Event, lent: u8) {
    if let Event::Enable { room, .. }
    | Event::Disable { room, .. }
    | Event::Indication { room, .. }
    | Event::Tick { room, .. }
    | Event::Answer { room, .. }
    | Event::Store { room } = event
    {
        *room = match lent {
            0..=31 => 0,
            32..=95 => room.saturating_sub(1),
            96..=127 => *room + 1,
            128..=159 => BUFFER,
            _ => usize::from(lent) * 4 % BUFFER,
        };
    }
}

/// Bits of one byte of the message, or its length.
fn spoil(event: &mut Event, place: usize, bits: u8) {
    if let Event::Indication { message, .. } | Event::ClientAbort { message, .. } | Event::Answer { message, .. } = event {
        if place % 16 < message.len() {
            message[place % 16] ^= bits;
        } else {
            message.resize(usize::from(bits) % 20, bits);
        }
    }
}
