//! Masters of any bits, which no call gives: tags out of range, counts above 64, cells that should be blank. What document 01 says of every call holds
//! of them too, and each tag that no call gives counts as a named one, as docs/DECISIONS.md says under "The master's state".

use crate::library::{self, CheckView, Master, Outcome, Plain, ProgressView, Step, NO_CLIENT, NO_SENT, NO_STEP, NO_TAKEN};
use crate::master::blocks::{self, DAMAGES};
use crate::master::event::Event;
use crate::master::{render, stored};
use crate::pool::generate::{Pool, Random, Shape};
use std::collections::{BTreeMap, BTreeSet};
use std::rc::Rc;

const COUNT: u64 = 1_000;
const SEED: u64 = 11_783;
/// The lent bytes stand at the head of so many, or of so many more than they are.
const BUFFER: usize = 600;
const BEHIND: usize = 24;

pub struct Run {
    random: Random,
    /// What is stored and loaded, and in which edition, is chosen by this.
    storing: Random,
    pool: Rc<Vec<u8>>,
    /// The numbers that each call gave.
    met: BTreeMap<&'static str, BTreeSet<u8>>,
}

/// COUNT masters, each through every call.
pub fn run(arguments: &[&str]) {
    let (count, seed) = crate::count_and_seed(arguments, COUNT, SEED);
    let mut run = Run::new(seed);
    let mut calls = 0;
    for _ in 0..count {
        let master = run.master();
        for event in run.events(&master) {
            run.hold(&event, &master);
            calls += 1;
        }
        readers(&master);
        run.verification(&master);
    }
    run.report(count, calls);
}

fn fail(what: &str, event: &Event, given: &Outcome) -> ! {
    crate::fail("bits", &format!("{what}: {event}: number {}, code {}, object {}, count {}", given.number, given.code, given.object, given.count))
}

impl Run {
    pub fn new(seed: u64) -> Run {
        let mut random = Random::new(seed);
        let shape = Shape { functions: 6, states: 8, shortest: 0, longest: 8, unlisted: 1 };
        let pool = Rc::new(Pool::legal(&mut random, shape, 4_000).bytes());
        Run { random, storing: Random::new(!seed), pool, met: BTreeMap::new() }
    }

    /// All bits by chance; mostly some tags in range or next to it, so that calls go further than their first test.
    pub fn master(&mut self) -> Master {
        let random = &mut self.random;
        let mut m = Master::made(|| random.number() as u8);
        if random.once_in(8) {
            return m;
        }
        m.state = random.pick(&[0, 1, 1, 1, 2, 2, 3, 4, 4, 4, 5, 6, 255]);
        let counts = [0, 1, 3, 63, 64, 65, usize::MAX];
        m.sequence.count = random.pick(&counts);
        m.recording.count = random.pick(&counts);
        m.playback.sent = random.pick(&counts);
        m.sequence.edition = random.pick(&[0, 1, 1, 2, 2, 2, 3, m.sequence.edition]);
        for slot in &mut m.slots {
            (slot.taken, slot.wanted) = (random.pick(&[0, 1, 1, 2, 255]), random.pick(&[0, 1, 1, 2, 255]));
            slot.report = random.pick(&[0, 1, 1, 1, 2, 2, 3, 4, 5, 5, 6, 255]);
        }
        if random.once_in(6) {
            m.slots.iter_mut().for_each(|slot| slot.report = 0);
        }
        if random.once_in(2) {
            m.recording.ticks = random.below(36_002) as u32;
            m.playback.ticks = random.below(36_002) as u32;
        }
        if random.once_in(2) {
            self.agree(&mut m);
        }
        m
    }

    /// Steps of slots and functions that are there, sent ones with an answer, and clients that are still the same.
    fn agree(&mut self, m: &mut Master) {
        let random = &mut self.random;
        let ready = random.once_in(2);
        for (slot, client) in m.slots.iter_mut().zip(&mut m.sequence.clients) {
            if ready {
                (slot.taken, slot.wanted, slot.report) = (random.pick(&[1, 7]), random.pick(&[1, 9]), 1);
            }
            (client.name, client.master) = (slot.name, slot.profile.master);
            (client.version, client.configuration) = (slot.profile.version, slot.profile.configuration);
        }
        let slots = &m.slots;
        let mut there = |step: &mut Step| {
            (step.slot, step.state) = (random.below(8) as u8, step.state % 64);
            let profile = &slots[usize::from(step.slot)].profile;
            let known = |f: &u8| profile.trigger[usize::from(*f)] != 0 && profile.states[usize::from(*f)] >> step.state & 1 == 1;
            step.function = (0..=255).find(known).unwrap_or(0);
        };
        m.sequence.steps.iter_mut().for_each(&mut there);
        m.recording.steps.iter_mut().for_each(|taken| there(&mut taken.step));
        for command in &mut m.playback.commands {
            command.answer = random.pick(&[0, 1, 2, 3, 255]);
            command.left = m.playback.ticks.wrapping_sub(random.below(20) as u32);
        }
        (0..random.below(4)).for_each(|_| self.spoil(m));
    }

    /// One thing that a start looks at is otherwise.
    fn spoil(&mut self, m: &mut Master) {
        let (slot, step) = (self.random.below(8), self.random.below(64));
        match self.random.below(8) {
            0 => m.slots[slot].wanted = 0,
            7 => m.slots[slot].name ^= 1 << self.random.below(22),
            1 => m.sequence.clients[slot].name ^= 1 << self.random.below(64),
            2 => m.sequence.clients[slot].version.bytes[0] ^= 1,
            3 => m.slots[slot].profile.configuration.length ^= 1,
            4 => m.sequence.steps[step].state = self.random.pick(&[64, 255]),
            5 => m.slots[slot].profile.trigger[usize::from(m.sequence.steps[step].function)] = 0,
            _ => m.sequence.steps[step].slot = self.random.pick(&[8, 255]),
        }
    }

    /// Every call, with slots, messages and room mostly such as it takes.
    pub fn events(&mut self, m: &Master) -> Vec<Event> {
        let slot = self.slot();
        let room = |random: &mut Random, wanted: usize| random.pick(&[wanted, wanted, wanted, wanted + 9, wanted - 1, 0]);
        let (eight, frames) = (room(&mut self.random, 8), room(&mut self.random, 576));
        let name = if self.random.once_in(4) { m.slots[self.random.below(8)].name } else { self.random.number() };
        let pool = if self.random.once_in(4) { Rc::new(self.pool[1..].to_vec()) } else { self.pool.clone() };
        let (indication, answer) = (self.indication(m, slot), self.answer(m));
        let cause = self.random.pick(&[1, 2, 3, 255, 0]);
        let abort = vec![0x31, 0xFF, 0xFF, cause, 0xFF, 0xFF, 0xFF, 0xFF];
        let report = self.random.pick(&[0, 1, 2, 4, 5, 3, 256]);
        let millimetres = self.random.pick(&[0, 400, 65_535, 65_536]);
        vec![
            Event::On,
            Event::Off,
            Event::Attach { slot, name, pool },
            Event::Enable { slot, room: eight },
            Event::Disable { slot, room: eight },
            Event::Report { slot, report },
            Event::Lost { slot },
            Event::Record,
            Event::Stop,
            Event::Cancel,
            Event::Indication { slot, message: indication, room: eight },
            Event::ClientAbort { slot, message: abort },
            Event::Start,
            Event::Abort,
            Event::Tick { millimetres, room: frames },
            Event::Answer { slot: answer.0, message: answer.1, room: eight },
            self.store(m),
            self.load(m),
            Event::Edition { edition: self.storing.pick(&[0, 1, 1, 2, 2, 2, 3, 257, u32::MAX]) },
        ]
    }

    /// Mostly as much room as is needed.
    fn store(&mut self, m: &Master) -> Event {
        let needed = blocks_of(m).len();
        Event::Store { room: self.storing.pick(&[needed, needed, needed + 9, 4_096, needed.saturating_sub(1), 0]) }
    }

    /// Blocks of a sequence, the same damaged, or what this master has, whatever that is.
    fn load(&mut self, m: &Master) -> Event {
        let sequence = blocks::any_sequence(&mut self.storing);
        let damage = self.storing.pick(DAMAGES).1;
        let blocks = match self.storing.below(8) {
            0 => blocks_of(m),
            1..=3 => blocks::damaged(&sequence, damage, &mut self.storing),
            _ => stored::of(&sequence),
        };
        Event::Load { blocks: Rc::new(blocks) }
    }

    fn slot(&mut self) -> usize {
        let near = self.random.below(8);
        self.random.pick(&[near, near, near, near, near, near, 8, 256 + near, usize::MAX])
    }

    /// E.4 of a function that the client of the slot has, or of a step that is recorded.
    fn indication(&mut self, m: &Master, slot: usize) -> Vec<u8> {
        let mut bytes: Vec<u8> = (0..8).map(|_| self.random.number() as u8).collect();
        bytes[0] = self.random.pick(&[0x32, 0x32, 0x32, 0x32, 0x33]);
        let taken = m.recording.steps[self.random.below(64)];
        if slot < 8 && self.random.once_in(2) {
            bytes[1] = (0..=255).find(|f| m.slots[slot].profile.trigger[usize::from(*f)] != 0).unwrap_or(0);
        } else {
            (bytes[1], bytes[3]) = (taken.step.function, taken.tan);
            bytes[2] = taken.step.state % 64 + 64 * self.random.below(4) as u8;
        }
        bytes
    }

    /// E.7 that matches a command, and the slot that it comes from.
    fn answer(&mut self, m: &Master) -> (usize, Vec<u8>) {
        let place = self.random.below(64);
        let (step, tan) = (m.sequence.steps[place], m.playback.commands[place].tan);
        let status = 64 * self.random.below(4) as u8;
        let error = self.random.pick(&[0, 0, 0, 0, 1, 255, 4]);
        let slot = if self.random.once_in(8) { self.slot() } else { usize::from(step.slot) };
        (slot, vec![0x34, step.function, step.state % 64 + status, error, tan, 0xFF, 0xFF, 0xFF])
    }

    /// One call on one master.
    fn hold(&mut self, event: &Event, m: &Master) {
        let storing = matches!(event, Event::Store { .. } | Event::Load { .. } | Event::Edition { .. });
        let random = if storing { &mut self.storing } else { &mut self.random };
        let before: Vec<u8> = (0..BUFFER.max(event.room() + BEHIND)).map(|_| random.number() as u8).collect();
        let mut lent = before.clone();
        let given = event.on_library(m, &mut lent[..event.room()]);
        if given.number > 17 {
            fail("a number that is in no table", event, &given);
        }
        if given.number != 0 && (given.master != *m || lent != before) {
            fail("a refusal changes something", event, &given);
        }
        if given.count != 0 && given.number != 0 || (given.code, given.object) != (0, 0) && given.number != 6 {
            fail("a number where there is none", event, &given);
        }
        if lent[event.room()..] != before[event.room()..] {
            fail("bytes that are not lent are changed", event, &given);
        }
        if let Some(wrong) = broken(event, m, &given, &before, &lent) {
            fail(wrong, event, &given);
        }
        let mut other = before;
        let named = event.on_library(&named(m), &mut other[..event.room()]);
        let same = (given.number, given.code, given.object, given.count) == (named.number, named.code, named.object, named.count);
        if !same || lent != other || self::named(&given.master) != self::named(&named.master) {
            fail("a tag does not count as the named one", event, &given);
        }
        self.met.entry(event.name()).or_default().insert(given.number);
    }

    /// The verification, in the state that the master is in; a start from ready gives its number. In edition 2 it goes by that rule, in any other by
    /// that of edition 1.
    fn verification(&mut self, m: &Master) {
        let given = library::verify(m);
        let started = library::start(&Master { state: 1, ..*m }).number;
        let by_value = library::value::verify(m);
        let same = by_value == library::CheckResult { number: given.0, slot: given.1.slot, step: given.1.step };
        if given.0 != started || !same || !is_first(m, given) {
            crate::fail("bits", &format!("verification gives {given:?}, by value {by_value:?}, and a start {started}"));
        }
        let [first, second] = [1, 2].map(|edition| library::verify(&m.in_edition(edition)));
        if given != if m.sequence.edition == 2 { second } else { first } || !follows(m, first, second) {
            crate::fail("bits", &format!("verification gives {given:?}, in edition 1 {first:?}, in edition 2 {second:?}"));
        }
        self.met.entry("verify").or_default().insert(given.0);
        self.met.entry("verify in edition 2, where every check of edition 1 holds").or_default().extend((first.0 == 0).then_some(second.0));
    }

    /// Prints what was met. With as many masters as usual, each call was both done and refused.
    fn report(&self, masters: u64, calls: u64) {
        let numbers: usize = self.met.values().map(BTreeSet::len).sum();
        let one_sided: Vec<&str> = self.met.iter().filter(|(_, met)| met.len() < 2 || !met.contains(&0)).map(|(name, _)| *name).collect();
        if masters >= COUNT && !one_sided.is_empty() {
            crate::fail("bits", &format!("only refused or only done: {}", one_sided.join(", ")));
        }
        if masters >= COUNT && self.met["verify"] != BTreeSet::from([0, 7, 8, 9, 10, 11, 12]) {
            crate::fail("bits", &format!("a verification gave {:?} and no others", self.met["verify"]));
        }
        println!("bits: {calls} calls on {masters} masters that no call gives, {numbers} pairs of call and number met: all promises hold");
    }
}

/// The same master in named tags: "a state above 5 as abort, a report of 3 or above 5 as playback, a taken, wanted or used other than 0 as yes, a
/// status above 2 as failed, an answer above 2 as started, a count above 64 as 64".
fn named(m: &Master) -> Master {
    let mut m = *m;
    let yes = |flag: &mut u8| *flag = (*flag).min(1);
    m.state = m.state.min(5);
    for slot in &mut m.slots {
        yes(&mut slot.taken);
        yes(&mut slot.wanted);
        slot.report = if slot.report == 3 || slot.report > 5 { 4 } else { slot.report };
    }
    m.sequence.clients.iter_mut().chain(&mut m.recording.clients).for_each(|client| yes(&mut client.used));
    m.recording.steps.iter_mut().for_each(|taken| taken.status = taken.status.min(3));
    for command in &mut m.playback.commands {
        command.answer = if command.answer > 2 { 1 } else { command.answer };
    }
    m.sequence.count = m.sequence.count.min(64);
    m.recording.count = m.recording.count.min(64);
    m.playback.sent = m.playback.sent.min(64);
    m
}

/// The blocks of any sequence, as its fields stand: a used of any number but 0 is a record, a count above 64 counts as 64, an edition of 0 is stored
/// as 1; none with no step.
fn blocks_of<'a>(m: &'a Master) -> Vec<u8> {
    let used = m.sequence.clients.iter().zip(0..).filter(|(client, _)| client.used != 0);
    let label = |label: &'a library::Label| -> stored::Label<'a> { (label.length, &label.bytes) };
    let record = |(it, slot): (&'a library::Client, u8)| stored::record(slot, it.name, it.master, label(&it.version), label(&it.configuration));
    let records: Vec<_> = used.map(record).collect();
    let steps = m.sequence.steps.iter().take(m.sequence.count);
    let steps: Vec<_> = steps.map(|it| stored::step([it.slot, it.function, it.state, it.distance], it.mark, it.value)).collect();
    let edition_less_one = m.sequence.edition.saturating_sub(1);
    if steps.is_empty() { Vec::new() } else { stored::blocks(edition_less_one, &records, &steps) }
}

/// Whether a store is not what the model says of it.
fn wrongly_stored(m: &Master, given: &Outcome, room: usize, before: &[u8], lent: &[u8]) -> bool {
    let blocks = blocks_of(m);
    let wanted = match (m.state, blocks.len()) {
        (_, needed) if room < needed => 1,
        (1, 0) => 7,
        (1, _) => 0,
        _ => 2,
    };
    let written = if wanted == 0 { blocks.len() } else { 0 };
    let right = lent[..written] == blocks[..written] && lent[written..] == before[written..];
    (given.number, given.count as usize) != (wanted, written) || !right || given.master != *m
}

/// Whether a load is not what the model says of it.
fn wrongly_loaded(m: &Master, given: &Outcome, blocks: &[u8]) -> bool {
    let (wrong, reasons) = (stored::wrong_checks(blocks), stored::reasons(blocks));
    let (wanted, sequence) = match m.state {
        1 if !wrong.is_empty() => (16, m.sequence),
        1 if !reasons.is_empty() => (17, m.sequence),
        1 => (0, render::sequence(&stored::read(blocks))),
        _ => (2, m.sequence),
    };
    (given.number, given.count) != (wanted, 0) || given.master != (Master { sequence, ..*m })
}

/// Whether an edition is not set as 02 says: "in ready: 2, 7, 17 unknown edition".
fn wrongly_set(m: &Master, given: &Outcome, edition: u32) -> bool {
    let (wanted, after) = match (m.state, m.sequence.count, edition) {
        (1, 0, _) => (7, *m),
        (1, _, 1 | 2) => (0, m.in_edition(edition)),
        (1, _, _) => (17, *m),
        _ => (2, *m),
    };
    (given.number, given.count) != (wanted, 0) || given.master != after
}

/// "a sequence passing under 2 would pass under 1": what is named under 2 is what is named under 1, or 9 of a slot before it whose identity number
/// differs, "the lowest 21 bits of the client's NAME"; it differs in no slot that is not named.
fn follows(m: &Master, first: (u8, CheckView), second: (u8, CheckView)) -> bool {
    let CheckView { slot, step } = second.1;
    let differs = |slot: usize| (m.slots[slot].name << 43) != (m.sequence.clients[slot].name << 43);
    let before = match first.0 {
        8..=9 => slot < first.1.slot,
        10 => slot <= first.1.slot,
        _ => [0, 11, 12].contains(&first.0),
    };
    let passed = match second.0 {
        7 => 0,
        8..=10 => slot,
        _ => 8,
    };
    let alike = (0..passed).all(|slot| m.sequence.clients[slot].used == 0 || !differs(slot));
    alike && (second == first || second.0 == 9 && step == 0 && differs(slot) && before)
}

/// What 01 and 02 say of a call in every state.
fn broken(event: &Event, m: &Master, given: &Outcome, before: &[u8], lent: &[u8]) -> Option<&'static str> {
    let wrong = match event {
        Event::On => given.number != if m.state == 0 { 0 } else { 2 } || given.number == 0 && given.master != (Master { state: 1, ..*m }),
        Event::Off => given.number == 0 && given.master != (Master { state: 0, ..*m }),
        Event::Tick { millimetres, room } if m.state != 0 => {
            let wanted = if *room < 576 { 1 } else { 4 * u8::from(*millimetres > 65_535) };
            let frames = 9 * given.count as usize;
            given.number != wanted || given.number == 0 && lent[frames..576].iter().any(|&byte| byte != 0)
        }
        Event::Store { room } => wrongly_stored(m, given, *room, before, lent),
        Event::Load { blocks } => wrongly_loaded(m, given, blocks),
        Event::Edition { edition } => wrongly_set(m, given, *edition),
        _ => m.state == 0 && ![1, 2, 3, 4].contains(&given.number),
    };
    if wrong { Some("not what the rules say") } else { None }
}

/// Whether what a verification names is the first check that does not hold: the checks before it hold, and without them it is named still.
/// "7; then for each slot of the sequence, lowest first, 8, 9 and 10 before the next slot; then by step 11; then by slot 12."
fn is_first(m: &Master, (number, CheckView { slot, step }): (u8, CheckView)) -> bool {
    let of = |count: usize, slots: std::ops::Range<usize>| {
        let mut part = *m;
        part.sequence.count = count;
        (0..8).filter(|slot| !slots.contains(slot)).for_each(|slot| part.sequence.clients[slot] = NO_CLIENT);
        library::verify(&part)
    };
    let (count, named) = (m.sequence.count, (number, CheckView { slot, step }));
    match number {
        0 | 7 => (slot, step) == (0, 0) && (number == 7) == (count == 0),
        8..=10 => slot < 8 && step == 0 && of(count, slot..slot + 1) == named && ![7, 8, 9, 10].contains(&of(count, 0..slot).0),
        11 => {
            let before = if step == 0 { 0 } else { of(step, 0..8).0 };
            step < count.min(64) && slot == m.sequence.steps[step].slot.into() && of(step + 1, 0..0) == named && [0, 12].contains(&before)
        }
        12 => slot < 8 && step == 0 && of(count, slot..slot + 1) == named && of(count, 0..slot).0 == 0,
        _ => false,
    }
}

/// A state above 5 reads as abort, a count above 64 as 64, and past the end there is nothing.
fn readers(m: &Master) {
    let [count, taken, sent] = [m.sequence.count, m.recording.count, m.playback.sent].map(|count| count.min(64));
    let mut right = library::state(m) == m.state.min(5) && library::step_count(m) == count;
    right &= library::sequence_edition(m) == if count == 0 { 0 } else { m.sequence.edition };
    let (ticks, distance, held) = match m.state {
        4 => (m.playback.ticks, m.playback.distance, sent),
        _ => (m.recording.ticks, m.recording.distance, taken),
    };
    right &= library::progress(m) == ProgressView { ticks, distance, count: held };
    for i in (0..66).chain([255, 256, 1 << 32, (1 << 32) + 1, usize::MAX]) {
        right &= library::step(m, i) == if i < count { (0, m.sequence.steps[i]) } else { (3, NO_STEP) };
        right &= library::taken(m, i) == if i < taken { (0, m.recording.steps[i]) } else { (3, NO_TAKEN) };
        right &= library::sent(m, i) == if i < sent { (0, m.playback.commands[i]) } else { (3, NO_SENT) };
    }
    for slot in [8, 9, 255, 256, 1 << 32, usize::MAX] {
        let (number, view) = library::slot(m, slot);
        let (other, client) = library::client(m, slot);
        right &= (number, view.taken, view.wanted, view.report, view.name) == (3, 0, 0, 0, 0);
        right &= (other, client.used, client.name, client.master_name, client.version_length, client.configuration_length) == (3, 0, 0, 0, 0, 0);
        right &= client.version == [0; 63] && client.configuration == [0; 63];
    }
    if !right {
        crate::fail("bits", "a reader gives something else");
    }
}
