//! The library's master and the model's, side by side: each event is done on both, and all that they give is compared.

use crate::counters::{self, Row};
use crate::coverage::Coverage;
use crate::entry::found;
use crate::event::Event;
use crate::library::{self, Outcome};
use crate::model::{self, State};
use crate::promises::Promises;
use crate::render::{view, Renderer};
use crate::stored;
use crate::taken::Log;

/// The lent bytes stand at the head of so many or of so many more than they are, of which no other may change.
pub const BUFFER: usize = 640;
const BEHIND: usize = 64;
const FRAMES: usize = 576;
const LAST_TICK: u32 = 36_000;
const READY: u8 = 1;
const PLAYBACK: u8 = 4;
/// So many ticks before something happens are done, lest it happen too early.
const NEAR: u32 = 4;

pub struct Pair {
    pub model: model::Master,
    pub library: Box<library::Master>,
    pub events: u64,
    /// What the events meet, by name, where that is counted.
    pub met: Option<Coverage>,
    /// Each event is printed.
    pub print: bool,
    wanted: Box<library::Master>,
    renderer: Renderer,
    promises: Promises,
    log: Log,
    /// The bytes lent at the last event and those behind them, as the library left them.
    pub lent: Vec<u8>,
}

impl Pair {
    pub fn new() -> Pair {
        Pair {
            model: model::Master::new(),
            library: Box::new(library::NO_MASTER),
            events: 0,
            met: None,
            print: false,
            wanted: Box::new(library::NO_MASTER),
            renderer: Renderer::new(),
            promises: Promises::new(),
            log: Log::default(),
            lent: Vec::new(),
        }
    }

    /// A new master.
    pub fn begin(&mut self) {
        self.model = model::Master::new();
        *self.library = library::new();
        self.promises = Promises::new();
        self.log = Log::default();
        self.compare_states();
    }

    /// The number that the event gave.
    pub fn event(&mut self, event: &Event) -> u8 {
        self.events += 1;
        let room = event.room();
        fill(&mut self.lent, self.events, room);
        let before = self.lent.clone();
        let handed = event.handed().to_vec();
        let old = self.met.as_ref().map(|_| self.model.clone());
        let mut wanted_bytes = before.clone();
        let wanted = event.on_model(&mut self.model, &mut wanted_bytes[..room]);
        let outcome = event.on_library(&self.library, &mut self.lent[..room]);
        self.tell(event, &outcome, old, &wanted);
        compare_numbers(&outcome, &wanted);
        if event.handed() != &handed[..] {
            found("bytes that are only read were changed");
        }
        if self.lent != wanted_bytes {
            found(&format!("lent bytes: the library gives {:02X?}, the model {:02X?}", &self.lent[..room], &wanted_bytes[..room]));
        }
        self.keeps(event, &outcome, &before);
        if let Event::Start = event {
            self.starts(outcome.number);
        }
        self.count(event, &outcome);
        if outcome.number == 0 {
            *self.library = outcome.master;
            self.compare_states();
        }
        outcome.number
    }

    /// Promises of the library alone. A refusal leaves every field as it was, so the states of both need no further comparison.
    fn keeps(&mut self, event: &Event, outcome: &Outcome, before: &[u8]) {
        if let Some(promise) = self.promises.check(event, &self.library, outcome, before, &self.lent) {
            found(&format!("promise broken: {promise}"));
        }
        if outcome.number == 0 {
            if let Some(promise) = self.log.check(event, &self.library, outcome, &self.lent) {
                found(&format!("promise broken: {promise}"));
            }
        }
    }

    /// A start from ready gives the number of the verification just before it. The model has the same clients and sequence after it as before.
    fn starts(&mut self, number: u8) {
        let (given, wanted) = (library::verify(&self.library), view::verify(&self.model));
        let second = self.library.sequence.edition == 2;
        counters::count(Row::Verified, usize::from(given.0) * 16 + usize::from(second) * 8 + given.1.slot);
        self.starts_otherwise();
        if given != wanted || self.library.state == READY && given.0 != number {
            found(&format!("verification: the library gives {given:?}, the model {wanted:?}; a start {number}"));
        }
        if let Some(met) = &mut self.met {
            if let Err(unknown) = met.verified(&self.model) {
                found(&format!("no rule allows: {unknown}"));
            }
        }
    }

    /// By the rule of each edition. "a sequence passing under 2 would pass under 1"
    fn starts_otherwise(&mut self) {
        let own = self.model.sequence.edition;
        let numbers = [1, 2].map(|edition| {
            self.model.sequence.edition = edition;
            let (given, wanted) = (library::verify(&self.library.in_edition(edition)), view::verify(&self.model));
            if given != wanted {
                found(&format!("verification in edition {edition}: the library gives {given:?}, the model {wanted:?}"));
            }
            given.0
        });
        self.model.sequence.edition = own;
        if numbers[1] == 0 && numbers[0] != 0 {
            found("promise broken: what passes under 2 would pass under 1");
        }
        counters::count(Row::Edition, usize::from(numbers[0]) * 16 + usize::from(numbers[1]));
    }

    fn compare_states(&mut self) {
        self.renderer.render(&self.model, &mut self.wanted);
        if *self.library != *self.wanted {
            found(&difference(&self.library, &self.wanted));
        }
    }

    /// At the end of an input: some readers, for all of them take as long as many events.
    pub fn end(&self) {
        let (library, model) = (&*self.library, &self.model);
        let mut same = library::state(library) == view::state(model) && library::step_count(library) == model.sequence.steps.len();
        same &= library::progress(library) == view::progress(model) && library::verify(library) == view::verify(model);
        same &= library::sequence_edition(library) == view::edition(model);
        if !same {
            found("a reader does not give what the state holds");
        }
    }

    /// The readers, on every slot, step and command there is, and beyond.
    pub fn readers(&mut self) {
        let (library, model) = (&*self.library, &self.model);
        let mut same = library::state(library) == view::state(model);
        let progress = view::progress(model);
        same &= library::progress(library) == progress && library::verify(library) == view::verify(model);
        for place in (0..=progress.count).chain([64, 256, 1 << 32, usize::MAX]) {
            same &= library::taken(library, place) == view::taken(model, place);
            same &= library::sent(library, place) == view::sent(model, place);
        }
        for slot in (0..8).chain([8, 256, 1 << 32, usize::MAX]) {
            same &= library::slot(library, slot) == view::slot(model, slot);
            same &= library::client(library, slot) == view::client(model, slot);
        }
        let count = model.sequence.steps.len();
        same &= library::step_count(library) == count && library::sequence_edition(library) == view::edition(model);
        for place in (0..=count).chain([64, 256, 1 << 32, usize::MAX]) {
            same &= library::step(library, place) == view::step(model, place);
        }
        if !same {
            found("a reader does not give what the state holds");
        }
        if let Some(met) = &mut self.met {
            met.readers(&self.model.sequence);
            met.progress(&self.model);
        }
    }

    /// Ticks at which nothing happens but that they are counted, at most `wanted` of them: the state that they give is set in both, for each
    /// is done and compared elsewhere. The promises hear of every one.
    pub fn skip(&mut self, wanted: u32, millimetres: u32) {
        let ticks = self.idle(wanted, millimetres);
        match &mut self.model.state {
            State::Record(recording) | State::RecordComplete(recording) => {
                recording.ticks += ticks;
                recording.millimetres += ticks * millimetres;
                self.library.recording.ticks += ticks;
                self.library.recording.distance += ticks * millimetres;
                self.log.pass(ticks, millimetres);
            }
            State::Playback(playback) => {
                playback.ticks += ticks;
                playback.millimetres += ticks * millimetres;
                self.library.playback.ticks += ticks;
                self.library.playback.distance += ticks * millimetres;
                self.promise_idle(ticks, millimetres);
            }
            _ => return,
        }
        self.compare_states();
    }

    /// How many of these ticks are idle: none unanswered in playback, and some before a step is due or tick 36,000 comes.
    fn idle(&self, wanted: u32, millimetres: u32) -> u32 {
        let (recording, playback) = (&self.library.recording, &self.library.playback);
        if self.library.state != PLAYBACK {
            return wanted.min((LAST_TICK - recording.ticks).saturating_sub(NEAR));
        }
        if playback.commands[..playback.sent].iter().any(|command| command.answer == 0) {
            return 0;
        }
        let end = LAST_TICK - playback.ticks;
        let due = match self.library.sequence.steps[..self.library.sequence.count].get(playback.sent) {
            None => end,
            Some(step) if step.distance == 0 => step.mark.saturating_sub(playback.ticks),
            Some(step) if step.mark <= playback.distance => 0,
            Some(step) => (step.mark - playback.distance).checked_div(millimetres).unwrap_or(end),
        };
        wanted.min(end.min(due).saturating_sub(NEAR))
    }

    fn promise_idle(&mut self, ticks: u32, millimetres: u32) {
        let outcome = Outcome { number: 0, code: 0, object: 0, count: 0, master: *self.library };
        let event = Event::Tick { millimetres, room: FRAMES };
        for _ in 0..ticks {
            if let Some(promise) = self.promises.check(&event, &self.library, &outcome, &[0; FRAMES], &[0; FRAMES]) {
                found(&format!("promise broken over idle ticks: {promise}"));
            }
        }
    }

    /// What the library did, for the engine.
    fn count(&self, event: &Event, outcome: &Outcome) {
        let (old, new) = (&self.library, &outcome.master);
        counters::path(call(event), outcome.number, old.state, new.state);
        if outcome.number == 6 {
            counters::count(Row::Attached, usize::from(outcome.code));
        }
        if let Event::Load { blocks } = event {
            count_refused(outcome.number, blocks);
        }
        if outcome.number != 0 {
            return;
        }
        match event {
            Event::Tick { .. } => self.count_tick(outcome),
            Event::Indication { .. } => {
                counters::count(Row::Response, usize::from(self.lent[3] % 8) * 8 + usize::from(self.lent[2] / 64));
                counters::count(Row::Held, new.recording.count);
            }
            Event::Answer { message, .. } => {
                let done = new.playback.commands.iter().filter(|command| command.answer == 2).count();
                counters::count(Row::Answer, usize::from(message[2] / 64) * 4 + usize::from(message[3] % 4));
                counters::count(Row::Answer, 64 + done);
            }
            Event::Start => counters::count(Row::Started, new.sequence.count),
            Event::Store { .. } | Event::Load { .. } => {
                counters::count(Row::Kept, new.sequence.clients.iter().filter(|client| client.used == 1).count());
                counters::count(Row::Kept, 16 + new.sequence.count);
                counters::count(Row::Edition, 208 + 4 * old.sequence.edition as usize + new.sequence.edition as usize);
            }
            Event::Edition { edition } => {
                counters::count(Row::Edition, 224 + 4 * old.sequence.edition as usize + *edition as usize);
            }
            _ => {}
        }
        let enabled = new.slots.iter().filter(|slot| slot.wanted == 1 && slot.report != 0).count();
        counters::count(Row::Enabled, enabled * 8 + usize::from(new.state));
    }

    fn count_tick(&self, outcome: &Outcome) {
        let playback = &outcome.master.playback;
        counters::count(Row::Frames, outcome.count as usize);
        counters::count(Row::Sent, playback.sent);
        let waiting = playback.commands[..playback.sent].iter().filter(|command| command.answer == 0);
        if let Some(left) = waiting.map(|command| command.left).min() {
            counters::count(Row::Waiting, (playback.ticks - left) as usize);
        }
        let counted = playback.ticks.max(outcome.master.recording.ticks);
        counters::count(Row::Counts, 32 - counted.leading_zeros() as usize);
        counters::count(Row::Counts, 64 + usize::from(outcome.master.tan / 16));
    }

    fn tell(&mut self, event: &Event, outcome: &Outcome, old: Option<model::Master>, wanted: &model::Outcome) {
        if self.print {
            println!("  {event}: {}", outcome.number);
        }
        if let (Some(met), Some(old)) = (&mut self.met, old) {
            if let Err(unknown) = met.event(event, &old, &self.model, wanted) {
                found(&format!("no rule allows: {unknown}"));
            }
        }
    }
}

/// Other bytes at each event.
fn fill(lent: &mut Vec<u8>, event: u64, room: usize) {
    lent.clear();
    lent.resize(BUFFER.max(room + BEHIND), (event as u8).wrapping_mul(59) ^ 0xA5);
}

/// For which reasons these blocks were refused.
fn count_refused(number: u8, blocks: &[u8]) {
    match number {
        16 => stored::wrong_checks(blocks).into_iter().for_each(|place| counters::count(Row::Refused, place.min(15))),
        17 => {
            let holds = stored::reasons(blocks);
            let places = stored::REASONS.iter().zip(16..).filter(|((reason, _), _)| holds.contains(reason));
            places.for_each(|(_, place)| counters::count(Row::Refused, place));
        }
        _ => {}
    }
}

fn compare_numbers(outcome: &Outcome, wanted: &model::Outcome) {
    let given = (outcome.number, outcome.code, outcome.object, outcome.count);
    let wanted = match wanted {
        Ok(done) => (0, 0, 0, done.count),
        Err(refused) => (refused.number, refused.code, refused.object, 0),
    };
    if given != wanted {
        found(&format!("number, code, object, count: the library gives {given:?}, the model {wanted:?}"));
    }
}

/// The first line that differs of both states as they are printed.
fn difference(library: &library::Master, wanted: &library::Master) -> String {
    let (given, wanted) = (format!("{library:#?}"), format!("{wanted:#?}"));
    let lines = given.lines().zip(wanted.lines()).enumerate();
    let mut differing = lines.filter(|(_, (one, other))| one != other);
    match differing.next() {
        Some((line, (one, other))) => format!("state, line {line}: the library gives {}, the model {}", one.trim(), other.trim()),
        None => "the states differ".to_string(),
    }
}

fn call(event: &Event) -> usize {
    match event {
        Event::On => 0,
        Event::Off => 1,
        Event::Attach { .. } => 2,
        Event::Enable { .. } => 3,
        Event::Disable { .. } => 4,
        Event::Report { .. } => 5,
        Event::Lost { .. } => 6,
        Event::Record => 7,
        Event::Stop => 8,
        Event::Cancel => 9,
        Event::Indication { .. } => 10,
        Event::ClientAbort { .. } => 11,
        Event::Start => 12,
        Event::Abort => 13,
        Event::Tick { .. } => 14,
        Event::Answer { .. } => 15,
        Event::Store { .. } => 16,
        Event::Load { .. } => 17,
        Event::Edition { .. } => 18,
    }
}
