//! A run: every event is done on the library and on the model, and all that they give is compared.

use super::coverage::Coverage;
use super::event::Event;
use super::generate::Random;
use super::keeper::Kept;
use super::library;
use super::model::{Master, Outcome};
use super::promises::Promises;
use super::render::{view, Renderer};
use std::collections::VecDeque;

/// The lent bytes stand at the head of so many or of so many more than they are, of which no other may change.
const BUFFER: usize = 640;
const BEHIND: usize = 64;
/// So many of the last events are printed with a difference.
const REMEMBERED: usize = 16;
/// The readers are compared after one in so many events, the verification after one in so many, and one in so many of these
/// in the other edition too.
const READERS: usize = 150;
const VERIFIED: usize = 3;
const OTHER_EDITION: usize = 6;
/// The call by value is compared with its wrapper at one in so many events.
const BY_VALUE: usize = 8;

/// What the library gives besides the new state.
#[derive(Clone, Copy, PartialEq, Debug)]
pub struct Given {
    pub number: u8,
    pub code: u8,
    pub object: u16,
    pub count: u32,
}

pub struct Run {
    pub model: Master,
    pub coverage: Coverage,
    pub events: u64,
    /// The bytes lent at the last event and those behind them, as the library left them.
    pub lent: Vec<u8>,
    /// What was stored, by this master and by one before it.
    pub shelf: Vec<Kept>,
    library: Box<library::Master>,
    wanted: Box<library::Master>,
    renderer: Renderer,
    promises: Promises,
    random: Random,
    seed: u64,
    event: u64,
    last: VecDeque<Event>,
}

impl Run {
    pub fn new() -> Run {
        Run {
            model: Master::new(),
            coverage: Coverage::new(),
            events: 0,
            lent: Vec::new(),
            shelf: Vec::new(),
            library: Box::new(library::NO_MASTER),
            wanted: Box::new(library::NO_MASTER),
            renderer: Renderer::new(),
            promises: Promises::new(),
            random: Random::new(0),
            seed: 0,
            event: 0,
            last: VecDeque::new(),
        }
    }

    /// A new master, for a scenario that comes from this seed.
    pub fn begin(&mut self, seed: u64) {
        self.seed = seed;
        self.event = 0;
        self.last.clear();
        self.random = Random::new(!seed);
        self.promises = Promises::new();
        self.model = Master::new();
        *self.library = library::new();
        self.compare_states();
        self.compare_readers();
        self.compare_verification();
    }

    /// The number that this master's scenario comes from.
    pub fn seed(&self) -> u64 {
        self.seed
    }

    /// The library's master.
    pub fn library(&self) -> &library::Master {
        &self.library
    }

    pub fn event(&mut self, event: Event) -> Given {
        self.event += 1;
        self.events += 1;
        self.remember(&event);
        let room = event.room();
        self.fill(room);
        let before = self.lent.clone();
        let handed = event.handed().to_vec();
        let mut wanted_bytes = before.clone();
        let model_before = self.model.clone();
        let wanted = event.on_model(&mut self.model, &mut wanted_bytes[..room]);
        let outcome = event.on_library(&self.library, &mut self.lent[..room]);
        let given = Given { number: outcome.number, code: outcome.code, object: outcome.object, count: outcome.count };
        self.compare("numbers", given, numbers(&wanted));
        self.compare("bytes to be read", event.handed(), &handed);
        if self.lent != wanted_bytes {
            let place = (0..before.len()).find(|&place| self.lent[place] != wanted_bytes[place]).unwrap();
            self.compare(&format!("lent byte {place}"), self.lent[place], wanted_bytes[place]);
        }
        if self.random.once_in(BY_VALUE) {
            self.compare_by_value(&event, &outcome, before.clone());
        }
        match event {
            Event::Start => self.compare_start(given.number),
            Event::Store { .. } if given.number == 0 => self.compare_stored(given.count as usize),
            _ => {}
        }
        let broken = self.promises.check(&event, &self.library, &outcome, &before, &self.lent);
        if let Some(promise) = broken {
            self.stop(&format!("promise broken: {promise}"));
        }
        *self.library = outcome.master;
        self.compare_states();
        self.sample_readers();
        if let Err(unknown) = self.coverage.event(&event, &model_before, &self.model, &wanted) {
            self.stop(&format!("no rule allows: {unknown}"));
        }
        given
    }

    fn fill(&mut self, room: usize) {
        self.lent.resize(BUFFER.max(room + BEHIND), 0);
        for chunk in self.lent.chunks_mut(8) {
            chunk.copy_from_slice(&self.random.number().to_le_bytes()[..chunk.len()]);
        }
    }

    fn remember(&mut self, event: &Event) {
        if self.last.len() == REMEMBERED {
            self.last.pop_front();
        }
        self.last.push_back(event.clone());
    }

    fn compare<T: PartialEq + std::fmt::Debug>(&self, what: &str, given: T, wanted: T) {
        if given != wanted {
            self.stop(&format!("{what}: the library gives {given:?}, the model {wanted:?}"));
        }
    }

    /// The call by value gives what its wrapper gave, and 0 in what the wrapper does not hand on.
    fn compare_by_value(&self, event: &Event, outcome: &library::Outcome, mut lent: Vec<u8>) {
        let given = event.by_value(&self.library, &mut lent[..event.room()]);
        if given != *outcome || lent != self.lent {
            self.stop("the call by value gives something else than the wrapper");
        }
    }

    fn compare_states(&mut self) {
        self.renderer.render(&self.model, &mut self.wanted);
        if *self.library != *self.wanted {
            self.stop(&first_difference(&format!("{:#?}", self.library), &format!("{:#?}", self.wanted)));
        }
    }

    fn sample_readers(&mut self) {
        if self.random.once_in(READERS) {
            self.compare_readers();
        }
        if self.random.once_in(VERIFIED) {
            self.compare_verification();
        }
    }

    fn compare_readers(&mut self) {
        let (library, model) = (&*self.library, &self.model);
        let beyond = [8, 9, 255, 256, 257, 1 << 32, usize::MAX];
        self.compare("reader of the state", library::state(library), view::state(model));
        for slot in (0..8).chain(beyond) {
            self.compare(&format!("reader of slot {slot}"), library::slot(library, slot), view::slot(model, slot));
            self.compare(
                &format!("reader of client {slot}"),
                library::client(library, slot),
                view::client(model, slot),
            );
        }
        let count = model.sequence.steps.len();
        self.compare("reader of the step count", library::step_count(library), count);
        for place in (0..=count).chain([63, 64, 65, 255, 256, 1 << 32, usize::MAX]) {
            self.compare(&format!("reader of step {place}"), library::step(library, place), view::step(model, place));
        }
        self.compare("reader of the edition", library::sequence_edition(library), view::edition(model));
        self.coverage.readers(&model.sequence);
        self.compare_progress();
    }

    /// The readers of what is being recorded or played back.
    fn compare_progress(&mut self) {
        let (library, model) = (&*self.library, &self.model);
        let progress = view::progress(model);
        self.compare("reader of the progress", library::progress(library), progress);
        for place in (0..=progress.count).chain([63, 64, 65, 255, 256, 1 << 32, usize::MAX]) {
            self.compare(&format!("reader of taken step {place}"), library::taken(library, place), view::taken(model, place));
            self.compare(&format!("reader of sent command {place}"), library::sent(library, place), view::sent(model, place));
        }
        self.coverage.progress(&self.model);
    }

    /// The first check that does not hold, in any state.
    pub fn compare_verification(&mut self) {
        let wanted = view::verify(&self.model);
        self.compare("verification", library::verify(&self.library), wanted);
        if !self.model.sequence.steps.is_empty() && self.random.once_in(OTHER_EDITION) {
            self.compare_other_edition(wanted.0);
        }
        if let Err(unknown) = self.coverage.verified(&self.model) {
            self.stop(&format!("no rule allows: {unknown}"));
        }
    }

    /// By the rule of the other edition. "a sequence passing under 2 would pass under 1"
    fn compare_other_edition(&mut self, own: u8) {
        let edition = self.model.sequence.edition;
        self.model.sequence.edition = 3 - edition;
        let wanted = view::verify(&self.model);
        self.model.sequence.edition = edition;
        let given = library::verify(&self.library.in_edition(3 - edition));
        self.compare("verification in the other edition", given, wanted);
        match if edition == 1 { (own, given.0) } else { (given.0, own) } {
            (0, 0) => self.coverage.meet("verified, every check holds by both rules"),
            (0, _) => self.coverage.meet("verified, every check holds by the rule of edition 1 alone"),
            (_, 0) => self.stop("promise broken: what passes under 2 would pass under 1"),
            _ => {}
        }
    }

    /// "Start, from ready": what a verification just before it says. In any other state it gives 2.
    fn compare_start(&self, number: u8) {
        let verified = library::verify(&self.library).0;
        let ready = library::state(&self.library) == 1;
        self.compare("start after a verification", number, if ready { verified } else { 2 });
    }

    /// "Loading gives back exactly what was stored": into this master, and into one that has no sequence.
    fn compare_stored(&self, bytes: usize) {
        let blocks = &self.lent[..bytes];
        let bare = library::Master { sequence: library::NO_SEQUENCE, ..*self.library };
        for into in [&*self.library, &bare] {
            let loaded = library::load(into, blocks);
            self.compare("number of a load of what was stored", loaded.number, 0);
            self.compare("master after a load of what was stored", loaded.master, *self.library);
        }
    }

    pub fn stop(&self, why: &str) -> ! {
        println!("master: seed {}, event {}: {why}", self.seed, self.event);
        for (place, event) in self.last.iter().enumerate() {
            println!("  event {}: {event}", self.event as usize + 1 + place - self.last.len());
        }
        println!("  model after it: state {:?}, TAN {}", self.model.state, self.model.tan);
        std::process::exit(1)
    }
}

fn numbers(wanted: &Outcome) -> Given {
    match wanted {
        Ok(done) => Given { number: 0, code: 0, object: 0, count: done.count },
        Err(refused) => Given { number: refused.number, code: refused.code, object: refused.object, count: 0 },
    }
}

/// The first field that differs, from both states as they are printed, one line a field: its place is the last line of
/// each smaller indent above it.
fn first_difference(given: &str, wanted: &str) -> String {
    let mut path: Vec<(usize, String, usize)> = Vec::new();
    for (line, other) in given.lines().zip(wanted.lines()) {
        let indent = line.len() - line.trim_start().len();
        let mut place = 0;
        while path.last().map_or(false, |(outer, _, _)| *outer >= indent) {
            let (outer, _, index) = path.pop().unwrap();
            place = if outer == indent { index + 1 } else { 0 };
        }
        if line.trim_start().starts_with(|c: char| "]})".contains(c)) {
            place = place.saturating_sub(1);
        }
        path.push((indent, field_name(line), place));
        if line != other {
            let names: Vec<String> = path.iter().skip(1).map(|(_, name, index)| named(name, *index)).collect();
            let values = (line.trim().trim_end_matches(','), other.trim().trim_end_matches(','));
            return format!("{}: the library gives {}, the model {}", names.join("."), values.0, values.1);
        }
    }
    "no field".to_string()
}

/// The name before the colon; none for an element of an array.
fn field_name(line: &str) -> String {
    match line.split_once(": ") {
        Some((name, _)) => name.trim().to_string(),
        None => String::new(),
    }
}

fn named(name: &str, index: usize) -> String {
    if name.is_empty() {
        return format!("[{index}]");
    }
    name.to_string()
}
