//! Masters on the way to a replay, the library's and the model's side by side, made by the events that lead there.

use crate::event::Event;
use crate::fail;
use crate::handed;
use crate::library;
use crate::messages::{self, Answer, Indication, Status};
use crate::model::{self, State};
use crate::pools;
use crate::stored;
use std::rc::Rc;

#[derive(Clone)]
pub struct Pair {
    pub library: Box<library::Master>,
    pub model: model::Master,
}

impl Pair {
    pub fn new() -> Pair {
        Pair { library: Box::new(handed::new()), model: model::Master::new() }
    }

    /// After an event that both must accept.
    pub fn after(mut self, event: Event) -> Pair {
        let mut lent = vec![0; event.room()];
        let mut given = handed::blank_outcome();
        handed::event(&event, &self.library, &mut lent, &mut given);
        let wanted = event.on_model(&mut self.model, &mut lent);
        if given.number != 0 || wanted.map(|done| done.count).ok() != Some(given.count) {
            fail(&format!("{event}: the library gives number {}, count {}", given.number, given.count));
        }
        *self.library = given.master;
        self
    }
}

pub fn tick() -> Event {
    Event::Tick { millimetres: 400, room: 576 }
}

/// Eight clients that report ready.
pub fn ready() -> Pair {
    let pool = Rc::new(pools::middle());
    (0..8).fold(Pair::new().after(Event::On), |pair, slot| {
        let attach = Event::Attach { slot, name: slot as u64, pool: Rc::clone(&pool) };
        pair.after(attach).after(Event::Enable { slot, room: 8 }).after(Event::Report { slot, report: 1 })
    })
}

fn all_report(pair: Pair, report: u32) -> Pair {
    (0..8).fold(pair, |pair, slot| pair.after(Event::Report { slot, report }))
}

/// The step of this place, from 0, of so many clients in turn.
pub fn indication(pair: &Pair, clients: usize, place: usize, status: Status) -> Event {
    let slot = place % clients;
    let function = pair.model.client(slot).map_or(0, |client| client.pool.functions[0].id);
    let it = Indication { function, state: 2, status, tan: place as u8, value: 240 };
    Event::Indication { slot, message: messages::indication(&it).to_vec(), room: 8 }
}

/// In record, so many steps held, of so many clients in turn.
pub fn record(clients: usize, steps: usize) -> Pair {
    let pair = all_report(ready().after(Event::Record), 2);
    (0..steps).fold(pair, |pair, place| {
        let event = indication(&pair, clients, place, Status::Whole);
        pair.after(event)
    })
}

/// In record complete: 64 steps, the last of which is open.
pub fn record_complete() -> Pair {
    let pair = record(8, 63);
    let event = indication(&pair, 8, 63, Status::Started);
    pair.after(event).after(Event::Stop)
}

/// Ready, with a sequence of so many steps that are all due at once.
pub fn recorded(clients: usize, steps: usize) -> Pair {
    all_report(record(clients, steps).after(Event::Stop), 1)
}

/// A store of its sequence, with as much room as it needs.
pub fn store(pair: &Pair) -> Event {
    Event::Store { room: pair.model.stored_bytes() }
}

/// The blocks of its sequence.
pub fn blocks(pair: &Pair) -> Vec<u8> {
    stored::of(&pair.model.sequence)
}

pub fn load(blocks: Vec<u8>) -> Event {
    Event::Load { blocks: Rc::new(blocks) }
}

/// In playback of 64 steps: so many have left, one a tick, and of these so many are unanswered, the others started. At most
/// 15 can be: one more tick, at which one more step may leave, and the next aborts.
pub fn playing(sent: usize, unanswered: usize) -> Pair {
    (0..sent).fold(recorded(8, 64).after(Event::Start), |pair, place| {
        let pair = pair.after(tick());
        if place < sent - unanswered {
            let event = answer(&pair, Status::Started);
            return pair.after(event);
        }
        pair
    })
}

/// An answer to the step that left last.
pub fn answer(pair: &Pair, status: Status) -> Event {
    let playback = match &pair.model.state {
        State::Playback(playback) => playback,
        _ => fail("no playback"),
    };
    let place = playback.commands.len() - 1;
    let (command, step) = (&playback.commands[place], &pair.model.sequence.steps[place]);
    let it = Answer { function: step.function, state: step.state, status, error: 0x00, tan: command.tan };
    Event::Answer { slot: step.slot, message: messages::answer(&it).to_vec(), room: 8 }
}
