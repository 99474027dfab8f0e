//! Acts of a scenario by which sequences are stored and loaded: what this master stored before, what another one did, what
//! no recording gave, and blocks that are damaged; and by which they get an edition.

use super::blocks::{self, Damage, DAMAGES};
use super::event::Event;
use super::model::{State, SLOTS};
use super::recording::{Identity, Mark, Sequence, Step};
use super::samples::Sample;
use super::scenario::Scenario;
use super::stored;
use std::rc::Rc;

/// So many stored sequences are kept.
const SHELF: usize = 24;
/// Bytes that are enough for every sequence.
const MOST_BYTES: usize = 3_584;

/// What a master stored, which master, and the clients of its scenario.
#[derive(Clone)]
pub struct Kept {
    by: u64,
    blocks: Rc<Vec<u8>>,
    samples: Rc<Vec<Sample>>,
    clients: usize,
}

impl Scenario<'_> {
    /// The sequence is stored, and kept for later.
    pub fn store(&mut self) {
        let needed = self.run.model.stored_bytes();
        let room = self.random.pick(&[needed, needed, needed + 1, MOST_BYTES.max(needed), MOST_BYTES + 512]);
        let given = self.does(Event::Store { room });
        if given.number != 0 {
            return;
        }
        let blocks = Rc::new(self.run.lent[..given.count as usize].to_vec());
        let kept = Kept { by: self.run.seed(), blocks, samples: Rc::new(self.samples.clone()), clients: self.habits.clients };
        if self.run.shelf.len() < SHELF {
            return self.run.shelf.push(kept);
        }
        let place = self.random.below(SHELF);
        self.run.shelf[place] = kept;
    }

    /// A short recording is stored, if so many events are enough for it: for the scenario after this one it is another master's.
    pub fn lay_by(&mut self, events: u64) {
        (self.habits.clients, self.habits.ending, self.habits.greedy) = (self.habits.clients.min(4), 12, false);
        let end = self.run.events + events;
        while self.run.shelf.is_empty() && self.run.events < end {
            match self.run.model.state {
                State::Ready if !self.run.model.sequence.steps.is_empty() => self.store(),
                _ => self.act(),
            }
        }
    }

    /// Something is loaded.
    pub fn load(&mut self) {
        match self.random.below(12) {
            0 => {
                let sequence = blocks::any_sequence(&mut self.random);
                self.load_blocks(stored::of(&sequence));
            }
            1 => self.load_damaged(),
            2..=4 => self.load_made_up(),
            5 => self.load_again(),
            _ => self.load_kept(),
        }
    }

    fn load_blocks(&mut self, blocks: Vec<u8>) -> u8 {
        self.does(Event::Load { blocks: Rc::new(blocks) }).number
    }

    /// Any blocks that may be refused.
    pub fn any_blocks(&mut self) -> Vec<u8> {
        let damage = self.any_damage();
        let sequence = self.any_stored();
        blocks::damaged(&sequence, damage, &mut self.random)
    }

    fn any_damage(&mut self) -> Damage {
        self.random.pick(DAMAGES).1
    }

    /// The sequence that is there, one that was stored, or one by chance.
    fn any_stored(&mut self) -> Sequence {
        let shelf = &self.run.shelf;
        match self.random.below(3) {
            0 if !self.run.model.sequence.steps.is_empty() => self.run.model.sequence.clone(),
            1 if !shelf.is_empty() => stored::read(&shelf[self.random.below(shelf.len())].blocks),
            _ => blocks::any_sequence(&mut self.random),
        }
    }

    fn load_damaged(&mut self) {
        let blocks = self.any_blocks();
        self.load_blocks(blocks);
    }

    /// The same records in another order.
    fn load_again(&mut self) {
        let sequence = self.any_stored();
        let blocks = blocks::another_order(&sequence, &mut self.random);
        self.load_blocks(blocks);
    }

    /// What this master stored or another one did; of another one, its clients mostly come here too.
    fn load_kept(&mut self) {
        if self.run.shelf.is_empty() {
            return;
        }
        let own = self.run.shelf.iter().rposition(|kept| kept.by == self.run.seed());
        let place = own.filter(|_| !self.random.once_in(3)).unwrap_or_else(|| self.random.below(self.run.shelf.len()));
        let kept = self.run.shelf[place].clone();
        let own = kept.by == self.run.seed();
        if self.load_blocks(kept.blocks.to_vec()) != 0 {
            return;
        }
        self.run.coverage.meet(if own { "loaded, stored by this master" } else { "loaded, stored by another master" });
        if !own && !self.random.once_in(4) {
            for slot in (0..SLOTS).filter(|&slot| self.run.model.client(slot).is_some()).collect::<Vec<_>>() {
                self.does(Event::Lost { slot });
            }
            self.samples = kept.samples.to_vec();
            self.habits.clients = kept.clients;
        }
    }

    /// A sequence of the clients that are attached, which no recording gave: marks in any order, and steps in any.
    fn load_made_up(&mut self) {
        let mut sequence = Sequence { edition: self.random.pick(&[1, 2]), ..Sequence::default() };
        for _ in 0..self.random.pick(&[1, 2, 5, 20, 64]) {
            match self.attached() {
                Some(slot) => self.make_up(slot, &mut sequence),
                None => return,
            }
        }
        if !sequence.steps.is_empty() {
            self.load_blocks(stored::of(&sequence));
        }
    }

    fn make_up(&mut self, slot: usize, sequence: &mut Sequence) {
        let client = self.run.model.client(slot).unwrap().clone();
        let functions: Vec<_> = client.pool.functions.iter().filter(|function| !function.states.is_empty()).collect();
        if functions.is_empty() {
            return;
        }
        let function = self.random.pick(&functions);
        let ticks = self.random.between(0, 30);
        let millimetres = ticks.saturating_mul(self.habits.fastest / 2);
        let mark = self.random.pick(&[Mark::Ticks(ticks), Mark::Millimetres(millimetres)]);
        let (state, value) = (self.random.pick(&function.states), self.random.number() as u32);
        sequence.steps.push(Step { slot, function: function.id, state, value, mark });
        sequence.clients.entry(slot).or_insert_with(|| Identity::of(&client));
    }

    /// One that there is, mostly the second: a recording gives the first.
    pub fn set_edition(&mut self) {
        let edition = self.random.pick(&[1, 2, 2]);
        self.does(Event::Edition { edition });
    }

    /// At any time: editions that there are, and numbers that would be such editions if they were cut to a byte, to 16 or to
    /// 31 bits.
    pub fn any_edition(&mut self) -> Event {
        let (any, known) = (self.random.number() as u32, self.random.between(1, 2));
        let edition = self.random.pick(&[known, known, known, 0, 3, 256 + known, 65_536 + known, 1 << 31 | known, u32::MAX, any]);
        Event::Edition { edition }
    }

    /// At any time, with any room.
    pub fn any_store(&mut self) -> Event {
        let needed = self.run.model.stored_bytes();
        let less = self.random.below(needed + 1);
        let room = self.random.pick(&[0, less, needed.saturating_sub(1), needed.saturating_sub(512), needed, needed, needed + 1, 4_096]);
        Event::Store { room }
    }

    /// At any time: what may be stored, or damaged blocks.
    pub fn any_load(&mut self) -> Event {
        let blocks = if self.random.once_in(4) { stored::of(&self.any_stored()) } else { self.any_blocks() };
        Event::Load { blocks: Rc::new(blocks) }
    }
}
