//! Scenarios by chance, from a number: the same number gives the same events. What comes next is chosen by the state
//! that the model is in, so that deep states are reached; now and then anything comes.
//!
//! The acts of recording are in recorder.rs, those of playback in player.rs, those of storing and loading in keeper.rs,
//! what comes at any time in wild.rs.

use super::event::Event;
use super::generate::Random;
use super::model::{Client, Report, State, SLOTS};
use super::recording::Step;
use super::run::{Given, Run};
use super::samples::{self, Sample, CHANGES};
use std::rc::Rc;

/// How the clients and the operator of one scenario behave: each number n means "one in n".
#[derive(Clone, Debug)]
pub struct Habits {
    /// Clients taking part.
    pub clients: usize,
    /// Anything comes.
    pub wild: usize,
    /// A recording is brought to an end.
    pub ending: usize,
    /// A playback is disturbed.
    pub disturbing: usize,
    /// A client comes back changed.
    pub changing: usize,
    /// In a recording, an event is a tick.
    pub ticking: usize,
    /// An answer is prompt; the others come after exactly 15 ticks.
    pub prompt: usize,
    /// Millimetres of a tick, at most.
    pub fastest: u32,
    /// A recording is to hold 64 steps that all stay.
    pub greedy: bool,
}

impl Habits {
    fn any(random: &mut Random) -> Habits {
        Habits {
            clients: 1 + random.below(SLOTS),
            wild: random.pick(&[3, 10, 40, 200, 2_000]),
            ending: random.pick(&[8, 30, 100, 300]),
            disturbing: random.pick(&[10, 60, 300, 3_000]),
            changing: random.pick(&[3, 8, 30]),
            ticking: random.pick(&[2, 3, 6, 40]),
            prompt: random.pick(&[1, 1, 2, 4]),
            fastest: random.pick(&[0, 3, 500, 65_535]),
            greedy: random.once_in(6),
        }
    }
}

pub struct Scenario<'a> {
    pub run: &'a mut Run,
    pub random: Random,
    pub habits: Habits,
    /// The client of each slot.
    pub samples: Vec<Sample>,
}

impl<'a> Scenario<'a> {
    pub fn new(run: &'a mut Run, seed: u64) -> Scenario<'a> {
        let mut random = Random::new(seed);
        let habits = Habits::any(&mut random);
        let large_in = random.pick(&[1, 10, 1_000, 1_000]);
        let samples = (0..SLOTS).map(|_| Sample::any(&mut random, large_in)).collect();
        run.begin(seed);
        Scenario { run, random, habits, samples }
    }

    /// So many events, or a few more.
    pub fn play(&mut self, events: u64) {
        let end = self.run.events + events;
        while self.run.events < end {
            if self.random.once_in(self.habits.wild) {
                self.anything();
            } else {
                self.act();
            }
        }
    }

    pub fn act(&mut self) {
        match self.run.model.state {
            State::Inactive => self.wake(),
            State::Ready => self.ready(),
            State::Record(_) => self.record(),
            State::RecordComplete(_) => self.record_complete(),
            State::Playback(_) => self.playback(),
            State::Abort => self.abort(),
        }
    }

    pub fn does(&mut self, event: Event) -> Given {
        self.run.event(event)
    }

    /// Bytes lent for an answer: enough.
    pub fn room(&mut self) -> usize {
        self.random.pick(&[8, 8, 8, 9, 16, 600])
    }

    pub fn tick(&mut self, millimetres: u32) -> Given {
        let room = self.random.pick(&[576, 576, 576, 577, 600, 640]);
        self.does(Event::Tick { millimetres, room })
    }

    pub fn any_tick(&mut self) {
        let millimetres = self.random.between(0, self.habits.fastest);
        self.tick(millimetres);
    }

    pub fn report(&mut self, slot: usize, report: Report) {
        let number = match report {
            Report::Disabled => 0,
            Report::Ready => 1,
            Report::Record => 2,
            Report::Playback => 4,
            Report::Abort => 5,
        };
        self.does(Event::Report { slot, report: number });
    }

    pub fn any_report(&mut self) -> Report {
        self.random.pick(&[Report::Disabled, Report::Ready, Report::Record, Report::Playback, Report::Abort])
    }

    /// Any slot whose client is so.
    pub fn slot_where(&mut self, so: impl Fn(&Client) -> bool) -> Option<usize> {
        let slots: Vec<usize> = (0..SLOTS).filter(|&slot| self.run.model.client(slot).map_or(false, &so)).collect();
        if slots.is_empty() {
            return None;
        }
        Some(self.random.pick(&slots))
    }

    pub fn attached(&mut self) -> Option<usize> {
        self.slot_where(|_| true)
    }

    /// Anything comes some times before the master goes on.
    fn wake(&mut self) {
        for _ in 0..self.random.below(16) {
            self.anything();
        }
        self.does(Event::On);
    }

    /// All others that the master hears of at rest report disabled, and it goes off; some stay awake, now and then.
    fn sleep(&mut self) {
        for slot in 0..SLOTS {
            if self.run.model.client(slot).is_some() && !self.random.once_in(40) {
                let room = self.room();
                self.does(Event::Disable { slot, room });
                self.report(slot, Report::Disabled);
            }
        }
        self.does(Event::Off);
    }

    fn ready(&mut self) {
        if self.random.once_in(self.habits.changing) {
            return self.come_back();
        }
        match self.random.below(29) {
            0 => self.sleep(),
            1 => self.any_tick(),
            2 => self.set_one(),
            3 => {
                self.does(Event::Record);
            }
            4 => {
                self.does(Event::Start);
            }
            5 => {
                let report = self.any_report();
                if let Some(slot) = self.attached() {
                    self.report(slot, report);
                }
            }
            6 => self.bystander(),
            7 => self.store(),
            8..=9 => self.load(),
            10..=11 => self.set_edition(),
            _ => self.begin(),
        }
    }

    /// A client that takes no part is awake and not wanted.
    fn bystander(&mut self) {
        let slot = SLOTS - 1;
        if self.run.model.client(slot).is_none() {
            self.attach(slot, self.samples[slot].clone());
        }
        let room = self.room();
        self.does(Event::Enable { slot, room });
        self.report(slot, Report::Ready);
        self.disable(slot);
    }

    fn set_one(&mut self) {
        let room = self.room();
        let slot = self.random.below(SLOTS);
        if self.random.once_in(2) {
            self.does(Event::Enable { slot, room });
        } else {
            self.does(Event::Disable { slot, room });
        }
    }

    /// A recording, or a playback of what was recorded.
    fn begin(&mut self) {
        self.prepare();
        if self.run.model.sequence.steps.is_empty() || self.random.once_in(4) {
            self.does(Event::Record);
            return;
        }
        let refused = self.does(Event::Start).number;
        if refused == 8 || refused == 12 || (refused != 0 && self.random.once_in(2)) {
            self.restore();
        }
    }

    /// All that take part are attached, enabled and ready; now and then one lags behind.
    pub fn prepare(&mut self) {
        for slot in 0..self.habits.clients {
            if self.run.model.client(slot).is_none() {
                self.attach(slot, self.samples[slot].clone());
            }
            if !self.run.model.client(slot).map_or(true, |client| client.wanted) && !self.random.once_in(16) {
                let room = self.room();
                self.does(Event::Enable { slot, room });
            }
            let ready = self.run.model.client(slot).map_or(true, |client| client.report == Report::Ready);
            if !ready && !self.random.once_in(8) {
                self.report(slot, Report::Ready);
            }
        }
    }

    /// The pool comes damaged first, now and then.
    pub fn attach(&mut self, slot: usize, sample: Sample) {
        if self.random.once_in(6) {
            let pool = Rc::new(samples::damaged(&sample, &mut self.random));
            self.does(Event::Attach { slot, name: sample.name, pool });
        }
        let pool = Rc::new(sample.bytes());
        self.does(Event::Attach { slot, name: sample.name, pool });
    }

    /// Every client of the sequence comes back as it was.
    fn restore(&mut self) {
        let slots: Vec<usize> = self.run.model.sequence.clients.keys().copied().collect();
        for slot in slots {
            self.does(Event::Lost { slot });
            self.attach(slot, self.samples[slot].clone());
        }
    }

    /// Some clients, mostly of the sequence, go; and mostly they come back changed in one thing or two.
    fn come_back(&mut self) {
        for _ in 0..self.random.pick(&[1, 1, 2, 3]) {
            let slots: Vec<usize> = self.run.model.sequence.clients.keys().copied().collect();
            let slot = if slots.is_empty() || self.random.once_in(8) {
                self.random.below(SLOTS)
            } else {
                self.random.pick(&slots)
            };
            match self.random.below(8) {
                0 => {
                    self.does(Event::Lost { slot });
                }
                1 => self.disable(slot),
                2 => {
                    let report = self.any_report();
                    self.report(slot, report);
                }
                _ => self.change(slot),
            }
        }
        if self.random.once_in(2) {
            self.does(Event::Start);
        }
    }

    fn disable(&mut self, slot: usize) {
        let room = self.room();
        self.does(Event::Disable { slot, room });
    }

    fn change(&mut self, slot: usize) {
        let steps: Vec<Step> = self.run.model.sequence.steps.iter().filter(|step| step.slot == slot).copied().collect();
        let step = if steps.is_empty() { None } else { Some(self.random.pick(&steps)) };
        let mut sample = self.samples[slot].clone();
        for _ in 0..self.random.pick(&[1, 1, 1, 2]) {
            let change = self.random.pick(&CHANGES);
            sample = samples::changed(&sample, change, step.as_ref(), &mut self.random);
        }
        self.does(Event::Lost { slot });
        self.attach(slot, sample.clone());
        if self.random.once_in(4) {
            // It is the client of this slot from now on.
            self.samples[slot] = sample;
        }
        if !self.random.once_in(8) {
            let room = self.room();
            self.does(Event::Enable { slot, room });
            if !self.random.once_in(8) {
                self.report(slot, Report::Ready);
            }
        }
    }

    /// One enabled client after the other reports abort, unless something else comes; then what ends the abort.
    fn abort(&mut self) {
        if self.random.once_in(6) {
            return self.anything();
        }
        let waited_for = self.slot_where(|client| client.enabled() && client.report != Report::Abort);
        match (self.random.below(8), waited_for) {
            (0, _) => self.any_tick(),
            (1, _) => self.lose_one(),
            (2, _) => self.latecomer(),
            (_, Some(slot)) => self.report(slot, Report::Abort),
            (3, None) => {
                let report = self.any_report();
                if let Some(slot) = self.slot_where(|client| !client.wanted) {
                    self.report(slot, report);
                }
            }
            (4, None) => {
                let report = self.any_report();
                if let Some(slot) = self.attached() {
                    self.report(slot, report);
                }
            }
            _ => self.any_tick(),
        }
    }

    /// A client that is wanted and has reported nothing yet reports.
    pub fn latecomer(&mut self) {
        let report = self.any_report();
        if let Some(slot) = self.slot_where(|client| client.wanted && !client.enabled()) {
            self.report(slot, report);
        }
    }

    pub fn lose_one(&mut self) {
        if let Some(slot) = self.attached() {
            self.does(Event::Lost { slot });
        }
    }
}
