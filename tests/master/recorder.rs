//! Acts of a scenario in record and record complete.

use super::event::Event;
use super::kept::{Function, Kept};
use super::messages::{self, Indication, Status};
use super::model::{Report, State};
use super::recording::{Progress, Taken, MOST_STEPS};
use super::scenario::Scenario;

impl Scenario<'_> {
    pub fn record(&mut self) {
        self.follow();
        if self.random.once_in(self.habits.ending) {
            return self.end_recording();
        }
        if self.random.once_in(self.habits.ticking) {
            return self.any_tick();
        }
        if self.habits.greedy {
            return self.fill_up();
        }
        match self.random.below(17) {
            16 => self.latecomer(),
            0..=6 => self.fresh(&[Status::Whole, Status::Started]),
            7 => self.fresh(&Status::ALL),
            8 => {
                let report = self.any_report();
                if let Some(slot) = self.attached() {
                    self.report(slot, report);
                }
            }
            9 => self.other(),
            _ => self.go_on(&Status::ALL),
        }
    }

    /// Steps that stay, until 64 are held; then some more, and the end.
    fn fill_up(&mut self) {
        let full = self.run.model.recording().map_or(false, |recording| recording.steps.len() == MOST_STEPS);
        match self.random.below(8) {
            0 if full => {
                self.does(Event::Stop);
            }
            1 => self.go_on(&[Status::Started, Status::Finished]),
            _ => self.fresh(&[Status::Whole, Status::Whole, Status::Started]),
        }
    }

    pub fn record_complete(&mut self) {
        if self.random.once_in(self.habits.ending) {
            return self.end_recording();
        }
        match self.random.below(17) {
            16 => self.latecomer(),
            0 => self.fresh(&Status::ALL),
            1 => self.other(),
            2..=3 => self.any_tick(),
            4..=7 => self.go_on(&Status::ALL),
            _ => self.close(),
        }
    }

    /// The enabled clients report record, one an act.
    fn follow(&mut self) {
        if self.random.once_in(2) {
            if let Some(slot) = self.slot_where(|client| client.enabled() && client.report != Report::Record) {
                self.report(slot, Report::Record);
            }
        }
    }

    pub fn indicate(&mut self, slot: usize, indication: Indication) {
        let room = self.room();
        let message = messages::indication(&indication).to_vec();
        self.does(Event::Indication { slot, message, room });
    }

    fn end_recording(&mut self) {
        let complete = matches!(self.run.model.state, State::RecordComplete(_));
        match self.random.below(12) {
            0 => {
                self.does(Event::Cancel);
            }
            1 => self.lose_one(),
            2 => {
                if let Some(slot) = self.attached() {
                    self.report(slot, Report::Disabled);
                }
            }
            _ if complete => self.close(),
            _ => {
                self.does(Event::Stop);
            }
        }
    }

    /// A client's function and state, mostly of its pool; sometimes a function or state that the pool does not know.
    pub fn fresh(&mut self, statuses: &[Status]) {
        let recording = self.slot_where(|client| client.enabled() && client.report == Report::Record);
        let slot = match recording {
            Some(slot) if !self.random.once_in(40) => slot,
            _ => match self.attached() {
                Some(slot) => slot,
                None => return,
            },
        };
        let pool = self.run.model.client(slot).unwrap().pool.clone();
        let (function, state) = self.function_and_state(&pool);
        let status = self.random.pick(statuses);
        let tan = self.unused_tan(slot);
        let value = self.value();
        self.indicate(slot, Indication { function, state, status, tan, value });
    }

    fn function_and_state(&mut self, pool: &Kept) -> (u8, u8) {
        let useful: Vec<&Function> = pool.functions.iter().filter(|function| !function.states.is_empty()).collect();
        if self.random.once_in(24) || useful.is_empty() {
            return (self.random.number() as u8, self.random.below(64) as u8);
        }
        let function = self.random.pick(&useful);
        if self.random.once_in(24) {
            return (function.id, self.random.below(64) as u8);
        }
        (function.id, self.random.pick(&function.states))
    }

    /// The values of the other bytes say nothing of one another; a start mostly brings FFFFFFFF.
    fn value(&mut self) -> u32 {
        let any = self.random.number() as u32;
        self.random.pick(&[u32::MAX, 240, 220, 0, any])
    }

    fn unused_tan(&mut self, slot: usize) -> u8 {
        let any = self.random.number() as u8;
        let steps = match self.run.model.recording() {
            Some(recording) => &recording.steps,
            None => return any,
        };
        let used = |tan: u8| steps.iter().any(|taken| taken.step.slot == slot && taken.tan == tan);
        if self.random.once_in(2) {
            (0..=255).find(|&tan| !used(tan)).unwrap_or(any)
        } else {
            (0..=255).map(|step| any.wrapping_add(step)).find(|&tan| !used(tan)).unwrap_or(any)
        }
    }

    /// Any step that is held, as its client would repeat or finish it, or fail.
    fn go_on(&mut self, statuses: &[Status]) {
        let held = self.held(|_| true);
        if let Some(taken) = held {
            self.repeat(&taken, statuses);
        }
    }

    /// An open step is finished or fails.
    fn close(&mut self) {
        match self.held(|taken| taken.progress == Progress::Open) {
            Some(taken) if self.habits.greedy => self.repeat(&taken, &[Status::Finished]),
            Some(taken) => self.repeat(&taken, &[Status::Finished, Status::Finished, Status::Error]),
            None => self.any_tick(),
        }
    }

    fn repeat(&mut self, taken: &Taken, statuses: &[Status]) {
        let status = self.random.pick(statuses);
        let value = self.value();
        let step = taken.step;
        self.indicate(
            step.slot,
            Indication { function: step.function, state: step.state, status, tan: taken.tan, value },
        );
    }

    fn held(&mut self, so: impl Fn(&Taken) -> bool) -> Option<Taken> {
        let recording = self.run.model.recording()?;
        let steps: Vec<&Taken> = recording.steps.iter().filter(|taken| so(taken)).collect();
        if steps.is_empty() {
            return None;
        }
        Some(self.random.pick(&steps).clone())
    }

    /// A TAN that is held, with another function, another state, or from another client.
    fn other(&mut self) {
        let taken = match self.held(|_| true) {
            Some(taken) => taken,
            None => return,
        };
        let mut slot = taken.step.slot;
        let (mut function, mut state) = (taken.step.function, taken.step.state);
        match self.random.below(4) {
            0 => function ^= 1 << self.random.below(8),
            1 => state ^= 1 << self.random.below(6),
            2 => slot = self.attached().unwrap_or(slot),
            _ => {
                let pool = self.run.model.client(slot).unwrap().pool.clone();
                let chosen = self.function_and_state(&pool);
                function = chosen.0;
                state = chosen.1;
            }
        }
        let status = self.random.pick(&Status::ALL);
        let value = self.value();
        self.indicate(slot, Indication { function, state, status, tan: taken.tan, value });
    }
}
