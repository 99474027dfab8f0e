//! Acts of a scenario in playback.

use super::event::Event;
use super::messages::{self, Answer, Indication, Status};
use super::model::{Report, State};
use super::playback::{Answered, Command, Playback};
use super::recording::{Mark, Step};
use super::scenario::Scenario;

impl Scenario<'_> {
    pub fn playing(&self) -> Option<&Playback> {
        match &self.run.model.state {
            State::Playback(playback) => Some(playback),
            _ => None,
        }
    }

    pub fn playback(&mut self) {
        if self.random.once_in(self.habits.disturbing) {
            return self.disturb();
        }
        if self.random.once_in(12) {
            return self.stray();
        }
        let last_moment = |ticks: u32, command: &Command| ticks - command.left == 15;
        if let Some((command, step)) = self.sent(|ticks, it| it.answered == Answered::Not && last_moment(ticks, it)) {
            return self.take(&command, &step);
        }
        if self.random.once_in(2) {
            if self.random.once_in(self.habits.prompt) {
                return self.answer_one(|_, command| command.answered == Answered::Not);
            }
            return self.answer_one(|_, command| command.answered == Answered::Started);
        }
        self.drive();
    }

    /// A tick; where the next step waits for a distance, mostly some part of it.
    pub fn drive(&mut self) {
        let (playback, steps) = match &self.run.model.state {
            State::Playback(playback) => (playback, &self.run.model.sequence.steps),
            _ => return self.any_tick(),
        };
        let missing = match steps.get(playback.commands.len()).map(|step| step.mark) {
            Some(Mark::Millimetres(mark)) => mark.saturating_sub(playback.millimetres),
            _ => 0,
        };
        if missing == 0 || self.random.once_in(8) {
            return self.any_tick();
        }
        let part = missing / self.random.pick(&[1, 1, 2, 3]);
        let millimetres = self.random.pick(&[part, part + 1, part.saturating_sub(1), missing]);
        self.tick(millimetres.min(65_535));
    }

    /// Any sent step that is so, the ticks counted being given.
    pub fn sent(&mut self, so: impl Fn(u32, &Command) -> bool) -> Option<(Command, Step)> {
        let playback = self.playing()?;
        let sent = playback.commands.iter().zip(&self.run.model.sequence.steps);
        let chosen = sent.filter(|(command, _)| so(playback.ticks, command));
        let chosen: Vec<(Command, Step)> = chosen.map(|(command, step)| (command.clone(), *step)).collect();
        if chosen.is_empty() {
            return None;
        }
        let place = self.random.below(chosen.len());
        Some(chosen[place].clone())
    }

    fn answer_one(&mut self, so: impl Fn(u32, &Command) -> bool) {
        match self.sent(so) {
            Some((command, step)) => self.take(&command, &step),
            None => self.drive(),
        }
    }

    /// The client takes up or finishes the step.
    pub fn take(&mut self, command: &Command, step: &Step) {
        let status = match command.answered {
            Answered::Not => self.random.pick(&[Status::Whole, Status::Started, Status::Started, Status::Finished]),
            _ => self.random.pick(&[Status::Started, Status::Finished, Status::Finished, Status::Whole]),
        };
        self.answer(step.slot, answer(command, step, status, 0x00));
    }

    pub fn answer(&mut self, slot: usize, answer: Answer) {
        let room = self.room();
        let mut message = messages::answer(&answer).to_vec();
        for byte in &mut message[5..] {
            *byte = self.random.pick(&[0xFF, *byte, 0x00, 0x34]);
        }
        self.does(Event::Answer { slot, message, room });
    }

    /// What ends no playback.
    fn stray(&mut self) {
        match self.random.below(9) {
            8 => self.latecomer(),
            0 | 1 => self.after_done(),
            2 | 3 => self.no_match(),
            4 => self.early(),
            5 => {
                let report = self.random.pick(&[Report::Ready, Report::Playback]);
                if let Some(slot) = self.attached() {
                    self.report(slot, report);
                }
            }
            6 => self.fresh(&[Status::Whole, Status::Started, Status::Finished]),
            _ => self.no_step(),
        }
    }

    /// A done step is answered again, by an error too.
    fn after_done(&mut self) {
        if let Some((command, step)) = self.sent(|_, command| command.answered == Answered::Done) {
            let status = self.random.pick(&Status::ALL);
            let error = self.random.pick(&[0x00, 0x00, 0x01, 0x02, 0x03, 0xFF]);
            self.answer(step.slot, answer(&command, &step, status, error));
        }
    }

    /// An answer that is wrong in one thing.
    fn no_match(&mut self) {
        let (command, step) = match self.sent(|_, _| true) {
            Some(sent) => sent,
            None => return,
        };
        let status = self.random.pick(&Status::ALL);
        let mut it = answer(&command, &step, status, 0x00);
        let mut slot = step.slot;
        match self.random.below(4) {
            0 => slot = self.attached().unwrap_or(slot),
            1 => it.tan ^= 1 << self.random.below(8),
            2 => it.function ^= 1 << self.random.below(8),
            _ => it.state ^= 1 << self.random.below(6),
        }
        self.answer(slot, it);
    }

    /// The next step is answered before it has left.
    fn early(&mut self) {
        let next = self.playing().and_then(|playback| self.run.model.sequence.steps.get(playback.commands.len()));
        if let Some(&step) = next {
            let command = Command { tan: self.run.model.tan.wrapping_add(1), left: 0, answered: Answered::Not };
            self.answer(step.slot, answer(&command, &step, Status::Whole, 0x00));
        }
    }

    /// An E.4 of status 11 whose function is no step of its client.
    fn no_step(&mut self) {
        if let Some(slot) = self.slot_where(|client| client.enabled()) {
            let function = self.random.number() as u8;
            let (state, tan) = (self.random.below(64) as u8, self.random.number() as u8);
            self.indicate(slot, Indication { function, state, status: Status::Error, tan, value: 0 });
        }
    }

    /// What ends a playback, one of each kind.
    fn disturb(&mut self) {
        match self.random.below(8) {
            0 => {
                self.does(Event::Abort);
            }
            1 => self.client_aborts(),
            2 => self.lose_one(),
            3 | 4 => {
                let report = self.random.pick(&[Report::Disabled, Report::Record, Report::Abort]);
                if let Some(slot) = self.attached() {
                    self.report(slot, report);
                }
            }
            5 => self.error_answer(),
            6 => self.error_indication(),
            _ => self.keep_silent(),
        }
    }

    fn client_aborts(&mut self) {
        let slot = match self.attached() {
            Some(slot) => slot,
            None => return,
        };
        let mut message = vec![0x31, 0xFF, 0xFF, 0, 0xFF, 0xFF, 0xFF, 0xFF];
        message[3] = self.random.pick(&[0x01, 0x02, 0x03, 0xFF]);
        message[1 + self.random.below(2)] = self.random.number() as u8;
        message[4 + self.random.below(4)] = self.random.number() as u8;
        self.does(Event::ClientAbort { slot, message });
    }

    fn error_answer(&mut self) {
        if let Some((command, step)) = self.sent(|_, command| command.answered != Answered::Done) {
            let status = self.random.pick(&Status::ALL);
            let error = self.random.pick(&[0x01, 0x02, 0x03, 0xFF]);
            let error = if status == Status::Error && self.random.once_in(2) { 0x00 } else { error };
            self.answer(step.slot, answer(&command, &step, status, error));
        }
    }

    /// An E.4 of status 11 of a function that is a step, sent or not, in any state of the function.
    fn error_indication(&mut self) {
        let step = self.random.pick(&self.run.model.sequence.steps);
        let (state, tan) = (self.random.below(64) as u8, self.random.number() as u8);
        let status = Status::Error;
        self.indicate(step.slot, Indication { function: step.function, state, status, tan, value: 0 });
    }

    /// No answer comes for 17 ticks.
    fn keep_silent(&mut self) {
        for _ in 0..17 {
            self.drive();
        }
    }
}

fn answer(command: &Command, step: &Step, status: Status, error: u8) -> Answer {
    Answer { function: step.function, state: step.state, status, error, tan: command.tan }
}
