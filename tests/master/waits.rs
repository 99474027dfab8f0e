//! Scenarios that go on to tick 36,000 at a steady speed: in record, record complete and playback; and steps whose
//! marks are far, at the highest speed.

use super::event::Event;
use super::generate::Random;
use super::messages::Status;
use super::model::{Report, State, LAST_TICK, SLOTS};
use super::playback::Answered;
use super::run::Run;
use super::scenario::Scenario;

#[derive(Clone, Copy, PartialEq, Debug)]
pub enum Wait {
    Record,
    RecordComplete,
    Playback,
    FarMarks,
}

pub const WAITS: [Wait; 4] = [Wait::Record, Wait::RecordComplete, Wait::Playback, Wait::FarMarks];

pub fn wait(run: &mut Run, seed: u64, wait: Wait) {
    let mut scenario = Scenario::new(run, seed);
    scenario.habits.clients = 3;
    let speeds = if wait == Wait::FarMarks { [65_535; 3] } else { [0, 400, 65_535] };
    scenario.habits.fastest = Random::new(seed).pick(&speeds);
    scenario.recording();
    match wait {
        Wait::Record => scenario.ticks(LAST_TICK, 2_000),
        Wait::RecordComplete => {
            scenario.fresh(&[Status::Started]);
            scenario.does(Event::Stop);
            scenario.ticks(LAST_TICK, 0);
        }
        Wait::Playback => {
            scenario.ticks(40, 3);
            scenario.play_back();
        }
        Wait::FarMarks => {
            scenario.ticks(LAST_TICK - 20, 900);
            scenario.ticks(10, 1);
            // Slower than it was recorded: a distance of more than 2^31 mm is waited for with less than that counted.
            scenario.habits.fastest = scenario.random.pick(&[64_000, 64_000, 65_535]);
            scenario.play_back();
        }
    }
    scenario.play(300);
}

impl Scenario<'_> {
    /// All clients ready, then in record.
    fn recording(&mut self) {
        while !matches!(self.run.model.state, State::Record(_)) {
            self.does(Event::On);
            self.prepare();
            self.does(Event::Record);
        }
        for slot in 0..SLOTS {
            if self.run.model.enabled(slot) {
                self.report(slot, Report::Record);
            }
        }
        for _ in 0..8 {
            self.fresh(&[Status::Whole]);
        }
    }

    /// So many ticks, and a one-shot step after one in `step_in` of them.
    fn ticks(&mut self, ticks: u32, step_in: usize) {
        for _ in 0..ticks {
            self.tick(self.habits.fastest);
            if step_in > 0 && self.random.once_in(step_in) {
                self.fresh(&[Status::Whole]);
            }
        }
    }

    /// To the end of the recording, and through the playback, where each step is started at once, until all are started
    /// or tick 36,000 comes.
    fn play_back(&mut self) {
        self.does(Event::Stop);
        for slot in 0..SLOTS {
            if self.run.model.enabled(slot) {
                self.report(slot, Report::Ready);
            }
        }
        self.does(Event::Start);
        while let State::Playback(_) = self.run.model.state {
            self.tick(self.habits.fastest);
            while let Some((command, step)) = self.sent(|_, command| command.answered == Answered::Not) {
                self.take(&command, &step);
            }
        }
    }
}
