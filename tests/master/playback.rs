//! The model's playback: what leaves at a tick, and what the answers do.

use super::messages::{self, Answer, Status};
use super::model::{self, Master, Outcome, State, LAST_TICK};
use super::recording::{Mark, Step};

/// "if a sent step has no answer 16 ticks after it first left, abort"
const PATIENCE: u32 = 16;

#[derive(Clone, Copy, PartialEq, Debug)]
pub enum Answered {
    Not,
    Started,
    Done,
}

/// A step that has left: its TAN, the tick at which it first left, and its answer.
#[derive(Clone, PartialEq, Debug)]
pub struct Command {
    pub tan: u8,
    pub left: u32,
    pub answered: Answered,
}

/// The commands belong to the first steps of the sequence, one each.
#[derive(Clone, PartialEq, Debug, Default)]
pub struct Playback {
    pub ticks: u32,
    pub millimetres: u32,
    pub commands: Vec<Command>,
}

impl Playback {
    fn late(&self) -> bool {
        self.commands.iter().any(|command| command.answered == Answered::Not && self.ticks - command.left >= PATIENCE)
    }

    fn due(&self, step: &Step) -> bool {
        match step.mark {
            Mark::Ticks(mark) => self.ticks >= mark,
            Mark::Millimetres(mark) => self.millimetres >= mark,
        }
    }

    /// "each sent, unanswered step", and of document 02, request 6: "A command leaves again only at even ticks after it
    /// first left, so at 0, 2 and on to 14."
    fn leaves(&self, command: &Command) -> bool {
        command.answered == Answered::Not && matches!(self.ticks - command.left, 0 | 2 | 4 | 6 | 8 | 10 | 12 | 14)
    }

    /// "nine to a frame: slot, then the eight of E.6", "written in one frame, oldest first". "The frame count becomes
    /// the frames really written".
    pub fn frames(&self, steps: &[Step]) -> Vec<Vec<u8>> {
        let sent = self.commands.iter().zip(steps);
        let leaving = sent.filter(|(command, _)| self.leaves(command));
        leaving.map(|(command, step)| frame(step, command.tan)).collect()
    }

    fn all_done(&self, steps: &[Step]) -> bool {
        self.commands.len() == steps.len() && self.commands.iter().all(|command| command.answered == Answered::Done)
    }
}

fn frame(step: &Step, tan: u8) -> Vec<u8> {
    let mut bytes = vec![step.slot as u8];
    bytes.extend(messages::command(step.function, step.state, tan, step.value));
    bytes
}

impl Master {
    /// "At a tick: count it; at tick 36,000 abort; if a sent step has no answer 16 ticks after it first left, abort;
    /// else the next step in order leaves if due, one new step a tick"; then the frames are written.
    pub fn tick_playback(&mut self, millimetres: u32) -> Vec<Vec<u8>> {
        let playback = match &mut self.state {
            State::Playback(playback) => playback,
            _ => unreachable!(),
        };
        playback.ticks += 1;
        playback.millimetres += millimetres;
        if playback.ticks == LAST_TICK || playback.late() {
            self.state = State::Abort;
            return Vec::new();
        }
        let next = self.sequence.steps.get(playback.commands.len());
        if next.map_or(false, |step| playback.due(step)) {
            // "The TAN [..] rises by 1 before each new command, 255 to 0."
            self.tan = self.tan.wrapping_add(1);
            playback.commands.push(Command { tan: self.tan, left: playback.ticks, answered: Answered::Not });
        }
        playback.frames(&self.sequence.steps)
    }

    /// E.7, acknowledged with E.8.
    pub fn answer(&mut self, slot: usize, message: &[u8], out: &mut [u8]) -> Outcome {
        model::room(out, 8)?;
        let it = model::readable(messages::read_answer(message))?;
        self.occupied(slot)?;
        self.active()?;
        let found = match self.sent(slot, &it) {
            Some(place) => place,
            None => return model::refuse_by(15, self.why_not_sent(slot, &it)),
        };
        out[..8].copy_from_slice(&messages::acknowledgement(&it));
        model::done_by(self.answered(found, &it))
    }

    /// "An E.7 must match slot, TAN, function and state of a sent step, else 15; outside playback no step counts as
    /// sent."
    fn sent(&self, slot: usize, it: &Answer) -> Option<usize> {
        let playback = match &self.state {
            State::Playback(playback) => playback,
            _ => return None,
        };
        let matches = |(command, step): (&Command, &Step)| {
            step.slot == slot && command.tan == it.tan && step.function == it.function && step.state == it.state
        };
        playback.commands.iter().zip(&self.sequence.steps).position(matches)
    }

    /// Which of the four alone keeps an E.7 from matching; only a name for what was met.
    fn why_not_sent(&self, slot: usize, it: &Answer) -> &'static str {
        let playback = match &self.state {
            State::Playback(playback) => playback,
            _ => return "outside playback",
        };
        for (command, step) in playback.commands.iter().zip(&self.sequence.steps) {
            let wrong = [
                (step.slot != slot, "other slot"),
                (command.tan != it.tan, "other TAN"),
                (step.function != it.function, "other function"),
                (step.state != it.state, "other state"),
            ];
            let mut names = wrong.iter().filter(|(differs, _)| *differs).map(|(_, name)| *name);
            if let (Some(name), None) = (names.next(), names.next()) {
                return name;
            }
        }
        "nothing like it"
    }

    /// "01 marks it started, 00 and 10 done, 11 aborts; a further answer for a done step, 11 or an error too, is
    /// acknowledged and changes nothing." Playback goes to abort on "an error answer", "to ready when all steps are
    /// done".
    fn answered(&mut self, place: usize, it: &Answer) -> &'static str {
        let playback = match &mut self.state {
            State::Playback(playback) => playback,
            _ => unreachable!(),
        };
        let command = &mut playback.commands[place];
        let failed = it.error != 0x00 || it.status == Status::Error;
        if command.answered == Answered::Done {
            return if failed { "after done, an error" } else { "after done" };
        }
        if failed {
            self.state = State::Abort;
            return "error answer";
        }
        let (answered, rule) = match (it.status, command.answered) {
            (Status::Started, Answered::Not) => (Answered::Started, "started"),
            (Status::Started, _) => (Answered::Started, "started repeated"),
            (_, Answered::Not) => (Answered::Done, "done at once"),
            _ => (Answered::Done, "done after started"),
        };
        command.answered = answered;
        if playback.all_done(&self.sequence.steps) {
            self.state = State::Ready;
        }
        rule
    }
}
