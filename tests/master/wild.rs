//! Acts of a scenario at any time: any call, with anything.

use super::event::Event;
use super::messages::{self, Answer, Indication, Status};
use super::model::SLOTS;
use super::samples;
use super::scenario::Scenario;
use std::rc::Rc;

impl Scenario<'_> {
    pub fn anything(&mut self) {
        let event = match self.random.below(34) {
            0 | 24..=27 => self.plain(),
            1..=3 => self.any_attach(),
            4 => Event::Enable { slot: self.any_slot(), room: self.any_room(8) },
            5 => Event::Disable { slot: self.any_slot(), room: self.any_room(8) },
            6..=8 => Event::Report { slot: self.any_slot(), report: self.any_report_number() },
            9 => Event::Lost { slot: self.rare_slot() },
            10..=13 => self.any_indication(),
            14..=15 => self.any_client_abort(),
            28 => self.any_store(),
            29..=31 => self.any_load(),
            32..=33 => self.any_edition(),
            16..=18 => Event::Tick { millimetres: self.any_millimetres(), room: self.any_room(576) },
            _ => self.any_answer(),
        };
        self.does(event);
    }

    fn plain(&mut self) -> Event {
        match self.random.below(8) {
            0 => Event::On,
            1 => Event::Off,
            2 => Event::Record,
            3 => Event::Stop,
            4 => Event::Cancel,
            5 => Event::Start,
            6 => Event::Abort,
            _ => Event::Lost { slot: self.any_slot() },
        }
    }

    /// Slots that exist, and numbers that would be such slots if they were cut to a byte or to 32 bits.
    fn any_slot(&mut self) -> usize {
        if self.random.once_in(3) {
            return self.far_slot();
        }
        match self.attached() {
            Some(slot) if !self.random.once_in(4) => slot,
            _ => self.random.below(SLOTS),
        }
    }

    fn far_slot(&mut self) -> usize {
        let slot = self.random.below(SLOTS);
        self.random.pick(&[8, 9, 15, 16, 255, 256, 256 + slot, 65_536 + slot, (1 << 32) + slot, usize::MAX])
    }

    /// Mostly one where no client is.
    fn rare_slot(&mut self) -> usize {
        let slot = self.random.below(SLOTS);
        if self.run.model.client(slot).is_some() && !self.random.once_in(8) {
            return self.far_slot();
        }
        slot
    }

    fn any_room(&mut self, needed: usize) -> usize {
        let less = self.random.below(needed);
        self.random.pick(&[0, less, needed - 1, needed, needed, needed, needed + 1, needed + 24])
    }

    fn any_report_number(&mut self) -> u32 {
        let code = self.random.pick(&[0, 1, 2, 4, 5]);
        self.random.pick(&[code, code, code, code, code, 3, 6, 255, 256 + code, 65_536 + code, u32::MAX])
    }

    fn any_millimetres(&mut self) -> u32 {
        let any = self.random.number() as u32;
        self.random.pick(&[0, 1, 400, 65_534, 65_535, 65_535, 65_536, any, u32::MAX])
    }

    fn any_attach(&mut self) -> Event {
        let slot = self.any_slot();
        let sample = self.samples[self.random.below(SLOTS)].clone();
        let mut name = sample.name;
        if let (Some(other), true) = (self.attached(), self.random.once_in(4)) {
            name = self.run.model.client(other).unwrap().name;
        }
        let refused = self.random.once_in(2);
        let pool = if refused { samples::damaged(&sample, &mut self.random) } else { sample.bytes() };
        Event::Attach { slot, name, pool: Rc::new(pool) }
    }

    /// Any bytes for a message of this code: shorter, longer, of another code, or other in one byte.
    fn garbled(&mut self, message: [u8; 8]) -> Vec<u8> {
        let mut message = message.to_vec();
        match self.random.below(8) {
            0 => message.truncate(self.random.below(8)),
            1 => message.push(0xFF),
            2 => message.extend([0xFF; 8]),
            3 => message[0] = self.random.pick(&[0x00, 0x30, 0x31, 0x32, 0x33, 0x34, 0x35, 0x60, 0x90, 0xB2]),
            4 => message[3] = self.random.number() as u8,
            5 => message[1 + self.random.below(7)] = self.random.number() as u8,
            _ => {}
        }
        message
    }

    fn any_indication(&mut self) -> Event {
        let slot = self.any_slot();
        let (function, state) = (self.random.pick(&[0, 5, 5, 255]), self.random.pick(&[0, 1, 2, 2, 63]));
        let status = self.random.pick(&Status::ALL);
        let (tan, value) = (self.random.number() as u8, self.random.number() as u32);
        let message = self.garbled(messages::indication(&Indication { function, state, status, tan, value }));
        Event::Indication { slot, message, room: self.any_room(8) }
    }

    fn any_client_abort(&mut self) -> Event {
        let slot = self.any_slot();
        let error = self.random.pick(&[0x00, 0x01, 0x02, 0x03, 0x04, 0xFE, 0xFF]);
        let message = self.garbled([0x31, 0xFF, 0xFF, error, 0xFF, 0xFF, 0xFF, 0xFF]);
        Event::ClientAbort { slot, message }
    }

    /// Half of them match a sent step but for what is garbled.
    fn any_answer(&mut self) -> Event {
        let status = self.random.pick(&Status::ALL);
        let error = self.random.pick(&[0x00, 0x00, 0x00, 0x00, 0x01, 0x03, 0x04, 0xFE, 0xFF]);
        let (mut slot, mut tan) = (self.any_slot(), self.random.number() as u8);
        let (mut function, mut state) = (self.random.pick(&[0, 5, 5, 255]), self.random.pick(&[0, 1, 2, 2, 63]));
        if let (Some((command, step)), true) = (self.sent(|_, _| true), self.random.once_in(2)) {
            slot = step.slot;
            tan = command.tan;
            function = step.function;
            state = step.state;
        }
        let message = self.garbled(messages::answer(&Answer { function, state, status, error, tan }));
        Event::Answer { slot, message, room: self.any_room(8) }
    }
}
