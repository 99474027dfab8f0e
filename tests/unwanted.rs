//! Out-parameters that a host does not want: with NULL for one of them a wrapper gives the same number, leaves the same master and the same lent
//! bytes, and writes its other out-parameter the same.

use crate::library::{self, unwanted, Master, Message, Object, Plain, NO_MESSAGE};
use crate::master::event::Event;
use crate::pool::generate::{Pool, Random, Shape};
use crate::{bits, fail};
use std::fmt::Debug;

const COUNT: u64 = 300;
const SEED: u64 = 11_783;
const BUFFER: usize = 4_100;

struct Run {
    random: Random,
    calls: u64,
}

/// COUNT rounds, from SEED.
pub fn run(arguments: &[&str]) {
    let (count, seed) = crate::count_and_seed(arguments, COUNT, SEED);
    let mut run = Run { random: Random::new(seed), calls: 0 };
    let mut masters = bits::Run::new(seed);
    for _ in 0..count {
        run.object();
        run.messages();
        run.shown();
        let m = masters.master();
        run.readers(&m);
        masters.events(&m).iter().for_each(|event| run.event(event, &m));
    }
    println!("unwanted: {} calls with NULL for an out-parameter, each as with one", run.calls);
}

impl Run {
    fn same<T: PartialEq + Debug>(&mut self, what: &str, without: T, with: T) {
        self.calls += 1;
        if without != with {
            fail("unwanted", &format!("{what}: with NULL {without:?}, else {with:?}"));
        }
    }

    /// A call that writes lent bytes: with all, and without.
    fn lent<T: PartialEq + Debug>(&mut self, what: &str, room: usize, with: impl Fn(&mut [u8]) -> (u8, T), without: impl Fn(&mut [u8]) -> u8) {
        let before: Vec<u8> = (0..BUFFER).map(|_| self.random.number() as u8).collect();
        let (mut one, mut other) = (before.clone(), before);
        let number = with(&mut one[..room]).0;
        let given = without(&mut other[..room]);
        self.same(what, (given, other), (number, one));
    }

    /// Of a legal pool, or any bits of a kind that there is.
    fn object(&mut self) {
        let shape = Shape { functions: 1 + self.random.below(3), states: 3, shortest: 0, longest: 3, unlisted: 1 };
        let pool = Pool::legal(&mut self.random, shape, 4_000).bytes();
        let mut object = library::object_at(&pool, 0);
        if self.random.once_in(3) {
            let random = &mut self.random;
            object = Object { kind: random.below(4) as u8, ..Object::made(|| random.number() as u8) };
        }
        let (place, room) = (self.random.below(9), self.random.pick(&[8, 64, 700, 1_200]));
        let write = |out: &mut [u8]| library::object_write(&object, place, out);
        self.lent("object_write", room, write, |out| unwanted::object_write(&object, place, out));
    }

    fn messages(&mut self) {
        let mut bytes: Vec<u8> = (0..8).map(|_| self.random.number() as u8).collect();
        bytes[0] = self.random.pick(&[0x00, 0x01, 0x04, 0x30, 0x31, 0x32, 0x33, 0x34, 0x90, 0x91]);
        let side = self.random.pick(&[0, 1, 2]);
        let (number, read) = library::message_read(side, &bytes);
        self.same("message_read", unwanted::message_read(side, &bytes), number);
        let (kind, code) = (self.random.below(27) as u8, self.random.pick(&[0, 1, 2, 255]));
        for message in [read, Message { kind, code, ..NO_MESSAGE }] {
            let room = self.random.pick(&[0, 7, 8, 80]);
            let write = |out: &mut [u8]| library::message_write(&message, out);
            self.lent("message_write", room, write, |out| unwanted::message_write(&message, out));
        }
        let room = self.random.pick(&[0, 8, 9, 20]);
        self.lent("transfer_write", room, |out| library::transfer_write(&bytes, out), |out| unwanted::transfer_write(&bytes, out));
    }

    fn shown(&mut self) {
        let (value, offset) = (self.random.number() as u32, self.random.number() as i32);
        let scale = f32::from_bits(self.random.number() as u32);
        self.same("shown", unwanted::shown(value, offset, scale), library::shown(value, offset, scale).0);
        let (decimals, room) = (self.random.below(9) as u32, self.random.pick(&[0, 1, 8, 20, 58, 60]));
        let write = |text: &mut [u8]| library::shown_text(value, offset, scale, decimals, text);
        self.lent("shown_text", room, write, |text| unwanted::shown_text(value, offset, scale, decimals, text));
    }

    fn readers(&mut self, m: &Master) {
        for i in [0, 1, 7, 8, 63, 64, usize::MAX] {
            self.same("slot", unwanted::slot(m, i), library::slot(m, i).0);
            self.same("step", unwanted::step(m, i), library::step(m, i).0);
            self.same("client", unwanted::client(m, i), library::client(m, i).0);
            self.same("taken", unwanted::taken(m, i), library::taken(m, i).0);
            self.same("sent", unwanted::sent(m, i), library::sent(m, i).0);
        }
        self.same("verify", unwanted::verify(m), library::verify(m).0);
    }

    /// The events that have out-parameters: a tick, a store, and an attachment, without one or both.
    fn event(&mut self, event: &Event, m: &Master) {
        match event {
            Event::Tick { millimetres, room } => {
                let with = |out: &mut [u8]| {
                    let given = library::tick(m, *millimetres, out);
                    (given.number, given.master)
                };
                let (before, mut after) = ([0x5A; 600], *m);
                let (mut one, mut other) = (before, before);
                let number = unwanted::tick(&mut after, *millimetres, &mut other[..*room]);
                self.same("tick", ((number, after), other), (with(&mut one[..*room]), one));
            }
            Event::Store { room } => self.lent("store", *room, |out| library::store_of(m, out), |out| unwanted::store(m, out)),
            Event::Attach { slot, name, pool } => {
                let given = library::attach(m, *slot, *name, pool);
                for (code_wanted, object_wanted) in [(true, false), (false, true), (false, false)] {
                    let mut code = if code_wanted { !given.code } else { given.code };
                    let mut object = if object_wanted { !given.object } else { given.object };
                    let mut after = *m;
                    let into = (code_wanted.then(|| &mut code), object_wanted.then(|| &mut object));
                    let number = unwanted::attach(&mut after, *slot, *name, pool, into.0, into.1);
                    let with = (given.number, given.code, given.object, given.master);
                    self.same("attach", (number, code, object, after), with);
                }
            }
            _ => {}
        }
    }
}
