//! Messages: the library against the model of `model.rs`. The first difference is printed and ends the run.

mod flat;
mod model;

use crate::library::{self, Message as Flat};
use flat::{flat, set};
use model::{Length, Message, CLAUSES};
use std::collections::BTreeMap;

/// A small generator of its own, so that every run is the same.
struct Rng(u64);
impl Rng {
    fn next(&mut self) -> u64 {
        self.0 ^= self.0 << 13;
        self.0 ^= self.0 >> 7;
        self.0 ^= self.0 << 17;
        self.0.wrapping_mul(0x2545_F491_4F6C_DD1D) >> 16
    }
    fn below(&mut self, n: u64) -> u64 {
        self.next() % n
    }
    fn bytes(&mut self, n: usize) -> Vec<u8> {
        (0..n).map(|_| self.next() as u8).collect()
    }
}

struct Run {
    cases: u64,
    rng: Rng,
}

/// A writing by its wrapper and by value: to these bytes, giving the number and the length.
struct Calls<'a> {
    wrapper: &'a dyn Fn(&mut [u8]) -> (u8, usize),
    value: &'a dyn Fn(&mut [u8]) -> (u8, usize),
}

fn hex(bytes: &[u8]) -> String {
    bytes.iter().take(80).map(|b| format!("{b:02X} ")).collect()
}

fn differ(what: &str, given: String, library: String, model: String) -> ! {
    crate::fail("message", &format!("{what} differs\n given:   {given}\n library: {library}\n model:   {model}"))
}

/// What the call gives by its wrapper and by value, which is the same.
fn both_ways<T: PartialEq + std::fmt::Debug>(what: &str, wrapper: (u8, T), value: (u8, T)) -> (u8, T) {
    if wrapper != value {
        differ(&format!("{what} by value"), String::new(), format!("{value:?}"), format!("the wrapper gives {wrapper:?}"));
    }
    wrapper
}

impl Run {
    fn read(&mut self, side: u32, bytes: &[u8]) -> (u8, Flat) {
        self.cases += 1;
        let r = library::message_read(side, bytes);
        let (number, message) = model::read(side, bytes);
        let want = (number, flat(&message));
        if r != want {
            differ("read", format!("side {side}, {} bytes: {}", bytes.len(), hex(bytes)), format!("{r:?}"), format!("{want:?}"));
        }
        let value = library::value::message_read(side, bytes);
        both_ways("read", r, (value.number, value.message))
    }

    fn both(&mut self, bytes: &[u8]) {
        self.read(0, bytes);
        self.read(1, bytes);
    }

    /// A writing, by the wrapper and by value, that must give this.
    fn written(&mut self, what: &str, given: &dyn Fn() -> String, room: usize, calls: &Calls, want: (u8, Vec<u8>)) -> ((u8, usize), Vec<u8>) {
        self.cases += 1;
        let before = self.rng.bytes(room);
        let mut left = before.clone();
        left[..want.1.len()].copy_from_slice(&want.1);
        let length = want.1.len();
        let (mut out, mut other) = (before.clone(), before);
        let got = both_ways(what, (calls.wrapper)(&mut out), (calls.value)(&mut other));
        if got != (want.0, length) || out != left || other != left {
            differ(what, format!("{}, {room} bytes lent", given()), format!("{got:?}: {}", hex(&out)), format!("{} {length}: {}", want.0, hex(&left)));
        }
        (got, out)
    }

    fn write(&mut self, m: &Message, room: usize) -> ((u8, usize), Vec<u8>) {
        self.write_flat("write", &flat(m), m, room)
    }

    /// A struct that says this message.
    fn write_flat(&mut self, what: &str, f: &Flat, m: &Message, room: usize) -> ((u8, usize), Vec<u8>) {
        let value = |out: &mut [u8]| {
            let written = library::value::message_write(f, out);
            (written.number, written.length)
        };
        let calls = Calls { wrapper: &|out| library::message_write(f, out), value: &value };
        self.written(what, &|| format!("{f:?}"), room, &calls, model::write(m, room))
    }

    fn transfer(&mut self, pool: &[u8], room: usize) -> ((u8, usize), Vec<u8>) {
        let value = |out: &mut [u8]| {
            let written = library::value::transfer_write(pool, out);
            (written.number, written.length)
        };
        let calls = Calls { wrapper: &|out| library::transfer_write(pool, out), value: &value };
        self.written("write_transfer", &|| format!("a pool of {}", pool.len()), room, &calls, model::write_transfer(pool, room))
    }

    /// A message of a clause with values that its fields allow. D.6 has none here: its pool is written apart.
    fn legal(&mut self, kind: u8) -> Message {
        let clause = CLAUSES.iter().find(|c| c.kind == kind).unwrap();
        let mut fields = BTreeMap::new();
        for field in clause.fields {
            let (a, b) = field.values[self.rng.below(field.values.len() as u64) as usize];
            let v = match self.rng.below(8) {
                0 => a,
                1 => b,
                _ => a + self.rng.below(b - a + 1),
            };
            if field.name != "label" {
                fields.insert(field.name, v);
            }
        }
        let n = if clause.length == Length::Label && fields["code"] == 0 { 1 + self.rng.below(63) as usize } else { 0 };
        Message { kind, fields, label_length: n, label: self.rng.bytes(n) }
    }

    /// The bytes of a legal message.
    fn bytes(&mut self, kind: u8) -> Vec<u8> {
        if kind == 9 {
            let n = 8 + self.rng.below(30) as usize;
            let pool = self.rng.bytes(n);
            return self.transfer(&pool, n + 1).1;
        }
        let m = self.legal(kind);
        let ((_, length), out) = self.write(&m, 80);
        out[..length].to_vec()
    }

    /// The cases of 01.
    fn cases_of_01(&mut self) {
        let cases: &[(u32, u8, &[u8])] = &[
            (1, 23, &[0x33, 0x05, 0x02, 0xFF, 0xF0, 0x00, 0x00, 0x00]),
            (0, 21, &[0x32, 0x05, 0x42, 0x00, 0xFF, 0xFF, 0xFF, 0xFF]),
            (0, 21, &[0x32, 0x05, 0x82, 0x00, 0xF0, 0x00, 0x00, 0x00]),
            (0, 24, &[0x34, 0x05, 0x82, 0x00, 0xFF, 0xFF, 0xFF, 0xFF]),
            (1, 25, &[0x34, 0x05, 0x82, 0xFF, 0xFF, 0xFF, 0xFF, 0xFF]),
        ];
        for &(side, kind, bytes) in cases {
            let (number, message) = self.read(side, bytes);
            let mut out = [0u8; 8];
            let w = library::message_write(&message, &mut out);
            if number != 0 || message.kind != kind || w.0 != 0 || out != bytes {
                differ("a case of 01", hex(bytes), format!("{number} {message:?} {w:?} {}", hex(&out)), String::new());
            }
        }
    }

    /// Every code from each side, every length from 0 to 20; sides that there are not.
    fn every_code(&mut self) {
        for code in 0..=255u8 {
            for n in (0..=20usize).chain(0..=20) {
                let mut bytes = self.rng.bytes(n);
                if n > 0 {
                    bytes[0] = code;
                }
                self.both(&bytes);
                for side in [2, 3, 255, 256, 257, u32::MAX] {
                    self.read(side, &bytes);
                }
            }
        }
    }

    /// So many of each message: every value of every byte, every length from 0 to 20, both sides.
    fn every_byte(&mut self, count: usize) {
        for clause in CLAUSES.iter().flat_map(|clause| std::iter::repeat(clause).take(count)) {
            let bytes = self.bytes(clause.kind);
            let r = self.read(clause.side, &bytes);
            if r.0 != 0 {
                differ("a legal message", format!("{}: {}", clause.name, hex(&bytes)), format!("{r:?}"), String::new());
            }
            for place in 0..bytes.len() {
                for v in 0..=255u8 {
                    let mut b = bytes.clone();
                    b[place] = v;
                    self.both(&b);
                }
            }
            for n in 0..=20 {
                let mut b = bytes.clone();
                b.resize(n, 0xFF);
                self.both(&b);
            }
        }
    }

    /// Labels: each error code with each length byte, and every length about the one it asks for.
    fn every_label(&mut self) {
        for (code, error) in [1u8, 2].into_iter().flat_map(|code| [0u8, 1, 2, 254, 255].map(|error| (code, error))) {
            for count in 0..=255u8 {
                for n in 0..=70usize {
                    let mut b = self.rng.bytes(n);
                    for (at, v) in [code, error, count].into_iter().enumerate().take(n) {
                        b[at] = v;
                    }
                    self.both(&b);
                }
            }
        }
    }

    /// D.6 about its ends, read and written.
    fn transfers(&mut self) {
        for n in (0..=20).chain(16_380..=16_390).chain([20_000, 70_000]) {
            let pool = self.rng.bytes(n);
            let mut b = vec![3u8];
            b.extend_from_slice(&pool);
            self.both(&b);
            for room in [0, 1, 7, 8, n.saturating_sub(1), n, n + 1, n + 2, 16_384, 16_385, 16_386] {
                let ((number, length), out) = self.transfer(&pool, room);
                if number == 0 {
                    let r = self.read(0, &out[..length]);
                    if r.0 != 0 || r.1.kind != 9 || out[1..length] != pool[..] {
                        differ("a transfer read back", hex(&pool), format!("{r:?}"), String::new());
                    }
                }
            }
        }
    }

    /// Legal messages, written and read back; any room.
    fn round_trips(&mut self) {
        for round in 0..400 {
            for clause in CLAUSES.iter().filter(|c| c.kind != 9) {
                let m = self.legal(clause.kind);
                let room = self.rng.below(81) as usize;
                self.write(&m, room);
                let (w, out) = self.write(&m, 80);
                if w.0 != 0 {
                    differ("a legal message written", format!("{m:?}"), format!("{w:?}"), format!("round {round}"));
                }
                let r = self.read(clause.side, &out[..w.1]);
                if r != (0, flat(&m)) {
                    differ("a message written and read back", format!("{:?}", flat(&m)), format!("{r:?}"), format!("{m:?}"));
                }
            }
        }
    }

    /// Every room from 0 to 20; every value of each field; labels of any length.
    fn every_value(&mut self) {
        for clause in CLAUSES {
            for room in 0..=20 {
                let m = self.legal(clause.kind);
                self.write(&m, room);
            }
            for field in clause.fields.iter().filter(|f| f.name != "label") {
                for v in 0..=255u64 {
                    let mut m = self.legal(clause.kind);
                    let wide = matches!(field.at, model::At::Bytes(_, w) if w > 1);
                    m.fields.insert(field.name, if wide { v * 257 } else { v });
                    let room = if v % 4 == 0 { self.rng.below(12) as usize } else { 300 };
                    self.write(&m, room);
                }
            }
            for n in 0..=255usize {
                for room in [0, 2 + n, 3 + n, 8, 300] {
                    let mut m = self.legal(clause.kind);
                    m.label_length = n;
                    m.label = self.rng.bytes(n.min(63));
                    self.write(&m, room);
                }
            }
        }
    }

    /// Kinds of no message.
    fn no_messages(&mut self) {
        for kind in (26..=255).chain([0]) {
            for room in 0..=20 {
                let mut m = Message::none();
                m.kind = kind;
                self.write(&m, room);
            }
        }
    }

    /// Fields that a message lacks, and cells past a label, are not looked at.
    fn other_fields(&mut self) {
        for clause in CLAUSES.iter().filter(|c| c.kind != 9) {
            for _ in 0..200 {
                let m = self.legal(clause.kind);
                let mut f = flat(&m);
                for name in FIELDS.iter().filter(|name| !m.fields.contains_key(*name)) {
                    let v = self.rng.next();
                    set(&mut f, name, v);
                }
                if clause.length != Length::Label {
                    f.label.length = self.rng.next() as u8;
                }
                for i in m.label_length..63 {
                    f.label.bytes[i] = self.rng.next() as u8;
                }
                self.write_flat("write with other fields", &f, &m, 80);
            }
        }
    }
}

const FIELDS: [&str; 18] = [
    "code", "reason", "object", "memory", "version", "width", "height", "characters", "colour", "size", "font", "style", "function", "state",
    "status", "error", "tan", "value",
];

pub fn run(arguments: &[&str]) {
    let (count, _) = crate::count_and_seed(arguments, 12, 0);
    let mut run = Run { cases: 0, rng: Rng(0x5C4D_0011_7830_0014) };
    run.cases_of_01();
    run.every_code();
    run.every_byte(count as usize);
    run.every_label();
    run.transfers();
    run.round_trips();
    run.every_value();
    run.no_messages();
    run.other_fields();
    println!("message: {} cases, 0 differences", run.cases);
}
