//! The writing of one object, held against the model: each field of each kind at its edges and beside them, every cell that must be 0, every length
//! of the lent bytes around the object's size, every place near their end, and places that no memory has. The bytes around what is written stay, and
//! what was written is read back as it was.

use super::{fail, model};
use crate::library::{self, Object};
use crate::pool::generate::Random;

/// Bytes before and behind the lent ones, which are not lent.
const AROUND: usize = 24;

type Set = fn(&mut Object, u64);
type Edges = &'static [u64];

/// Numbers of an object, of a text or a picture, and any.
const NUMBERS: Edges = &[0, 1, 2, 255, 256, 65_534, 65_535];
const REFERENCES: Edges = &[0, 0x00FF, 0xFF00, 0xFFFE, 0xFFFF];
const LENGTHS: Edges = &[0, 1, 2, 62, 63, 64, 65, 127, 128, 255];
const LIMITS: Edges = &[0, 1, 0x7FFF_FFFF, 0x8000_0000, 0xFFFF_FFFE, 0xFFFF_FFFF];
const ANY: Edges = &[0, 1, 0x0102_0304_0506_0708, 1 << 63, u64::MAX];
/// Zeros, subnormal, least, greatest, infinite, none, below zero.
const SCALES: Edges = &[
    0, 1, 0x007F_FFFF, 0x0080_0000, 0x3F80_0000, 0x7F7F_FFFF, 0x7F80_0000, 0x7F80_0001, 0x7FFF_FFFF, 0x8000_0000, 0x8000_0001, 0xBF80_0000,
    0xFF7F_FFFF, 0xFF80_0000, 0xFFFF_FFFF,
];
const SMALL: Edges = &[0, 1, 2, 3, 6, 7, 8, 9, 62, 63, 64, 65, 127, 128, 253, 254, 255];

/// The fields that a kind has, but for its labels' and its list's cells.
const BASE: &[(&str, Edges, Set)] = &[
    ("number", NUMBERS, |it, to| it.number = to as u16),
    ("version of the standard", SMALL, |it, to| it.standard = to as u8),
    ("master NAME", ANY, |it, to| it.master = to),
    ("mask", ANY, |it, to| it.mask = to),
    ("name", REFERENCES, |it, to| it.name = to as u16),
    ("picture", REFERENCES, |it, to| it.picture = to as u16),
    ("N", LENGTHS, |it, to| it.n = to as u8),
    ("M", LENGTHS, |it, to| it.m = to as u8),
    ("O", LENGTHS, |it, to| it.count = to as u8),
];
const FUNCTION: &[(&str, Edges, Set)] = &[
    ("number", NUMBERS, |it, to| it.number = to as u16),
    ("function ID", SMALL, |it, to| it.function = to as u8),
    ("preferred trigger", SMALL, |it, to| it.trigger = to as u8),
    ("attribute", SMALL, |it, to| it.attribute = to as u8),
    ("minimum", LIMITS, |it, to| it.minimum = to as u32),
    ("maximum", LIMITS, |it, to| it.maximum = to as u32),
    ("offset", LIMITS, |it, to| it.offset = to as u32),
    ("scale", SCALES, |it, to| it.scale = to as u32),
    ("decimals", SMALL, |it, to| it.decimals = to as u8),
    ("unit", REFERENCES, |it, to| it.unit = to as u16),
    ("name", REFERENCES, |it, to| it.name = to as u16),
    ("picture", REFERENCES, |it, to| it.picture = to as u16),
    ("S", LENGTHS, |it, to| it.count = to as u8),
];
const STATE: &[(&str, Edges, Set)] = &[
    ("number", NUMBERS, |it, to| it.number = to as u16),
    ("state ID", SMALL, |it, to| it.state = to as u8),
    ("name", REFERENCES, |it, to| it.name = to as u16),
    ("picture", REFERENCES, |it, to| it.picture = to as u16),
];
const KINDS: [&[(&str, Edges, Set)]; 3] = [BASE, FUNCTION, STATE];

fn fields(kind: u8) -> &'static [(&'static str, Edges, Set)] {
    KINDS.get(usize::from(kind)).copied().unwrap_or(&[])
}

pub struct Writing {
    random: Random,
    turn: usize,
    /// How often each number was given, by kind: a base, a function, a state, none.
    met: [[u64; 5]; 4],
}

impl Writing {
    pub fn new(seed: u64) -> Writing {
        Writing { random: Random::new(!seed), turn: 0, met: [[0; 5]; 4] }
    }

    /// All that does not go by chance.
    pub fn every_edge(&mut self) {
        for object in samples(&mut self.random) {
            self.every_room(&object);
            self.every_field(&object);
            self.every_cell(&object);
            for kind in 0..=255 {
                self.hold("kind", &Object { kind, ..object });
            }
        }
        self.far();
    }

    /// Every length from 0 on to more than enough, at places before, at and past its end, and at places that wrap around.
    fn every_room(&mut self, object: &Object) {
        let size = model::size(object);
        for place in [0, 1, 30, 255, 300] {
            for room in (0..3).chain((place + size).saturating_sub(4)..=place + size + 4).chain([place, place + 1]) {
                self.at("room", object, place, room);
            }
        }
        let room = size + 9;
        let near = (0..room + 3).chain([65_535, 65_536, usize::MAX / 2, usize::MAX]);
        let powers = (16..64).flat_map(|bit| [(1 << bit) - 1, 1 << bit, (1 << bit) + 3]);
        let around = (0..size + room + 4).map(|step| usize::MAX - step);
        for place in near.chain(powers).chain(around) {
            self.at("place", object, place, room);
        }
    }

    /// Each field at each of its edges, with the labels and the list as they were and as they should be then.
    fn every_field(&mut self, object: &Object) {
        for (name, edges, set) in fields(object.kind) {
            for &edge in *edges {
                let mut other = *object;
                set(&mut other, edge);
                self.hold(name, &other);
                fit(&mut other, &mut self.random);
                self.hold(name, &other);
            }
            for (second, other_edges, set_other) in fields(object.kind) {
                let mut other = *object;
                set(&mut other, self.random.pick(edges));
                set_other(&mut other, self.random.pick(other_edges));
                self.hold(&format!("{name} and {second}"), &other);
            }
        }
    }

    /// Each cell of both labels and of the list, used or not, with something in it.
    fn every_cell(&mut self, object: &Object) {
        for cell in 0..63 {
            let mut other = *object;
            other.version[cell] = self.random.pick(&[1, 0x80, 0xFF]);
            self.hold("cell of the version label", &other);
            let mut other = *object;
            other.configuration[cell] = self.random.pick(&[1, 0x80, 0xFF]);
            self.hold("cell of the configuration label", &other);
        }
        for cell in 0..255 {
            let mut other = *object;
            other.list[cell] = self.random.pick(&[1, 0x0100, 0x8000, 0xFFFF]);
            self.hold("cell of the list", &other);
        }
    }

    /// Lent bytes that are more than a pool may have, and places behind that.
    fn far(&mut self) {
        let room = 70_000;
        for object in samples(&mut self.random) {
            for place in [16_383, 16_384, 32_767, 65_535, 65_536, room - 8, room - model::size(&object), room - 7] {
                self.at("far", &object, place, room);
            }
        }
    }

    /// An object that was read, or the same with a field or a cell at an edge.
    pub fn by_chance(&mut self, object: &Object) {
        let random = &mut self.random;
        let mut object = *object;
        for _ in 0..random.below(3) {
            let (_, edges, set) = random.pick(fields(object.kind));
            set(&mut object, random.pick(edges));
        }
        match random.below(8) {
            0 => object.version[random.below(63)] ^= random.pick(&[0, 1, 0xFF]),
            1 => object.list[random.below(255)] ^= random.pick(&[0, 1, 0xFFFF]),
            2 => object.kind = random.pick(&[0, 1, 2, 3, 255]),
            3 | 4 => fit(&mut object, random),
            _ => {}
        }
        self.hold("by chance", &object);
    }

    /// At some place, with as many bytes lent as it needs, fewer or more.
    fn hold(&mut self, name: &str, object: &Object) {
        let random = &mut self.random;
        let place = random.pick(&[0, 0, 1, 8, 27, 256]);
        let enough = place + model::size(object);
        let short = random.below(enough + 1);
        let rooms = [enough, enough + 1 + random.below(40), enough.saturating_sub(1), short];
        self.turn += 1;
        self.at(name, object, place, rooms[self.turn % 4]);
        if self.turn % 4 > 1 {
            self.at(name, object, place, enough);
        }
    }

    /// By the wrapper and by value. Fields that its kind lacks hold anything, and are not looked at; nor are its place and next.
    fn at(&mut self, name: &str, object: &Object, place: usize, room: usize) {
        let seed = self.random.number();
        let before: Vec<u8> = (0..room + 2 * AROUND).map(|at| (seed >> (at % 57)) as u8 ^ at as u8).collect();
        let (mut wanted_out, mut out, mut by_value) = (before.clone(), before.clone(), before);
        let lent = AROUND..AROUND + room;
        let wanted = model::write(object, place, &mut wanted_out[lent.clone()]);
        let handed = others(object, || self.random.number());
        let given = library::object_write(&handed, place, &mut out[lent.clone()]);
        let placed = library::value::object_write(&handed, place, &mut by_value[lent.clone()]);
        let what = || format!("{name}, place {place}, {room} bytes lent, of {handed:?}");
        if given != wanted || (placed.number, placed.next) != wanted {
            fail(&format!("writing, {}: the library gives {given:?}, by value {placed:?}, the model {wanted:?}", what()));
        }
        if out != wanted_out || by_value != wanted_out {
            fail(&format!("writing, {}: the bytes are not what they must be", what()));
        }
        if wanted.0 == 0 {
            read_back(object, place, &out[lent], &what);
        }
        self.met[usize::from(object.kind.min(3))][usize::from(wanted.0)] += 1;
    }

    pub fn report(&self) {
        let [bases, functions, states, none] = self.met;
        let total = |number: usize| self.met.iter().map(|met| met[number]).sum::<u64>();
        let written = format!("{} bases, {} functions, {} states", bases[0], functions[0], states[0]);
        println!("written: {written}; {} had no room, {} were not legal", total(1), total(4));
        let all = [bases, functions, states].iter().flat_map(|met| [met[0], met[1], met[4]]).chain([none[1], none[4]]).all(|count| count > 50);
        if !all || none[0] != 0 {
            fail("the writing shows too little");
        }
    }
}

/// The same, with 0 in the fields that its kind lacks: at its place, where a pool may be so long, and as the object alone.
fn read_back(object: &Object, place: usize, lent: &[u8], what: &dyn Fn() -> String) {
    let next = place + model::size(object);
    let same = Object { place, next, ..others(object, || 0) };
    if lent.len() <= 16_384 && library::object_at(lent, place) != same {
        fail(&format!("writing, {}: read back it is another", what()));
    }
    let alone = Object { place: 0, next: next - place, ..same };
    if library::object_at(&lent[place..next], 0) != alone || model::object_at(&lent[place..next], 0) != alone {
        fail(&format!("writing, {}: read back alone it is another", what()));
    }
}

/// Of each kind, the least and the greatest and one between, in every style; all fields that the kind lacks are 0.
fn samples(random: &mut Random) -> Vec<Object> {
    let blank = model::refused(0);
    let name = |random: &mut Random| Object { name: random.reference(), picture: random.reference(), ..blank };
    let mut samples = Vec::new();
    for (n, m, count) in [(1, 1, 1), (63, 63, 255), (1, 63, 2), (40, 7, 20)] {
        let (master, mask, standard) = (random.number(), random.number(), random.below(3) as u8);
        samples.push(Object { kind: 0, standard, master, mask, n, m, count, ..name(random) });
    }
    for (style, count) in [(0, 0), (1, 1), (2, 64), (2, 0), (1, 30), (0, 64)] {
        let number = random.between(1, 65_534) as u16;
        let (function, trigger) = (random.number() as u8, random.pick(&[1, 2, 255]));
        let mut object = Object { kind: 1, number, function, trigger, attribute: style, count, ..name(random) };
        (object.minimum, object.maximum) = if style == 2 { (240, 240 + random.below(9) as u32) } else { (u32::MAX, u32::MAX) };
        let shown = (random.number() as u32, 0x3DCC_CCCD, random.below(8) as u8, random.reference());
        (object.offset, object.scale, object.decimals, object.unit) = if style == 0 { (u32::MAX, u32::MAX, 255, 0xFFFF) } else { shown };
        samples.push(object);
    }
    for state in [0, 63, 31] {
        let number = random.between(1, 65_534) as u16;
        samples.push(Object { kind: 2, number, state, ..name(random) });
    }
    samples.iter_mut().for_each(|object| fit(object, random));
    samples
}

/// Labels and list as long as the object says, as far as there are cells, and 0 in the cells behind.
fn fit(object: &mut Object, random: &mut Random) {
    let (n, m, count) = match object.kind {
        0 => (object.n, object.m, object.count),
        1 => (0, 0, object.count),
        _ => (0, 0, 0),
    };
    let fill = |cells: &mut [u8], used: u8, random: &mut Random| {
        for (place, cell) in cells.iter_mut().enumerate() {
            *cell = if place < usize::from(used) { random.number() as u8 } else { 0 };
        }
    };
    fill(&mut object.version, n, random);
    fill(&mut object.configuration, m, random);
    for (place, cell) in object.list.iter_mut().enumerate() {
        *cell = if place < usize::from(count) { random.number() as u16 } else { 0 };
    }
}

/// The same object with its place, its next and the fields that its kind lacks as they come.
fn others(object: &Object, mut next: impl FnMut() -> u64) -> Object {
    let mut other = Object { place: next() as usize, next: next() as usize, ..*object };
    let own = |name: &str| fields(object.kind).iter().any(|(field, _, _)| *field == name);
    for (name, _, set) in KINDS.iter().copied().flatten() {
        // O and S are one field, the list's count.
        if !own(name) && !(["O", "S"].contains(name) && object.kind < 2) {
            set(&mut other, next());
        }
    }
    other
}
