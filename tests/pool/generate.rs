//! Legal pools by chance, from a number: the same number gives the same pools. Objects are written field by field, in
//! the order and with the sizes of tables A.1 to A.3 of ISO 11783-14. Names of fields are those of document 01.

use std::collections::BTreeSet;

/// "At most 16,384 bytes".
pub const FULL: usize = 16_384;

/// The characters of 20–7E that A.3 forbids in a version label.
const FORBIDDEN: &[u8; 11] = b"\\\"'`/:*<>|?";

/// Numbers by chance (splitmix64).
pub struct Random(u64);

impl Random {
    pub fn new(seed: u64) -> Random {
        Random(seed)
    }

    pub fn number(&mut self) -> u64 {
        self.0 = self.0.wrapping_add(0x9E37_79B9_7F4A_7C15);
        let mut mixed = self.0;
        mixed = (mixed ^ (mixed >> 30)).wrapping_mul(0xBF58_476D_1CE4_E5B9);
        mixed = (mixed ^ (mixed >> 27)).wrapping_mul(0x94D0_49BB_1331_11EB);
        mixed ^ (mixed >> 31)
    }

    pub fn below(&mut self, bound: usize) -> usize {
        (self.number() % bound as u64) as usize
    }

    pub fn once_in(&mut self, times: usize) -> bool {
        self.below(times) == 0
    }

    /// A number from low to high, half of the time at or next to one of the ends.
    pub fn between(&mut self, low: u32, high: u32) -> u32 {
        let width = u64::from(high - low);
        let step = match self.below(8) {
            0 => 0,
            1 => width,
            2 => width.min(1),
            3 => width.saturating_sub(1),
            _ => self.number() % (width + 1),
        };
        low + step as u32
    }

    /// The number of a text or picture object: anything but FFFF.
    pub fn reference(&mut self) -> u16 {
        match self.below(6) {
            0 => 0xFF00,
            1 => 0x00FF,
            _ => self.between(0, 0xFFFE) as u16,
        }
    }

    pub fn pick<T: Copy>(&mut self, values: &[T]) -> T {
        values[self.below(values.len())]
    }

    pub fn shuffle<T>(&mut self, values: &mut [T]) {
        for last in (1..values.len()).rev() {
            values.swap(last, self.below(last + 1));
        }
    }
}

/// N, M and O, and S of a function, are written as the labels and lists have them, unless they are set here.
#[derive(Clone)]
pub struct Base {
    pub number: u16,
    pub kind: u8,
    pub version: u8,
    pub master_name: u64,
    pub mask: u64,
    pub name: u16,
    pub picture: u16,
    pub n: Option<u8>,
    pub m: Option<u8>,
    pub o: Option<u8>,
    pub version_label: Vec<u8>,
    pub configuration_label: Vec<u8>,
    pub functions: Vec<u16>,
}

#[derive(Clone)]
pub struct Function {
    pub number: u16,
    pub kind: u8,
    pub function_id: u8,
    pub preferred_trigger: u8,
    pub attribute: u8,
    pub minimum: u32,
    pub maximum: u32,
    pub offset: u32,
    pub scale: u32,
    pub decimals: u8,
    pub unit: u16,
    pub name: u16,
    pub picture: u16,
    pub s: Option<u8>,
    pub states: Vec<u16>,
}

#[derive(Clone)]
pub struct State {
    pub number: u16,
    pub kind: u8,
    pub state_id: u8,
    pub name: u16,
    pub picture: u16,
}

fn listed(numbers: &[u16]) -> Vec<u8> {
    numbers.iter().flat_map(|number| number.to_le_bytes()).collect()
}

impl Base {
    /// A base that lists nothing yet.
    pub fn legal(random: &mut Random) -> Base {
        let version_label = random.between(1, 63);
        let configuration_label = random.between(1, 63);
        Base {
            number: 0,
            kind: 0,
            version: 2,
            master_name: random.number(),
            mask: random.number(),
            name: random.reference(),
            picture: random.reference(),
            n: None,
            m: None,
            o: None,
            version_label: (0..version_label).map(|_| label_character(random)).collect(),
            configuration_label: (0..configuration_label).map(|_| random.number() as u8).collect(),
            functions: Vec::new(),
        }
    }

    fn bytes(&self) -> Vec<u8> {
        let mut bytes = self.number.to_le_bytes().to_vec();
        bytes.extend([self.kind, self.version]);
        bytes.extend(self.master_name.to_le_bytes());
        bytes.extend(self.mask.to_le_bytes());
        bytes.extend(self.name.to_le_bytes());
        bytes.extend(self.picture.to_le_bytes());
        bytes.push(self.n.unwrap_or(self.version_label.len() as u8));
        bytes.push(self.m.unwrap_or(self.configuration_label.len() as u8));
        bytes.push(self.o.unwrap_or(self.functions.len() as u8));
        bytes.extend(&self.version_label);
        bytes.extend(&self.configuration_label);
        bytes.extend(listed(&self.functions));
        bytes
    }
}

impl Function {
    pub fn legal(random: &mut Random, number: u16, function_id: u8, states: Vec<u16>) -> Function {
        let mut function = Function {
            number,
            kind: 1,
            function_id,
            preferred_trigger: random.pick(&[1, 2, 255]),
            attribute: 0,
            minimum: u32::MAX,
            maximum: u32::MAX,
            offset: u32::MAX,
            scale: u32::MAX,
            decimals: u8::MAX,
            unit: u16::MAX,
            name: random.reference(),
            picture: random.reference(),
            s: None,
            states,
        };
        let style = random.below(3) as u8;
        function.set_style(random, style);
        function
    }

    /// Fields that the style allows.
    pub fn set_style(&mut self, random: &mut Random, style: u8) {
        self.attribute = style;
        self.minimum = u32::MAX;
        self.maximum = u32::MAX;
        if style == 2 {
            self.maximum = random.between(0, u32::MAX);
            self.minimum = random.between(0, self.maximum);
        }
        if style == 0 {
            (self.offset, self.scale, self.decimals, self.unit) = (u32::MAX, u32::MAX, u8::MAX, u16::MAX);
        } else {
            self.offset = random.between(0, u32::MAX);
            self.scale = legal_scale(random);
            self.decimals = random.between(0, 7) as u8;
            self.unit = random.reference();
        }
    }

    fn bytes(&self) -> Vec<u8> {
        let mut bytes = self.number.to_le_bytes().to_vec();
        bytes.extend([self.kind, self.function_id, self.preferred_trigger, self.attribute]);
        bytes.extend(self.minimum.to_le_bytes());
        bytes.extend(self.maximum.to_le_bytes());
        bytes.extend(self.offset.to_le_bytes());
        bytes.extend(self.scale.to_le_bytes());
        bytes.push(self.decimals);
        bytes.extend(self.unit.to_le_bytes());
        bytes.extend(self.name.to_le_bytes());
        bytes.extend(self.picture.to_le_bytes());
        bytes.push(self.s.unwrap_or(self.states.len() as u8));
        bytes.extend(listed(&self.states));
        bytes
    }
}

impl State {
    pub fn legal(random: &mut Random, number: u16, state_id: u8) -> State {
        State { number, kind: 2, state_id, name: random.reference(), picture: random.reference() }
    }

    fn bytes(&self) -> Vec<u8> {
        let mut bytes = self.number.to_le_bytes().to_vec();
        bytes.extend([self.kind, self.state_id]);
        bytes.extend(self.name.to_le_bytes());
        bytes.extend(self.picture.to_le_bytes());
        bytes
    }
}

/// Whether a version label may hold this character.
pub fn label_allows(character: u8) -> bool {
    match character {
        0x00..=0x1F | 0x7F..=0x9F => false,
        _ => !FORBIDDEN.contains(&character),
    }
}

fn label_character(random: &mut Random) -> u8 {
    loop {
        let character = random.number() as u8;
        if label_allows(character) {
            return character;
        }
    }
}

/// The bits of a scale that is finite and above zero: subnormal, at an end of the range, or a common number.
fn legal_scale(random: &mut Random) -> u32 {
    match random.below(4) {
        0 => random.pick(&[1.0f32, 0.1, 0.001, 1000.0]).to_bits(),
        1 => random.pick(&[0x0000_0001, 0x007F_FFFF, 0x0080_0000, 0x7F7F_FFFF]),
        _ => random.between(0x0000_0001, 0x7F7F_FFFF),
    }
}

/// How big a pool is: functions listed, states to choose from, the least and most states of a function, and about how
/// many objects nobody lists.
#[derive(Clone, Copy)]
pub struct Shape {
    pub functions: usize,
    pub states: usize,
    pub shortest: usize,
    pub longest: usize,
    pub unlisted: usize,
}

/// A pool as its objects. Written, they stand in an order by chance that `order` decides, or where it is `None`:
/// bases, states, functions.
#[derive(Clone)]
pub struct Pool {
    pub bases: Vec<Base>,
    pub states: Vec<State>,
    pub functions: Vec<Function>,
    pub order: Option<u64>,
    /// Without its first base.
    pub baseless: bool,
    /// What stands after the last object.
    pub tail: Vec<u8>,
    /// The last object is cut: 0 takes its last byte, any other number takes more by chance.
    pub cut: Option<usize>,
    used: BTreeSet<u16>,
    newest: u16,
}

impl Pool {
    /// A legal pool of at most `limit` bytes.
    pub fn legal(random: &mut Random, shape: Shape, limit: usize) -> Pool {
        let mut pool = Pool {
            bases: vec![Base::legal(random)],
            states: Vec::new(),
            functions: Vec::new(),
            order: Some(random.number()),
            baseless: false,
            tail: Vec::new(),
            cut: None,
            used: BTreeSet::new(),
            newest: 1,
        };
        let every_id = random.once_in(2) || shape.shortest == 64;
        for place in 0..shape.states {
            let id = if every_id { place as u32 % 64 } else { random.between(0, 63) };
            pool.add_state(random, id as u8);
        }
        pool.add_listed_functions(random, shape, limit);
        for _ in 0..shape.unlisted {
            if pool.length() + 158 <= limit {
                pool.add_unlisted(random);
            }
        }
        pool
    }

    /// 61 bytes: N = M = O = 1 and S = 0.
    pub fn least(random: &mut Random) -> Pool {
        let shape = Shape { functions: 1, states: 0, shortest: 0, longest: 0, unlisted: 0 };
        let mut pool = Pool::legal(random, shape, FULL);
        pool.base().version_label.truncate(1);
        pool.base().configuration_label.truncate(1);
        pool
    }

    pub fn base(&mut self) -> &mut Base {
        &mut self.bases[0]
    }

    /// A number from 1 to 65534 that no object has: at an end, or one bit away from the newest, or any.
    pub fn fresh(&mut self, random: &mut Random) -> u16 {
        loop {
            let number = match random.below(4) {
                0 => random.pick(&[1, 2, 0x00FF, 0x0100, 0x0101, 0xFEFF, 0xFF00, 0xFFFD, 0xFFFE]),
                1 => self.newest ^ 1 << random.below(16),
                _ => random.between(1, 0xFFFE) as u16,
            };
            if number != 0 && number != 0xFFFF && self.used.insert(number) {
                self.newest = number;
                return number;
            }
        }
    }

    pub fn add_state(&mut self, random: &mut Random, state_id: u8) -> u16 {
        let number = self.fresh(random);
        self.states.push(State::legal(random, number, state_id));
        number
    }

    pub fn add_function(&mut self, random: &mut Random, function_id: u8, states: Vec<u16>) -> u16 {
        let number = self.fresh(random);
        self.functions.push(Function::legal(random, number, function_id, states));
        number
    }

    fn add_listed_functions(&mut self, random: &mut Random, shape: Shape, limit: usize) {
        let mut ids: Vec<u8> = (0..=255).collect();
        random.shuffle(&mut ids);
        let mut room = limit - self.length() - 32 * shape.functions;
        for &id in &ids[..shape.functions] {
            let wanted = random.between(shape.shortest as u32, shape.longest as u32) as usize;
            let states = self.choose_states(random, wanted.min(room / 2));
            room -= 2 * states.len();
            let number = self.add_function(random, id, states);
            self.base().functions.push(number);
        }
        random.shuffle(&mut self.base().functions);
    }

    /// At most `wanted` states, no two of one state ID.
    fn choose_states(&self, random: &mut Random, wanted: usize) -> Vec<u16> {
        let mut states: Vec<&State> = self.states.iter().collect();
        random.shuffle(&mut states);
        let mut ids = Vec::new();
        let mut chosen = Vec::new();
        for state in states {
            if chosen.len() < wanted && !ids.contains(&state.state_id) {
                ids.push(state.state_id);
                chosen.push(state.number);
            }
        }
        chosen
    }

    fn add_unlisted(&mut self, random: &mut Random) {
        if random.once_in(2) {
            let id = random.between(0, 63) as u8;
            self.add_state(random, id);
        } else {
            let states = random.between(0, 64) as usize;
            self.add_unlisted_function(random, states);
        }
    }

    /// Its function ID may be that of a listed one; its states may be absent, of a wrong type, or listed twice.
    pub fn add_unlisted_function(&mut self, random: &mut Random, states: usize) {
        let id = match random.below(2) {
            0 if !self.functions.is_empty() => self.functions[0].function_id,
            _ => random.number() as u8,
        };
        let mut list = Vec::new();
        for _ in 0..states {
            let any = random.number() as u16;
            list.push(random.pick(&[0, 0xFFFF, self.newest, any]));
        }
        self.add_function(random, id, list);
    }

    /// Objects that nobody lists, so that the pool has exactly `size` bytes where objects of 8, 30, 32, .. can do that.
    /// One in `functions_in` is a function; where that is 0, none but the first may be.
    pub fn pad(&mut self, random: &mut Random, size: usize, functions_in: usize) {
        self.make_even(random, size);
        let mut room = size.saturating_sub(self.length());
        if room % 8 != 0 && room >= 36 {
            let states = (room - 30) / 2 % 4;
            self.add_unlisted_function(random, states);
            room -= 30 + 2 * states;
        }
        while room >= 8 {
            let states = 1 + 4 * random.below(16);
            if functions_in > 0 && room >= 30 + 2 * states && random.once_in(functions_in) {
                self.add_unlisted_function(random, states);
                room -= 30 + 2 * states;
            } else {
                let id = random.between(0, 63) as u8;
                self.add_state(random, id);
                room -= 8;
            }
        }
    }

    /// All lengths but the labels' are even; one byte of the configuration label makes up for theirs.
    fn make_even(&mut self, random: &mut Random, size: usize) {
        if self.length() % 2 == size % 2 {
            return;
        }
        let label = &mut self.base().configuration_label;
        match label.len() {
            1..=62 => label.push(random.number() as u8),
            63 => label.truncate(62),
            _ => {}
        }
    }

    /// Each object's bytes, in the order they are written.
    pub fn objects(&self) -> Vec<Vec<u8>> {
        let bases = self.bases.iter().skip(usize::from(self.baseless));
        let mut objects: Vec<Vec<u8>> = bases.map(Base::bytes).collect();
        objects.extend(self.states.iter().map(State::bytes));
        objects.extend(self.functions.iter().map(Function::bytes));
        if let Some(order) = self.order {
            Random::new(order).shuffle(&mut objects);
        }
        objects
    }

    pub fn bytes(&self) -> Vec<u8> {
        let objects = self.objects();
        let mut bytes = objects.concat();
        if let (Some(cut), Some(last)) = (self.cut, objects.last()) {
            bytes.truncate(bytes.len() - 1 - cut % (last.len() - 1));
        }
        bytes.extend(&self.tail);
        bytes
    }

    fn length(&self) -> usize {
        self.objects().iter().map(Vec::len).sum()
    }
}
