//! Lent memory that ends where all memory ends: whoever reads or writes a byte past it is stopped by the machine, on every machine. Every call that
//! is lent bytes gets them so, and from the other side too: they begin where memory begins. And a master that nobody may write, for the readers.

use crate::library::{self, Master, Message, Object, NO_MESSAGE};
use crate::master::event::Event;
use crate::pool::generate::{Pool, Random, Shape};
use crate::{bits, pool::faults};
use std::mem::size_of;
use std::os::raw::{c_int, c_void};

const COUNT: u64 = 300;
const SEED: u64 = 11_783;
/// Room for a pool of too many bytes.
const ROOM: usize = 32_768;
const PAGE: usize = 4_096;

extern "C" {
    fn mmap(at: *mut c_void, length: usize, protection: c_int, flags: c_int, file: c_int, offset: i64) -> *mut c_void;
    fn mprotect(at: *mut c_void, length: usize, protection: c_int) -> c_int;
}

/// Private memory of no file, and what may be done with it, as Linux numbers them.
const ANONYMOUS: c_int = 0x22;
const NOTHING: c_int = 0;
const READ: c_int = 1;
const READ_AND_WRITE: c_int = 3;

/// ROOM bytes between two pages that nobody may touch.
struct Fence {
    start: *mut u8,
}

impl Fence {
    fn new() -> Fence {
        // SAFETY: new memory is asked for, and the middle of it opened.
        unsafe {
            let whole = mmap(std::ptr::null_mut(), ROOM + 2 * PAGE, NOTHING, ANONYMOUS, -1, 0) as *mut u8;
            let fence = Fence { start: whole.wrapping_add(PAGE) };
            if whole as isize == -1 {
                crate::fail("fences", "no memory");
            }
            fence.open(READ_AND_WRITE);
            fence
        }
    }

    /// What may be done with the bytes between.
    fn open(&self, protection: c_int) {
        // SAFETY: the memory is this fence's own.
        if unsafe { mprotect(self.start as *mut c_void, ROOM, protection) } != 0 {
            crate::fail("fences", "memory cannot be protected");
        }
    }

    /// A copy of a master, which ends or begins at a fence and may be read alone until the memory is opened again.
    fn sealed(&mut self, m: &Master, upper: bool) -> &Master {
        let at = self.lend(size_of::<Master>(), upper).as_mut_ptr() as *mut Master;
        // SAFETY: there is room for it, at a multiple of 8, and a master is bytes.
        unsafe { at.write(*m) };
        self.open(READ);
        // SAFETY: it was written.
        unsafe { &*at }
    }

    /// So many bytes, which end at the upper fence, or begin at the lower one.
    fn lend(&mut self, length: usize, upper: bool) -> &mut [u8] {
        assert!(length <= ROOM);
        let at = if upper { ROOM - length } else { 0 };
        // SAFETY: they are within the open part, which is lent to one at a time.
        unsafe { std::slice::from_raw_parts_mut(self.start.add(at), length) }
    }

    fn copy(&mut self, bytes: &[u8], upper: bool) -> &mut [u8] {
        let lent = self.lend(bytes.len(), upper);
        lent.copy_from_slice(bytes);
        lent
    }
}

struct Run {
    input: Fence,
    output: Fence,
    random: Random,
    calls: u64,
}

/// COUNT rounds, from SEED.
pub fn run(arguments: &[&str]) {
    let (count, seed) = crate::count_and_seed(arguments, COUNT, SEED);
    let mut run = Run { input: Fence::new(), output: Fence::new(), random: Random::new(seed), calls: 0 };
    let mut masters = bits::Run::new(seed);
    for turn in 0..count {
        for upper in [true, false] {
            run.pool(upper);
            run.messages(turn as u8, upper);
            run.texts(upper);
            run.events(&mut masters, upper);
            run.readers(&masters.master(), upper);
        }
    }
    println!("fences: {} calls with lent bytes between fences, none touched", run.calls);
}

impl Run {
    /// A pool that is legal, or altered, cut or bytes by chance.
    fn any_pool(&mut self) -> Vec<u8> {
        let random = &mut self.random;
        let shape = Shape { functions: 1 + random.below(12), states: random.below(20), shortest: 0, longest: 12, unlisted: 2 };
        let mut bytes = Pool::legal(random, shape, 16_384).bytes();
        match random.below(4) {
            0 => {}
            1 => faults::alter(&mut bytes, random),
            2 => bytes.truncate(random.below(bytes.len())),
            _ => bytes = faults::noise(random),
        }
        bytes.truncate(ROOM);
        bytes
    }

    fn pool(&mut self, upper: bool) {
        let bytes = self.any_pool();
        let pool = &*self.input.copy(&bytes, upper);
        library::pool_check(pool);
        library::profile_of(pool);
        let (mut place, mut objects) = (0, Vec::new());
        loop {
            let object = library::object_at(pool, place);
            self.calls += 1;
            objects.push(object);
            if object.next == place {
                break;
            }
            place = object.next;
        }
        for room in [pool.len(), pool.len().saturating_sub(1), 0] {
            library::pool_rewrite(pool, self.output.lend(room, upper));
            library::transfer_write(pool, self.output.lend((room + 1).min(ROOM), upper));
        }
        self.calls += 8;
        objects.iter().for_each(|object| self.object(object, upper));
    }

    /// An object that was read, and the same with its lengths by chance, into as much room as it needs and less, at each end of it and past it.
    fn object(&mut self, object: &Object, upper: bool) {
        let mut other = Object { n: self.random.number() as u8, m: self.random.number() as u8, ..*object };
        other.count = self.random.number() as u8;
        let size = object.next - object.place;
        let before = self.random.below(64);
        for (it, place, room) in [
            (object, 0, size),
            (object, before, before + size),
            (object, before, (before + size).saturating_sub(1)),
            (object, usize::MAX - size / 2, size),
            (&other, before, before + size),
            (&other, 0, 1_100),
            (&other, usize::MAX, 0),
        ] {
            library::object_write(it, place, self.output.lend(room, upper));
            self.calls += 1;
        }
    }

    /// Every reader, and a store, on a master that is lent to be read.
    fn readers(&mut self, m: &Master, upper: bool) {
        let m = self.input.sealed(m, upper);
        library::store_of(m, self.output.lend(3_584, upper));
        library::state(m);
        library::step_count(m);
        library::sequence_edition(m);
        library::progress(m);
        library::verify(m);
        for i in [0, 7, 8, 63, 64, usize::MAX] {
            library::slot(m, i);
            library::client(m, i);
            library::step(m, i);
            library::taken(m, i);
            library::sent(m, i);
        }
        self.calls += 36;
        self.input.open(READ_AND_WRITE);
    }

    /// Bytes of one code and each length to 20, read; what was read, written again to as much room as it needs, and to less.
    fn messages(&mut self, code: u8, upper: bool) {
        for (side, length) in (0..2).flat_map(|side| (0..=20).map(move |length| (side, length))) {
            let mut bytes: Vec<u8> = (0..length).map(|_| self.random.number() as u8).collect();
            bytes.iter_mut().take(1).for_each(|byte| *byte = code);
            let (_, message) = library::message_read(side, self.input.copy(&bytes, upper));
            for room in [length, length / 2] {
                library::message_write(&message, self.output.lend(room, upper));
            }
            self.calls += 3;
        }
        for length in 0..=255 {
            let mut message = Message { kind: 6, ..NO_MESSAGE };
            message.label.length = length;
            library::message_write(&message, self.output.lend(usize::from(length) + 3, upper));
            self.calls += 1;
        }
    }

    /// A shown value as text, into each number of bytes up to more than the longest needs.
    fn texts(&mut self, upper: bool) {
        let (value, offset, decimals) = (self.random.number() as u32, self.random.number() as i32, self.random.below(9) as u32);
        let scale = f32::from_bits(self.random.number() as u32 >> 1);
        for room in 0..=60 {
            library::shown_text(value, offset, scale, decimals, self.output.lend(room, upper));
            library::value::shown_text(value, offset, scale, decimals, self.output.lend(room, upper));
            self.calls += 2;
        }
    }

    /// Every call that is lent bytes, on a master of any bits.
    fn events(&mut self, masters: &mut bits::Run, upper: bool) {
        let m = masters.master();
        for event in masters.events(&m) {
            let read = &*self.input.copy(event.handed(), upper);
            let out = self.output.lend(event.room(), upper);
            match event {
                Event::Attach { slot, name, .. } => library::attach(&m, slot, name, read),
                Event::Enable { slot, .. } => library::enable(&m, slot, out),
                Event::Disable { slot, .. } => library::disable(&m, slot, out),
                Event::Indication { slot, .. } => library::indication(&m, slot, read, out),
                Event::ClientAbort { slot, .. } => library::client_abort(&m, slot, read),
                Event::Tick { millimetres, .. } => library::tick(&m, millimetres, out),
                Event::Answer { slot, .. } => library::answer(&m, slot, read, out),
                Event::Store { .. } => library::store(&m, out),
                Event::Load { .. } => library::load(&m, read),
                _ => continue,
            };
            self.calls += 1;
        }
    }
}
