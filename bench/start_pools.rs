//! Full pools for what a driver waits for at start-up: of each shape good ones, and for each fault but 02 one or more whose cause
//! is the last object. All have 16,384 bytes.

use crate::generate::{Pool, Random, FULL};
use crate::pools::shaped;

const SEED: u64 = 16_384;
/// A good pool in an order by chance.
pub const GOOD: &str = "good";

/// Which stage finds the fault.
#[derive(Clone, Copy, PartialEq)]
pub enum Group {
    Good,
    StageOne,
    StageTwo,
}

pub struct Case {
    pub shape: &'static str,
    pub fault: &'static str,
    pub group: Group,
    pub code: u8,
    pub pool: Vec<u8>,
}

/// A name, pools to be filled up, and the numbers that their objects then get.
struct Shape {
    name: &'static str,
    pool: fn() -> Pool,
    numbers: Option<Vec<u16>>,
}

pub fn cases() -> Vec<Case> {
    shapes().iter().flat_map(|shape| good(shape).into_iter().chain(stage_one(shape)).chain(stage_two(shape))).collect()
}

fn shapes() -> Vec<Shape> {
    let shape = |name, pool| Shape { name, pool, numbers: None };
    let alike = |name, pool, modulus| Shape { name, pool, numbers: Some(alike(modulus)) };
    vec![
        shape("many states", many_states),
        shape("many functions", many_functions),
        shape("long lists", long_lists),
        shape("long lists of other states", other_states),
        alike("long lists, alike modulo 1,024", long_lists, 1_024),
        alike("long lists, alike modulo 4,096", long_lists, 4_096),
        alike("long lists, alike modulo 16,384", long_lists, 16_384),
        alike("long lists, numbers in a row", long_lists, 1),
        alike("other states, alike modulo 1,024", other_states, 1_024),
        alike("many states, alike modulo 256", many_states, 256),
        alike("many states, alike modulo 1,024", many_states, 1_024),
        alike("many states, alike modulo 16,384", many_states, 16_384),
        alike("many states, numbers in a row", many_states, 1),
        alike("many functions, alike modulo 1,024", many_functions, 1_024),
    ]
}

/// Every number that a function or a state may have: at first those that leave 1 when divided, then those that leave 2, and so on.
fn alike(modulus: usize) -> Vec<u16> {
    let all = (0..modulus).flat_map(|rest| ((rest + 1) % modulus..65_535).step_by(modulus));
    all.filter(|&number| number > 0).map(|number| number as u16).collect()
}

// Shapes. The base lists two functions or more. The function that it lists last lists two states or more, and that which it lists
// last no other function lists.

fn many_states() -> Pool {
    let mut pool = shaped(2, 0, 0);
    list_own_states(&mut pool, 1, &[62]);
    pool
}

/// 255 functions listed, 240 not, and states.
fn many_functions() -> Pool {
    let mut pool = shaped(255, 0, 0);
    let random = &mut Random::new(SEED);
    (0..240).for_each(|_| pool.add_unlisted_function(random, 0));
    list_own_states(&mut pool, 254, &[62]);
    pool
}

/// 98 functions, each of which lists the same 64 states, but for the last of them.
fn long_lists() -> Pool {
    let mut pool = shaped(98, 64, 64);
    pool.functions[97].states.pop();
    list_own_states(&mut pool, 97, &[]);
    pool
}

/// 60 functions, each of which lists 64 of 800 states.
fn other_states() -> Pool {
    let mut pool = shaped(60, 64, 800);
    pool.functions[59].states.pop();
    list_own_states(&mut pool, 59, &[]);
    pool
}

/// States with these IDs, and one with the ID that is left over.
fn list_own_states(pool: &mut Pool, function: usize, ids: &[u8]) {
    let random = &mut Random::new(SEED);
    let listed = pool.functions[function].states.clone();
    let has = |id: u8| pool.states.iter().any(|state| state.state_id == id && listed.contains(&state.number));
    let left = (0..64).rev().find(|&id| !has(id)).unwrap_or(0);
    for &id in ids.iter().chain(&[left]) {
        let number = pool.add_state(random, id);
        pool.functions[function].states.push(number);
    }
}

impl Shape {
    /// Filled up to so many bytes.
    fn filled(&self, size: usize) -> Pool {
        self.edited(size, |_| ())
    }

    /// Edited, and then filled up.
    fn edited(&self, size: usize, edit: fn(&mut Pool)) -> Pool {
        let mut pool = (self.pool)();
        edit(&mut pool);
        pool.pad(&mut Random::new(SEED), size, 0);
        if let Some(numbers) = &self.numbers {
            renumber(&mut pool, numbers);
        }
        pool
    }

    fn case(&self, fault: &'static str, group: Group, code: u8, pool: Vec<u8>) -> Case {
        assert_eq!(pool.len(), FULL, "{}: {fault}", self.name);
        Case { shape: self.name, fault, group, code, pool }
    }
}

/// Gives the states these numbers, and the functions those that are left, in all lists too.
fn renumber(pool: &mut Pool, numbers: &[u16]) {
    let mut new = vec![0; 65_536];
    let states = pool.states.iter_mut().map(|state| &mut state.number);
    let objects = states.chain(pool.functions.iter_mut().map(|function| &mut function.number));
    for (number, &other) in objects.zip(numbers) {
        new[usize::from(*number)] = other;
        *number = other;
    }
    let lists = pool.functions.iter_mut().flat_map(|function| &mut function.states);
    lists.chain(&mut pool.bases[0].functions).for_each(|number| *number = new[usize::from(*number)]);
}

// Which object stands last.

fn base_last(_: &Pool) -> usize {
    0
}

/// The state that is listed last, by the function that is listed last.
fn state_last(pool: &Pool) -> usize {
    let number = function(pool).states.last();
    1 + pool.states.iter().position(|state| Some(&state.number) == number).unwrap()
}

/// The function that is listed last.
fn function_last(pool: &Pool) -> usize {
    1 + pool.states.len() + function_place(pool)
}

fn function_place(pool: &Pool) -> usize {
    let number = pool.bases[0].functions.last();
    pool.functions.iter().position(|function| Some(&function.number) == number).unwrap()
}

fn function(pool: &Pool) -> &crate::generate::Function {
    &pool.functions[function_place(pool)]
}

/// The base, the states and the functions.
fn by_type(pool: &Pool) -> Vec<Vec<u8>> {
    let mut pool = pool.clone();
    pool.order = None;
    pool.objects()
}

/// The objects in an order by chance, but for the last.
fn ending(pool: &Pool, last: fn(&Pool) -> usize) -> Vec<Vec<u8>> {
    let mut objects = by_type(pool);
    let last = objects.remove(last(pool));
    Random::new(SEED).shuffle(&mut objects);
    objects.push(last);
    objects
}

/// Such a pool whose last object is altered.
fn altered(pool: &Pool, last: fn(&Pool) -> usize, alter: fn(&mut Vec<u8>)) -> Vec<u8> {
    let mut objects = ending(pool, last);
    objects.last_mut().into_iter().for_each(alter);
    objects.concat()
}

fn good(shape: &Shape) -> Vec<Case> {
    let pool = shape.filled(FULL);
    let case = |name, pool| shape.case(name, Group::Good, 0x00, pool);
    vec![
        case(GOOD, pool.bytes()),
        case("good, by type", by_type(&pool).concat()),
        case("good, the base last", ending(&pool, base_last).concat()),
    ]
}

/// Faults that stage one finds in the last object. A place is that of the field in tables A.1 to A.3, less one.
fn stage_one(shape: &Shape) -> Vec<Case> {
    let full = shape.filled(FULL);
    let case = |fault, code, pool| shape.case(fault, Group::StageOne, code, pool);
    let of = |fault, code, last, alter| case(fault, code, altered(&full, last, alter));
    let cut = |fault, less: usize, last| {
        let mut pool = ending(&shape.filled(FULL + less), last).concat();
        pool.truncate(FULL);
        case(fault, 0xFF, pool)
    };
    let mut more = ending(&shape.filled(FULL - 2), state_last).concat();
    more.extend([1, 0]);
    vec![
        of("01, state of type 3", 0x01, state_last, |state| state[2] = 3),
        of("01, function of type 3", 0x01, function_last, |function| function[2] = 3),
        of("FF, state ID 64", 0xFF, state_last, |state| state[3] = 64),
        of("FF, picture of a state FFFF", 0xFF, state_last, |state| state[6..8].fill(0xFF)),
        of("FF, picture of a function FFFF", 0xFF, function_last, |function| function[27..29].fill(0xFF)),
        of("FF, attribute 3", 0xFF, function_last, |function| function[5] = 3),
        of("FF, picture of the base FFFF", 0xFF, base_last, |base| base[22..24].fill(0xFF)),
        cut("FF, fixed part of a state cut", 1, state_last),
        cut("FF, list of a function cut", 2, function_last),
        cut("FF, list of the base cut", 2, base_last),
        case("FF, fewer than 3 bytes left", 0xFF, more),
        of("09, N = 0", 0x09, base_last, |base| base[24] = 0),
        of("09, N = 64", 0x09, base_last, |base| base[24] = 64),
        of("0B, M = 0", 0x0B, base_last, |base| base[25] = 0),
    ]
}

/// Faults that stage two finds. The last object is to blame, but for 02, for which none is.
fn stage_two(shape: &Shape) -> Vec<Case> {
    let full = shape.filled(FULL);
    let case = |fault, code, pool| shape.case(fault, Group::StageTwo, code, pool);
    let of = |fault, code, last, alter| case(fault, code, altered(&full, last, alter));
    let baseless = shape.edited(FULL, |pool| pool.baseless = true).bytes();
    let absent = |fault, code, last| case(fault, code, with_number(&full, last, |pool, _| fresh(pool)));
    let repeated = |fault, number| case(fault, 0x05, with_number(&full, state_last, number));
    vec![
        case("02, no base", 0x02, baseless),
        repeated("05, number of the first object", |_, before| numbered(before.iter())),
        repeated("05, number of the object before", |_, before| numbered(before.iter().rev())),
        of("0C, version 1", 0x0C, base_last, |base| base[3] = 1),
        of("0A, ? in the version label", 0x0A, base_last, |base| base[27] = b'?'),
        absent("03, last listed function absent", 0x03, function_last),
        case("06, ID of the first function", 0x06, same_function(&full)),
        absent("04, last listed state absent", 0x04, state_last),
        case("07, ID of its function's first state", 0x07, same_state(&full)),
    ]
}

/// The last object with another number, by what stands before it.
fn with_number(pool: &Pool, last: fn(&Pool) -> usize, number: fn(&Pool, &[Vec<u8>]) -> [u8; 2]) -> Vec<u8> {
    let mut objects = ending(pool, last);
    let count = objects.len() - 1;
    let number = number(pool, &objects[..count]);
    objects[count][..2].copy_from_slice(&number);
    objects.concat()
}

/// The number of the first of these that is no base.
fn numbered<'o>(mut objects: impl Iterator<Item = &'o Vec<u8>>) -> [u8; 2] {
    let object = objects.find(|object| object[2] != 0).unwrap();
    [object[0], object[1]]
}

/// A number that no object has.
fn fresh(pool: &Pool) -> [u8; 2] {
    let states = pool.states.iter().map(|state| state.number);
    let used: Vec<u16> = states.chain(pool.functions.iter().map(|function| function.number)).collect();
    (1..65_535).rev().find(|number: &u16| !used.contains(number)).unwrap().to_le_bytes()
}

fn same_function(pool: &Pool) -> Vec<u8> {
    let mut pool = pool.clone();
    let first = pool.bases[0].functions[0];
    let id = pool.functions.iter().find(|function| function.number == first).unwrap().function_id;
    let place = function_place(&pool);
    pool.functions[place].function_id = id;
    ending(&pool, function_last).concat()
}

fn same_state(pool: &Pool) -> Vec<u8> {
    let mut pool = pool.clone();
    let first = function(&pool).states[0];
    let id = pool.states.iter().find(|state| state.number == first).unwrap().state_id;
    let place = state_last(&pool) - 1;
    pool.states[place].state_id = id;
    ending(&pool, state_last).concat()
}
