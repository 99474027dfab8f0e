//! Legal pools of any shape, up to full ones of 16,384 bytes.

use crate::generate::{Pool, Random, FULL};

const SEED: u64 = 11_783;

/// So many functions, each of which lists so many of so many states: 29 + functions · (32 + 2 · listed) + 8 · states bytes.
pub fn shaped(functions: usize, listed: usize, states: usize) -> Pool {
    let random = &mut Random::new(SEED);
    let mut pool = Pool::least(random);
    let numbers: Vec<u16> = (0..states).map(|place| pool.add_state(random, (place % 64) as u8)).collect();
    let lists = |place: usize| {
        let first = place * listed % (states - listed + 1);
        numbers[first..first + listed].to_vec()
    };
    let id = pool.functions[0].function_id;
    pool.functions[0].states = lists(0);
    for place in 1..functions {
        let number = pool.add_function(random, id.wrapping_add(place as u8), lists(place));
        pool.base().functions.push(number);
    }
    pool
}

/// 61 bytes.
pub fn small() -> Vec<u8> {
    shaped(1, 0, 0).bytes()
}

/// 40 functions of eight states, and the longest labels.
pub fn middle() -> Vec<u8> {
    let mut pool = shaped(40, 8, 8);
    pool.base().version_label = vec![b'V'; 63];
    pool.base().configuration_label = vec![b'C'; 63];
    pool.bytes()
}

fn full(mut pool: Pool) -> Vec<u8> {
    pool.pad(&mut Random::new(SEED + 1), FULL, 0);
    let bytes = pool.bytes();
    assert_eq!(bytes.len(), FULL);
    bytes
}

pub fn many_states() -> Vec<u8> {
    full(shaped(1, 0, 0))
}

/// 255 functions listed, 240 not, and states.
pub fn many_functions() -> Vec<u8> {
    let mut pool = shaped(255, 0, 0);
    let random = &mut Random::new(SEED + 2);
    (0..240).for_each(|_| pool.add_unlisted_function(random, 0));
    full(pool)
}

/// 98 functions, each of which lists the same 64 states.
pub fn long_lists() -> Vec<u8> {
    full(shaped(98, 64, 64))
}

/// 99 such functions, 16,381 bytes, where the states' numbers agree in their ten lowest bits: of these four at a time are in one
/// chain of the library's, which has to look through it.
pub fn alike_numbers() -> Vec<u8> {
    let mut pool = shaped(99, 64, 64);
    let numbers: Vec<u16> = (0..64).map(|place| 1024 * place + 512).collect();
    pool.states.iter_mut().zip(&numbers).for_each(|(state, &number)| state.number = number);
    pool.functions.iter_mut().zip(1..).for_each(|(function, number)| function.number = number);
    pool.functions.iter_mut().for_each(|function| function.states = numbers.clone());
    pool.base().functions = (1..=99).collect();
    pool.bytes()
}
