//! The plain program that checks every pair: a number or an ID was seen before where it equals one of those before it. The pairs
//! are asked for as one writes it, by `contains`, which the standard library compiles to comparisons of many values at once. All
//! else is in bench/plain.rs.

use crate::plain::{Plain, Repeats};

pub struct Pairs;

pub type Pairwise = Plain<Pairs>;

impl Repeats for Pairs {
    fn number(numbers: &[u16]) -> Option<usize> {
        first_repeat(numbers)
    }

    fn function_id(ids: &[u8]) -> Option<usize> {
        first_repeat(ids)
    }

    fn state_id(ids: &[u8]) -> Option<usize> {
        first_repeat(ids)
    }
}

/// Each value with those before it.
fn first_repeat<T: PartialEq>(values: &[T]) -> Option<usize> {
    (1..values.len()).find(|&later| values[..later].contains(&values[later]))
}
