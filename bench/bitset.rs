//! The plain program with sets of bits: a number or an ID was seen before where its bit is set. All else is in bench/plain.rs.

use crate::plain::{Plain, Repeats};

pub struct Bits;

pub type Bitset = Plain<Bits>;

impl Repeats for Bits {
    fn number(numbers: &[u16]) -> Option<usize> {
        let mut seen = [0; 1_024];
        numbers.iter().position(|&number| set(&mut seen[usize::from(number >> 6)], number as u8 & 63))
    }

    fn function_id(ids: &[u8]) -> Option<usize> {
        let mut seen = [0; 4];
        ids.iter().position(|&id| set(&mut seen[usize::from(id >> 6)], id & 63))
    }

    /// State IDs are at most 63.
    fn state_id(ids: &[u8]) -> Option<usize> {
        let mut seen = 0;
        ids.iter().position(|&id| set(&mut seen, id & 63))
    }
}

/// Whether this bit was set before; from now on it is.
fn set(bits: &mut u64, bit: u8) -> bool {
    let bit = 1 << bit;
    let before = *bits & bit != 0;
    *bits |= bit;
    before
}
