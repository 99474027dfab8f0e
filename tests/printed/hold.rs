//! One text of the library, by the wrapper or by value, into lent memory of any length: number, length and every byte are what they must be. And what
//! is true of every text.

use super::whole::{self, Signed};
use crate::library;
use std::fmt;

#[derive(Clone, Copy)]
pub struct Case {
    pub value: u32,
    pub offset: i32,
    pub bits: u32,
    pub decimals: u32,
}

impl fmt::Display for Case {
    fn fmt(&self, to: &mut fmt::Formatter) -> fmt::Result {
        write!(to, "value {}, offset {}, scale {:08X}, {} decimals", self.value, self.offset, self.bits, self.decimals)
    }
}

/// The lent bytes stand in memory of their own, with others before and behind them; none of it is a byte of a text.
const MEMORY: usize = 128;
const BEFORE: usize = 16;

fn memory() -> [u8; MEMORY] {
    let mut place = 0;
    [(); MEMORY].map(|()| {
        place += 1;
        0x80 | place
    })
}

/// "here 4 first, also for decimals above 7, then 1 if the text has no room"; a text is none where 4 applies.
fn wanted(text: Option<&[u8]>, room: usize) -> (u8, &[u8]) {
    match text {
        None => (4, &[]),
        Some(text) if text.len() > room => (1, &[]),
        Some(text) => (0, text),
    }
}

/// Lends so many bytes: number, length and all of the memory are as they must be, with the text and what ends it at the head of the lent bytes.
fn lend(case: &Case, lent: usize, wanted: (u8, &[u8]), end: &[u8], call: impl FnOnce(&mut [u8]) -> (u8, usize)) -> Result<u8, String> {
    let (number, text) = wanted;
    let (mut given_memory, mut wanted_memory) = (memory(), memory());
    let given = call(&mut given_memory[BEFORE..BEFORE + lent]);
    if number == 0 {
        let behind = BEFORE + text.len();
        wanted_memory[BEFORE..behind].copy_from_slice(text);
        wanted_memory[behind..behind + end.len()].copy_from_slice(end);
    }
    if given == (number, text.len()) && given_memory == wanted_memory {
        return Ok(number);
    }
    let [one, other] = [given_memory, wanted_memory].map(|memory| memory[BEFORE - 1..BEFORE + lent + 1].escape_ascii().to_string());
    Err(format!("{case}, into {lent} bytes: the library gives {given:?} and {one}, wanted is {:?} and {other}", (number, text.len())))
}

/// The characters alone.
pub fn by_value(case: &Case, text: Option<&[u8]>, room: usize) -> Result<u8, String> {
    let Case { value, offset, bits, decimals } = *case;
    lend(case, room, wanted(text, room), &[], |out| {
        let written = library::value::shown_text(value, offset, f32::from_bits(bits), decimals, out);
        (written.number, written.length)
    })
}

/// "The wrapper lends it len − 1 of the host's bytes and puts a 0 after them"; "`len` 0 gives 4 where it applies, else 1".
pub fn as_string(case: &Case, text: Option<&[u8]>, len: usize) -> Result<u8, String> {
    let Case { value, offset, bits, decimals } = *case;
    let wanted = wanted(text, len.saturating_sub(1));
    lend(case, len, wanted, &[0], |out| library::shown_text(value, offset, f32::from_bits(bits), decimals, out))
}

/// What a text is held against: the exact value, and the double of the library, if that is exact.
pub struct Sides {
    exact: Signed,
    pub double: f64,
    pub is_exact: bool,
}

impl Sides {
    /// Of a finite scale above zero. "`exact`: 1 where the double is the exact product".
    pub fn of(value: u32, offset: i32, bits: u32) -> Result<Sides, String> {
        let (exact, shown) = (whole::exact(value, offset, bits), library::value::shown(value, offset, f32::from_bits(bits)));
        let is_exact = whole::double(shown.value) == Some(exact);
        if (shown.number, shown.exact) != (0, u8::from(is_exact)) {
            return Err(format!("value {value}, offset {offset}, scale {bits:08X}: the library gives {shown:?}, wanted is exact {is_exact}"));
        }
        Ok(Sides { exact, double: shown.value, is_exact })
    }

    /// It is a number, the nearest; "where the f64 is exact the printed number is within half a last digit of it".
    pub fn hold(&self, case: &Case, text: &[u8]) -> Result<(), String> {
        let fail = |why: &str| Err(format!("{case}: {} is {why}", text.escape_ascii()));
        let printed = match whole::read(text, case.decimals) {
            Some(printed) => printed,
            None => return fail("no number with so many decimals"),
        };
        if !whole::is_nearest(&printed, &self.exact, case.decimals) {
            return fail("not the nearest");
        }
        let near = |double: Signed| whole::is_within_half(&printed, &double, case.decimals);
        if self.is_exact && !whole::double(self.double).map_or(false, near) {
            return fail("not within half a last digit of the double, which is exact");
        }
        Ok(())
    }
}
