//! The mode of shown values: the text of any value with any scale and decimals, into any number of lent bytes, and whether the double is exact, held
//! against the models of tests/printed.

#[path = "../printed/hold.rs"]
mod hold;
#[path = "../printed/model.rs"]
mod model;
#[path = "../printed/whole.rs"]
mod whole;

use crate::counters::{self, Row};
use crate::decode::Bytes;
use crate::entry::found;
use hold::{Case, Sides};
use model::{Exact, DECIMALS};

/// The most bytes that are lent.
const MOST: usize = 64;
/// By their place: 0.1, 0.5, 1, 0.25, 0.01, 100, the least, the greatest of those below the normal ones, the greatest; and three that are none.
#[rustfmt::skip]
const SCALES: [u32; 12] = [
    0x3dcc_cccd, 0x3f00_0000, 0x3f80_0000, 0x3e80_0000, 0x3c23_d70a, 0x42c8_0000, 0x0000_0001, 0x007f_ffff, 0x7f7f_ffff,
    0x0000_0000, 0x7f80_0000, 0xffff_ffff,
];

/// The mode: how many bytes value and offset have, the scale by its place or its bits, decimals, lent bytes.
pub fn judge(bytes: &mut Bytes) {
    let how = bytes.byte();
    let (value, offset) = (number(how % 4, bytes), number(how / 4 % 4, bytes) as i32);
    let bits = match how / 16 {
        place @ 0..=11 => SCALES[usize::from(place)],
        _ => bytes.long(),
    };
    let decimals = match bytes.byte() {
        byte @ 0..=239 => u32::from(byte % 8),
        _ => bytes.long(),
    };
    let case = Case { value, offset, bits, decimals };
    let taken = model::is_scale(bits) && DECIMALS.contains(&decimals);
    let printed = taken.then(|| Exact::of(value, offset, bits).printed(decimals));
    let text = printed.as_ref().map(|printed| &printed.text[..]);
    let lent = lent(bytes.byte(), text.map_or(0, <[u8]>::len));
    let number = held(hold::as_string(&case, text, lent));
    held(hold::by_value(&case, text, lent));
    counters::count(Row::Printed, usize::from(number) * 58 + text.map_or(0, <[u8]>::len));
    if let Some(printed) = printed {
        let sides = held(Sides::of(value, offset, bits));
        held(sides.hold(&case, &printed.text));
        let below = usize::from(printed.text[0] == b'-');
        counters::count(Row::Left, (decimals as usize * 2 + below) * 10 + printed.left as usize * 2 + usize::from(sides.is_exact));
    }
}

/// None, or a byte, below zero as often as above, or two or four bytes.
fn number(form: u8, bytes: &mut Bytes) -> u32 {
    match form {
        0 => 0,
        1 => bytes.byte() as i8 as u32,
        2 => u32::from(bytes.wide()),
        _ => bytes.long(),
    }
}

/// Enough for the text and a 0, one byte less, one more, or any number.
fn lent(how: u8, text: usize) -> usize {
    match how {
        0..=63 => text + 1,
        64..=127 => text,
        128..=191 => text + 2,
        _ => usize::from(how) % MOST,
    }
}

fn held<T>(held: Result<T, String>) -> T {
    held.unwrap_or_else(|why| found(&why))
}
