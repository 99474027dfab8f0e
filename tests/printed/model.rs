//! The shown value as text, as it is done on paper: the exact value is written out in full, to its last digit, and then rounded. It is written from
//! document 02, request 13, and from what is fixed for C ("A minus sign, at least one digit, and with decimals above 0 a point and exactly that many
//! digits"), and shares nothing with the library.

/// "4 first, also for decimals above 7".
pub const DECIMALS: [u32; 8] = [0, 1, 2, 3, 4, 5, 6, 7];
/// "No text is longer than 57 characters."
pub const LONGEST: usize = 57;

/// What was left out behind the last digit.
#[derive(Clone, Copy, PartialEq, Debug)]
pub enum Left {
    Nothing,
    BelowHalf,
    AboveHalf,
    /// Exactly one half: the last digit was even and stays, or was odd and one is added.
    TieDown,
    TieUp,
}

#[derive(Debug)]
pub struct Printed {
    pub text: Vec<u8>,
    pub left: Left,
}

/// The exact value: its digits, the highest first, of which the last `behind` stand behind the point and at least one before it.
pub struct Exact {
    pub below: bool,
    digits: Vec<u8>,
    behind: usize,
}

/// "A scale not finite and above zero, as style 00 has it": number 4.
pub fn is_scale(bits: u32) -> bool {
    let scale = f32::from_bits(bits);
    scale.is_finite() && scale > 0.0
}

impl Exact {
    /// (value + offset) · scale, of a finite scale above zero, which is m · 2^e: with e below zero m · 5^-e / 10^-e, as many digits behind the point.
    pub fn of(value: u32, offset: i32, bits: u32) -> Exact {
        let sum = i64::from(value) + i64::from(offset);
        let (field, digits) = (bits >> 23, bits & 0x7f_ffff);
        let (m, e) = if field == 0 { (digits, -149) } else { (digits | 0x80_0000, field as i32 - 150) };
        let mut cells = cells_of(sum.unsigned_abs());
        times(&mut cells, m);
        let behind = usize::try_from(-e).unwrap_or(0);
        if e < 0 {
            times_power(&mut cells, 5, behind);
        } else {
            times_power(&mut cells, 2, e as usize);
        }
        Exact { below: sum < 0, digits: digits_of(&cells, behind + 1), behind }
    }

    /// With so many decimals.
    pub fn printed(&self, decimals: u32) -> Printed {
        let decimals = decimals as usize;
        let mut digits = self.digits.clone();
        let mut left = Left::Nothing;
        if self.behind > decimals {
            left = cut(&mut digits, self.behind - decimals);
        } else {
            digits.extend(vec![0; decimals - self.behind]);
        }
        if matches!(left, Left::AboveHalf | Left::TieUp) {
            add_one(&mut digits);
        }
        Printed { text: text_of(self.below, &digits, decimals), left }
    }
}

/// A whole number, nine digits a cell, the lowest first.
const CELL: u64 = 1_000_000_000;
const CELL_DIGITS: u32 = 9;

fn cells_of(mut number: u64) -> Vec<u32> {
    let mut cells = Vec::with_capacity(16);
    while number > 0 {
        cells.push((number % CELL) as u32);
        number /= CELL;
    }
    cells
}

fn times(cells: &mut Vec<u32>, factor: u32) {
    let mut carry = 0;
    for cell in cells.iter_mut() {
        let product = u64::from(*cell) * u64::from(factor) + carry;
        *cell = (product % CELL) as u32;
        carry = product / CELL;
    }
    cells.extend(cells_of(carry));
}

/// Thirteen at a time: 5^13 is the greatest power of 5 that 32 bits hold.
fn times_power(cells: &mut Vec<u32>, base: u32, power: usize) {
    for _ in 0..power / 13 {
        times(cells, base.pow(13));
    }
    times(cells, base.pow((power % 13) as u32));
}

/// The highest first, and at least so many.
fn digits_of(cells: &[u32], least: usize) -> Vec<u8> {
    let mut digits = vec![0; least.saturating_sub(cells.len() * CELL_DIGITS as usize)];
    for cell in cells.iter().rev() {
        digits.extend((0..CELL_DIGITS).rev().map(|place| (cell / 10u32.pow(place) % 10) as u8));
    }
    digits
}

/// Takes the last so many digits off, and says how much of one last digit they are.
fn cut(digits: &mut Vec<u8>, count: usize) -> Left {
    let rest = digits.split_off(digits.len() - count);
    let others = rest[1..].iter().any(|&digit| digit != 0);
    let odd = digits.last().map_or(false, |digit| digit % 2 == 1);
    match (rest[0], others) {
        (0, false) => Left::Nothing,
        (0..=4, _) => Left::BelowHalf,
        (5, false) if odd => Left::TieUp,
        (5, false) => Left::TieDown,
        _ => Left::AboveHalf,
    }
}

/// Nines become zeros, from the last digit on; before them one is added, or put.
fn add_one(digits: &mut Vec<u8>) {
    let nines = digits.iter().rev().take_while(|&&digit| digit == 9).count();
    let others = digits.len() - nines;
    digits[others..].fill(0);
    match digits[..others].last_mut() {
        Some(digit) => *digit += 1,
        None => digits.insert(0, 1),
    }
}

/// Before the point no zero in front of other digits, and "a minus sign only where a digit is not zero".
fn text_of(below: bool, digits: &[u8], decimals: usize) -> Vec<u8> {
    let zeros = digits.iter().take_while(|&&digit| digit == 0).count();
    let first = zeros.min(digits.len() - decimals - 1);
    let mut text = Vec::with_capacity(LONGEST + 1);
    if below && zeros < digits.len() {
        text.push(b'-');
    }
    let (whole, part) = digits[first..].split_at(digits.len() - decimals - first);
    text.extend(whole.iter().map(|digit| b'0' + digit));
    if decimals > 0 {
        text.push(b'.');
    }
    text.extend(part.iter().map(|digit| b'0' + digit));
    text
}
