//! The same in whole numbers, in binary: what is true of a printed number, without the printing. The exact value is a whole number of 2^-149, and so is
//! a double that is exact; a text is a whole number of last digits.

use std::cmp::Ordering;

/// A scale's last place, and so a value's: 2^-149.
const PLACES: u32 = 149;

/// A whole number of 384 bits, the lowest 64 first: more than 2 · 10^56 · 2^149.
#[derive(Clone, Copy, PartialEq, Debug)]
pub struct Whole([u64; 6]);

impl Whole {
    fn of(number: u64) -> Whole {
        Whole([number, 0, 0, 0, 0, 0])
    }

    fn times_plus(self, factor: u64, more: u64) -> Whole {
        let mut carry = u128::from(more);
        let cells = self.0.map(|cell| {
            carry += u128::from(cell) * u128::from(factor);
            let low = carry as u64;
            carry >>= 64;
            low
        });
        assert!(carry == 0);
        Whole(cells)
    }

    fn times_two_to(self, power: u32) -> Whole {
        let full = (0..power / 63).fold(self, |number, _| number.times_plus(1 << 63, 0));
        full.times_plus(1 << (power % 63), 0)
    }

    fn order(&self, other: &Whole) -> Ordering {
        self.0.iter().rev().cmp(other.0.iter().rev())
    }

    fn distance(self, other: Whole) -> Whole {
        let (more, less) = if self.order(&other) == Ordering::Less { (other, self) } else { (self, other) };
        let (mut cells, mut borrow) = ([0; 6], false);
        for place in 0..6 {
            let (once, first) = more.0[place].overflowing_sub(less.0[place]);
            let (twice, second) = once.overflowing_sub(u64::from(borrow));
            cells[place] = twice;
            borrow = first | second;
        }
        Whole(cells)
    }
}

/// A number with a sign; zero has none.
#[derive(Clone, Copy, PartialEq, Debug)]
pub struct Signed {
    below: bool,
    size: Whole,
}

impl Signed {
    fn of(below: bool, size: Whole) -> Signed {
        Signed { below: below && size != Whole::of(0), size }
    }
}

/// (value + offset) · scale in places, of a finite scale above zero.
pub fn exact(value: u32, offset: i32, bits: u32) -> Signed {
    let sum = i64::from(value) + i64::from(offset);
    let (field, digits) = (bits >> 23, u64::from(bits & 0x7f_ffff));
    let (digits, power) = if field == 0 { (digits, 0) } else { (digits | 1 << 23, field - 1) };
    Signed::of(sum < 0, Whole::of(sum.unsigned_abs() * digits).times_two_to(power))
}

/// A finite double in places, if it has no finer ones.
pub fn double(number: f64) -> Option<Signed> {
    let bits = number.to_bits();
    let (field, digits) = ((bits >> 52 & 0x7ff) as i32, bits & 0xf_ffff_ffff_ffff);
    let (digits, power) = if field == 0 { (digits, -1074) } else { (digits | 1 << 52, field - 1075) };
    let (odd, power) = (digits >> digits.trailing_zeros().min(63), power + digits.trailing_zeros() as i32);
    if digits == 0 {
        return Some(Signed::of(false, Whole::of(0)));
    }
    let power = u32::try_from(power + PLACES as i32).ok()?;
    Some(Signed::of(number < 0.0, Whole::of(odd).times_two_to(power)))
}

/// The number of last digits that a text stands for, if it is one: "A minus sign, at least one digit, and with decimals above 0 a point and exactly
/// that many digits", "a minus sign only where a digit is not zero", before the point no zero in front of other digits.
pub fn read(text: &[u8], decimals: u32) -> Option<Signed> {
    let (below, unsigned) = match text {
        [b'-', rest @ ..] => (true, rest),
        _ => (false, text),
    };
    let (whole, part) = match (decimals as usize, unsigned.iter().position(|&byte| byte == b'.')) {
        (0, None) => (unsigned, &[][..]),
        (1.., Some(point)) => (&unsigned[..point], &unsigned[point + 1..]),
        _ => return None,
    };
    let right = part.len() == decimals as usize && matches!(whole, [_] | [b'1'..=b'9', ..]) && whole.len() + part.len() <= 56;
    if !right || !whole.iter().chain(part).all(u8::is_ascii_digit) {
        return None;
    }
    let digits = whole.iter().chain(part);
    let size = digits.fold(Whole::of(0), |number, digit| number.times_plus(10, u64::from(digit - b'0')));
    (!below || size != Whole::of(0)).then(|| Signed::of(below, size))
}

/// Twice the distance of a printed number from places, beside one last digit. One below zero and the other above, they are further apart than that.
fn twice_the_distance(printed: &Signed, places: &Signed, decimals: u32) -> Ordering {
    let (ours, theirs) = (printed.size.times_two_to(PLACES), places.size.times_plus(10u64.pow(decimals), 0));
    let other_side = printed.below != places.below && printed.size != Whole::of(0) && places.size != Whole::of(0);
    if other_side {
        return Ordering::Greater;
    }
    ours.distance(theirs).times_plus(2, 0).order(&Whole::of(1).times_two_to(PLACES))
}

/// "nearest, ties to the even last digit"
pub fn is_nearest(printed: &Signed, exact: &Signed, decimals: u32) -> bool {
    match twice_the_distance(printed, exact, decimals) {
        Ordering::Less => true,
        Ordering::Equal => printed.size.0[0] % 2 == 0,
        Ordering::Greater => false,
    }
}

/// "within half a last digit of it"
pub fn is_within_half(printed: &Signed, double: &Signed, decimals: u32) -> bool {
    twice_the_distance(printed, double, decimals) != Ordering::Greater
}
