//! The shown value of the proved library against Rust's own doubles, bit for bit, and whether it is exact against whole numbers.
//! The model below is written from 01, "The shown value", and from 02, request 13, and shares nothing with the library.

use crate::library;

const COUNT: u64 = 5_000_000;

/// "(value + offset) · scale, the sum exact, the product in f64 rounded once." "A scale not finite
/// and above zero, as style 00 has it, gives 4 and value 0."
fn model(value: u32, offset: i32, scale: f32) -> (u8, f64) {
    if scale.is_finite() && scale > 0.0 {
        let sum = i64::from(value) + i64::from(offset);
        (0, sum as f64 * f64::from(scale))
    } else {
        (4, 0.0)
    }
}

/// "1 where the double is the exact product": a finite positive scale is m · 2^e and a finite double
/// n · 2^f, so the two sides are compared as whole numbers.
fn exact(value: u32, offset: i32, scale: f32, shown: f64) -> bool {
    let sum = i128::from(value) + i128::from(offset);
    let bits = scale.to_bits();
    let (m, e) = parts(u64::from(bits & 0x7f_ffff), u64::from(bits >> 23), 23, 150);
    let wide = shown.to_bits();
    let (n, f) = parts(wide & 0xf_ffff_ffff_ffff, wide >> 52 & 0x7ff, 52, 1075);
    let left = if shown.is_sign_negative() { -n } else { n };
    let right = sum * m;
    if left == 0 || right == 0 {
        return left == right;
    }
    // left · 2^f = right · 2^e, with the twos taken out of both
    let (a, b) = (left.trailing_zeros() as i32, right.trailing_zeros() as i32);
    left >> a == right >> b && a + f == b + e
}

/// The significand and the exponent that the two fields of a finite float stand for.
fn parts(digits: u64, field: u64, width: u32, bias: i32) -> (i128, i32) {
    if field == 0 {
        (i128::from(digits), 1 - bias)
    } else {
        (i128::from(digits | 1 << width), field as i32 - bias)
    }
}

/// xorshift64*, so that every run tries the same cases.
struct Random(u64);

impl Random {
    fn next(&mut self) -> u64 {
        self.0 ^= self.0 >> 12;
        self.0 ^= self.0 << 25;
        self.0 ^= self.0 >> 27;
        self.0.wrapping_mul(0x2545_f491_4f6c_dd1d)
    }
}

#[derive(Default)]
struct Count {
    cases: u64,
    refused: u64,
    small: u64,
    exact: u64,
    large: u64,
    rounded: u64,
    differences: u64,
}

impl Count {
    fn try_one(&mut self, value: u32, offset: i32, bits: u32) {
        let scale = f32::from_bits(bits);
        let (number, want) = model(value, offset, scale);
        let small = (i64::from(value) + i64::from(offset)).abs() < 1 << 29;
        let exact = number == 0 && exact(value, offset, scale, want);
        self.count(number, small, exact);
        let (first, second) = (library::shown_bits(value, offset, bits), library::value::shown(value, offset, scale));
        // the wrapper does not say whether it is exact
        let (wrapped, third) = library::shown(value, offset, scale);
        let all = [(first.number, first.exact, first.value), (second.number, second.exact, second.value), (wrapped, u8::from(exact), third)];
        for (call, got) in ["scm_shown_bits", "scm_shown_of", "scm_shown"].iter().zip(all) {
            let same = (got.0, got.1, got.2.to_bits()) == (number, u8::from(exact), want.to_bits());
            if !same || (number == 0 && small && !exact) {
                self.differences += 1;
                if self.differences > 20 {
                    continue;
                }
                println!(
                    "{call}: value {value}, offset {offset}, scale {bits:08X}: {}, exact {}, {:016X}, not {number}, exact {}, {:016X}",
                    got.0,
                    got.1,
                    got.2.to_bits(),
                    u8::from(exact),
                    want.to_bits()
                );
            }
        }
    }

    /// Below 2^29 in magnitude of the sum, and not.
    fn count(&mut self, number: u8, small: bool, exact: bool) {
        self.cases += 1;
        self.refused += u64::from(number == 4);
        self.small += u64::from(number == 0 && small);
        self.exact += u64::from(exact);
        self.large += u64::from(exact && !small);
        self.rounded += u64::from(number == 0 && !exact);
    }
}

/// Zero, subnormals least and greatest, the least normal, 0.1, 0.5, 1, 100, the greatest finite, infinity,
/// NaNs signalling and quiet; and eight of them with a minus sign, of which the last is style 00's.
const SCALES: [u32; 24] = [
    0x0000_0000, 0x0000_0001, 0x0000_0002, 0x007f_ffff, 0x0080_0000, 0x0080_0001, 0x3dcc_cccd, 0x3f00_0000,
    0x3f80_0000, 0x42c8_0000, 0x7f7f_fffe, 0x7f7f_ffff, 0x7f80_0000, 0x7f80_0001, 0x7fc0_0000, 0x7fff_ffff,
    0x8000_0000, 0x8000_0001, 0x8080_0000, 0xbf80_0000, 0xff7f_ffff, 0xff80_0000, 0xff80_0001, 0xffff_ffff,
];

const VALUES: [u32; 14] = [
    0, 1, 2, 220, 240, 1000, 0x00ff_ffff, 0x1fff_ffff, 0x2000_0000, 0x2000_0001, 0x7fff_ffff, 0x8000_0000, 0xffff_fffe, 0xffff_ffff,
];

const OFFSETS: [i32; 14] = [
    0, 1, -1, -40, -220, -240, 0x1fff_ffff, -0x1fff_ffff, -0x2000_0000, -0x2000_0001, i32::MAX, i32::MAX - 1, i32::MIN, i32::MIN + 1,
];

/// Each value with each offset and each scale, then COUNT cases by chance.
pub fn run(arguments: &[&str]) {
    let (turns, seed) = crate::count_and_seed(arguments, COUNT, 0x9e37_79b9_7f4a_7c15);
    let mut count = Count::default();
    for value in VALUES {
        for offset in OFFSETS {
            for scale in SCALES {
                count.try_one(value, offset, scale);
            }
        }
    }
    let mut random = Random(seed);
    for turn in 0..turns {
        let (a, b, c) = (random.next(), random.next(), random.next());
        // any number of leading bits is taken off, so that small numbers are tried as often as large ones
        let value = (a as u32) >> (b & 31);
        let offset = (a >> 32) as i32 >> (b >> 8 & 31);
        let scale = match turn % 4 {
            0 => SCALES[(c % 24) as usize],
            1 => 0x3d80_0000 + (c as u32 >> 7), // from 1/16 to 1
            _ => c as u32,
        };
        count.try_one(value, offset, scale);
    }
    println!("shown: {} refused with 4, {} below 2^29 held as whole numbers", count.refused, count.small);
    println!("shown: {} exact, {} of them with a sum of 2^29 and more; {} rounded", count.exact, count.large, count.rounded);
    println!("shown: {} cases, {} differences", count.cases, count.differences);
    if count.differences != 0 {
        crate::fail("shown", "the library and the model differ");
    }
}
