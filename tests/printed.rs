//! The shown value as text, of the proved library, against a model that writes the exact value out in full and rounds it on paper (printed/model.rs),
//! and against what is true of the number in whole numbers (printed/whole.rs). C's own printf prints the doubles: where one is exact, to the same text.

mod hold;
mod model;
mod whole;

use crate::pool::generate::Random;
use hold::{Case, Sides};
use model::{Exact, Left, DECIMALS, LONGEST};
use std::ops::RangeInclusive;
use std::os::raw::{c_char, c_int};

/// Values by chance, each with every number of decimals.
const COUNT: u64 = 40_000;
const SEED: u64 = 13;

/// COUNT values by chance, from SEED, after those at all edges; and of what they gave one text of each length into every room.
pub fn run(arguments: &[&str]) {
    let (count, seed) = crate::count_and_seed(arguments, COUNT, SEED);
    let mut run = Run { random: Random::new(seed), texts: 0, calls: [0; 5], last: [[None; LONGEST + 1]; DECIMALS.len()], met: Met::NOTHING };
    EXAMPLES.iter().for_each(|example| run.example(example));
    run.every_exponent();
    run.every_tie();
    run.every_near_tie();
    run.every_refusal();
    run.by_chance(count);
    run.every_length();
    run.report();
}

fn fail(why: &str) -> ! {
    crate::fail("printed", why)
}

fn check<T>(held: Result<T, String>) -> T {
    held.unwrap_or_else(|why| fail(&why))
}

/// Value, offset, scale and decimals, and the text.
type Example = (u32, i32, f32, u32, &'static str);

/// The last two are the longest at each end: 57 characters.
#[rustfmt::skip]
const EXAMPLES: [Example; 14] = [
    (240, 0, 0.1, 1, "24.0"),
    (220, 0, 0.1, 0, "22"),
    (240, 0, 0.1, 7, "24.0000004"),
    (0, -40, 0.5, 2, "-20.00"),
    (5, 0, 0.5, 0, "2"),
    (7, 0, 0.5, 0, "4"),
    (0, -5, 0.5, 0, "-2"),
    (0, -7, 0.5, 0, "-4"),
    (0, -1, 0.5, 0, "0"),
    (0, -1, 0.5, 1, "-0.5"),
    (1_999, 0, 0.005, 1, "10.0"),
    (0, -1, f32::MIN_POSITIVE, 7, "0.0000000"),
    (u32::MAX, i32::MAX, f32::MAX, 7, "2192252324647360786388099559515166908715871764480.0000000"),
    (0, i32::MIN, f32::MAX, 7, "-730750775109308493221719093046191758561635205120.0000000"),
];

/// Values and offsets at their ends, the least sum and the greatest among theirs; and others, with sums of zero and small ones.
const ENDS: [(u32, i32); 4] = [(0, i32::MIN), (u32::MAX, i32::MAX), (0, i32::MAX), (u32::MAX, i32::MIN)];
const OTHERS: [(u32, i32); 9] = [(0, 0), (1, -1), (0x8000_0000, i32::MIN), (240, -240), (1, 0), (0, -1), (240, -40), (9_999_999, 0), (0, -9_995)];

/// Sums, odd and even, up to one below the greatest. The least is -2^31.
const SUMS: [i64; 18] =
    [1, 2, 3, 5, 6, 7, 40, 99, 1_023, 4_095, 123_456_789, 0x1FFF_FFFF, 0x2000_0000, 0x2000_0001, 0x7FFF_FFFF, 0x8000_0000, 1 << 32, 6_442_450_941];

/// Bits of fractions that are near a tie, and of the least sums that make them. A double holds every product of a sum with up to 29 bits; with 30 and
/// more, and many digits of the scale, not all.
const WIDTHS: [u32; 10] = [1, 2, 3, 8, 20, 28, 29, 30, 31, 32];

/// Scales, the least and the greatest among them; and those for which every call gives 4: zeros, below zero, infinities and NaNs; the last is style
/// 00's.
const SCALES: [u32; 6] = [0x0000_0001, 0x007f_ffff, 0x0080_0000, 0x3dcc_cccd, 0x3f80_0000, 0x7f7f_ffff];
#[rustfmt::skip]
const NO_SCALES: [u32; 14] = [
    0x0000_0000, 0x8000_0000, 0x8000_0001, 0x807f_ffff, 0x8080_0000, 0xbdcc_cccd, 0xbf80_0000,
    0xff7f_ffff, 0x7f80_0000, 0xff80_0000, 0x7f80_0001, 0x7fc0_0000, 0xffc0_0000, 0xffff_ffff,
];

/// Decimals for which every call gives 4; cut to fewer bits, some would be allowed.
const TOO_MANY: [u32; 10] = [8, 9, 10, 15, 16, 255, 256, 0x1_0000, 0x8000_0001, u32::MAX];

struct Run {
    random: Random,
    texts: u64,
    /// By the number that a call gave.
    calls: [u64; 5],
    /// The last case with a text of this length, by decimals.
    last: [[Option<Case>; LONGEST + 1]; DECIMALS.len()],
    met: Met,
}

impl Run {
    /// The text of the library and of the model.
    fn example(&mut self, &(value, offset, scale, decimals, text): &Example) {
        let printed = Exact::of(value, offset, scale.to_bits()).printed(decimals).text;
        if printed != text.as_bytes() {
            fail(&format!("the model prints {}, not {text}", printed.escape_ascii()));
        }
        self.value(value, offset, scale.to_bits());
    }

    /// Every exponent, 255 too, which is no scale's, with the least and the greatest digits, one bit, and digits by chance; above zero and below.
    fn every_exponent(&mut self) {
        for field in 0..256 {
            let by_chance = self.random.number() as u32 & 0x7f_ffff;
            for digits in [0, 1, 0x7f_ffff, 1 << (field % 23), 1 << (field * 7 % 23), 1 << 22, by_chance] {
                let (bits, other) = (field << 23 | digits, self.random.pick(&OTHERS));
                for (value, offset) in [ENDS[0], ENDS[1], ENDS[2], ENDS[3], OTHERS[field as usize % 9], other, self.any_sum()] {
                    self.value(value, offset, bits);
                }
                self.value(other.0, other.1, 0x8000_0000 | bits);
            }
        }
    }

    /// Sums and digits of scales, with the exponent that makes a tie at each number of decimals; and with one unit more or less of either.
    fn every_tie(&mut self) {
        for (sum, decimals) in each(&SUMS, &DECIMALS) {
            for digits in [0, 1 << 22, 1, 0x7f_ffff, 0x4c_cccd, self.random.number() as u32 & 0x7f_ffff] {
                let bits = tie(sum, digits, decimals);
                for (sum, bits) in [(sum, bits), (sum, bits - 1), (sum, bits + 1), (sum - 1, bits), (sum + 1, bits)] {
                    self.both_signs(sum, bits);
                }
            }
        }
    }

    /// As near to a tie as can be, from both sides: there a double may be a tie where the exact value is none.
    fn every_near_tie(&mut self) {
        for (width, decimals) in each(&WIDTHS, &DECIMALS) {
            let by_chance = self.random.number() as u32 & 0x7f_ffff;
            for (digits, beside) in each(&[1, 0x7f_ffff, 0x4c_cccd, by_chance], &[-1, 0, 1]) {
                let (sum, bits) = near_tie(digits, decimals, width, beside);
                self.both_signs(sum, bits);
                let more = i64::from(self.random.number() as u32) >> width << width;
                self.both_signs(sum + more, bits);
            }
        }
    }

    fn both_signs(&mut self, sum: i64, bits: u32) {
        for signed in [sum, (-sum).max(i32::MIN.into())] {
            let (value, offset) = self.parts(signed);
            self.value(value, offset, bits);
        }
    }

    /// 4 comes before 1: it does not matter how much is lent.
    fn every_refusal(&mut self) {
        let refused = [each(&NO_SCALES, &DECIMALS), each(&NO_SCALES, &TOO_MANY), each(&SCALES, &TOO_MANY)].concat();
        for ((bits, decimals), lent) in each(&refused, &[0, 1, 2, 10, 57, 58, 60]) {
            let (value, offset) = self.any_sum();
            self.refused(&Case { value, offset, bits, decimals }, lent);
        }
    }

    fn refused(&mut self, case: &Case, lent: usize) {
        self.count(hold::by_value(case, None, lent));
        self.count(hold::as_string(case, None, lent));
    }

    /// One text of each length with each number of decimals, into every number of bytes from 0 to 60, by value and by the wrapper.
    fn every_length(&mut self) {
        for case in self.last.iter().flatten().flatten().copied().collect::<Vec<Case>>() {
            let text = Exact::of(case.value, case.offset, case.bits).printed(case.decimals).text;
            for lent in 0..=60 {
                self.count(hold::by_value(&case, Some(&text), lent));
                self.count(hold::as_string(&case, Some(&text), lent));
            }
            self.met.at[case.decimals as usize].lengths[text.len()] += 1;
        }
    }

    fn by_chance(&mut self, count: u64) {
        for turn in 0..count {
            let ((value, offset), any) = (self.any_sum(), self.random.number() as u32);
            let sum = i64::from(value) + i64::from(offset);
            match turn % 8 {
                0..=2 => self.value(value, offset, any & 0x7fff_ffff),
                3 => self.value(value, offset, 0x3d80_0000 + (any >> 7)), // from 1/16 to 1
                4 => self.value(value, offset, ((any % 1_000) as f32 / 10f32.powi((any >> 10) as i32 % 8)).to_bits()),
                5 if sum != 0 => self.value(value, offset, tie(sum, any & 0x7f_ffff, any >> 24 & 7) + (any >> 27) % 3 - 1),
                6 => {
                    let (sum, bits) = near_tie(any & 0x7f_ffff, any >> 24 & 7, 1 + value % 32, i64::from(any >> 27) % 3 - 1);
                    let (value, offset) = self.parts(sum);
                    self.value(value, offset, bits);
                }
                _ => self.value(value, offset, any & 0x7f80_0000 | 1 << (any % 23)),
            }
        }
    }

    /// Any number of leading bits is taken off, so that small numbers are tried as often as large ones.
    fn any_sum(&mut self) -> (u32, i32) {
        let (a, b) = (self.random.number(), self.random.number());
        ((a as u32) >> (b & 31), (a >> 32) as i32 >> (b >> 8 & 31))
    }

    /// A value and an offset of which this is the sum.
    fn parts(&mut self, sum: i64) -> (u32, i32) {
        let (least, most) = ((sum - i64::from(u32::MAX)).max(i32::MIN.into()), sum.min(i32::MAX.into()));
        let offset = least + (self.random.number() % (most - least + 1) as u64) as i64;
        ((sum - offset) as u32, offset as i32)
    }

    /// One value with every number of decimals.
    fn value(&mut self, value: u32, offset: i32, bits: u32) {
        if !model::is_scale(bits) {
            let (decimals, lent) = (self.random.below(10) as u32, self.random.below(61));
            return self.refused(&Case { value, offset, bits, decimals }, lent);
        }
        let (exact, sides) = (Exact::of(value, offset, bits), check(Sides::of(value, offset, bits)));
        for decimals in DECIMALS {
            let case = Case { value, offset, bits, decimals };
            let printed = exact.printed(decimals);
            self.texts += 1;
            self.text(&case, &printed.text);
            check(sides.hold(&case, &printed.text));
            self.doubles(&case, &sides, &printed.text);
            self.last[decimals as usize][printed.text.len()] = Some(case);
            self.met.count(exact.below, decimals, &printed.text, printed.left);
        }
    }

    /// Into as many bytes as the text has, one less and one more: the wrapper or the call by value writes it, as chance has it, and the other has no
    /// room.
    fn text(&mut self, case: &Case, text: &[u8]) {
        let (need, wrapped) = (text.len(), self.random.once_in(2));
        self.met.at[case.decimals as usize].written[usize::from(wrapped)] += 1;
        if wrapped {
            self.count(hold::as_string(case, Some(text), need + 1));
            self.count(hold::by_value(case, Some(text), need - 1));
            self.count(hold::as_string(case, Some(text), need + 2));
        } else {
            self.count(hold::by_value(case, Some(text), need));
            self.count(hold::as_string(case, Some(text), need));
            self.count(hold::by_value(case, Some(text), need + 1));
        }
    }

    fn count(&mut self, held: Result<u8, String>) {
        self.calls[usize::from(check(held))] += 1;
    }

    /// C prints a double that is exact to the same text; one in four is tried, as chance has it. Of one that is rounded it may be another.
    fn doubles(&mut self, case: &Case, sides: &Sides, text: &[u8]) {
        if sides.is_exact {
            self.met.exact += 1;
        } else {
            self.met.rounded += 1;
        }
        if sides.is_exact && !self.random.once_in(4) {
            return;
        }
        let (c, met) = (printf(sides.double, case.decimals), &mut self.met.at[case.decimals as usize]);
        match (sides.is_exact, c == text) {
            (true, true) => met.as_printf += 1,
            (true, false) => fail(&format!("C prints {}, the library and the model {}, of {case}", c.escape_ascii(), text.escape_ascii())),
            (false, same) => met.other_than_printf += u64::from(!same),
        }
    }

    fn report(&self) {
        let [written, short, _, _, refused] = self.calls;
        let met = &self.met;
        let sum = |count: &dyn Fn(&At) -> u64| met.at.iter().map(count).sum::<u64>();
        let of = |left: Left| sum(&|at| at.left.iter().map(|counts| counts[left as usize]).sum());
        let lengths = sum(&|at| at.lengths.iter().sum());
        println!("printed: {} texts, written by {written} calls; {short} calls have no room for one, {refused} are refused with 4", self.texts);
        println!("printed: {lengths} texts, of each length with each number of decimals, into every number of bytes from 0 to 60");
        println!("printed: ties to the even digit, {} down and {} up; {} zeros from below zero", of(Left::TieDown), of(Left::TieUp), met.zeros);
        let (same, other) = (sum(&|at| at.as_printf), sum(&|at| at.other_than_printf));
        println!("printed: {} within half a last digit of a double that is exact, {same} of them tried as C prints it", met.exact);
        println!("printed: {} of a double that is rounded, {other} of them not as C prints it", met.rounded);
        let unmet = met.unmet();
        if !unmet.is_empty() {
            fail(&format!("never met: {}", unmet.join("; ")));
        }
    }
}

fn each<A: Copy, B: Copy>(one: &[A], other: &[B]) -> Vec<(A, B)> {
    one.iter().flat_map(|a| other.iter().map(move |b| (*a, *b))).collect()
}

/// The scale with these digits of which sum · scale · 10^decimals ends in one half: its last bit is that of 2^-1.
fn tie(sum: i64, digits: u32, decimals: u32) -> u32 {
    let product = sum.unsigned_abs() * u64::from(digits | 0x80_0000);
    (150 - product.trailing_zeros() - decimals - 1) << 23 | digits
}

/// A sum below 2^width and the scale with these digits, the last of them 1, of which sum · scale · 10^decimals is so many 2^-width beside one half, but
/// for its whole part. With m odd, sum · m · 5^decimals may be anything modulo 2^width.
fn near_tie(digits: u32, decimals: u32, width: u32, beside: i64) -> (i64, u32) {
    let odd = u64::from(digits | 0x80_0001) * 5u64.pow(decimals);
    let inverse = (0..5).fold(odd, |near, _| near.wrapping_mul(2u64.wrapping_sub(odd.wrapping_mul(near))));
    let half = (1u64 << (width - 1)).wrapping_add(beside as u64);
    let sum = half.wrapping_mul(inverse) & ((1 << width) - 1);
    (sum as i64, (150 - width - decimals) << 23 | digits | 1)
}

extern "C" {
    fn snprintf(to: *mut c_char, room: usize, format: *const c_char, ...) -> c_int;
}

/// C rounds to the nearest, ties to even; but it prints a zero from below zero with a minus sign, which is left out here.
fn printf(double: f64, decimals: u32) -> Vec<u8> {
    let mut out = vec![0; 64];
    let format = b"%.*f\0".as_ptr().cast();
    // SAFETY: the format asks for an int and a double, and the room is that of the bytes.
    let length = unsafe { snprintf(out.as_mut_ptr().cast(), out.len(), format, decimals as c_int, double) };
    out.truncate(length as usize);
    if out[0] == b'-' && !out.iter().any(|byte| (b'1'..=b'9').contains(byte)) {
        out.remove(0);
    }
    out
}

/// What must be met: all of `At`, with each number of decimals; zeros of values that are below zero; doubles that are exact and doubles that are not.
struct Met {
    at: [At; DECIMALS.len()],
    zeros: u64,
    exact: u64,
    rounded: u64,
}

/// Texts with one number of decimals.
#[derive(Clone, Copy)]
struct At {
    /// By sign and by what was left out.
    left: [[u64; 5]; 2],
    /// Into just enough bytes, by value and by the wrapper.
    written: [u64; 2],
    /// Into every number of bytes, by length.
    lengths: [u64; LONGEST + 1],
    /// As C prints the double, which is exact; and not so, of one that is rounded.
    as_printf: u64,
    other_than_printf: u64,
}

impl Met {
    const NOTHING: Met = Met {
        at: [At { left: [[0; 5]; 2], written: [0; 2], lengths: [0; LONGEST + 1], as_printf: 0, other_than_printf: 0 }; DECIMALS.len()],
        zeros: 0,
        exact: 0,
        rounded: 0,
    };

    fn count(&mut self, below: bool, decimals: u32, text: &[u8], left: Left) {
        self.at[decimals as usize].left[usize::from(below)][left as usize] += 1;
        self.zeros += u64::from(below && text[0] != b'-');
    }

    fn unmet(&self) -> Vec<String> {
        let at = DECIMALS.into_iter().zip(&self.at).flat_map(|(decimals, at)| at.unmet(decimals));
        let mut unmet: Vec<String> = at.collect();
        if [self.zeros, self.exact, self.rounded].contains(&0) {
            unmet.push("a zero from below zero, or a double that is exact, or one that is rounded".into());
        }
        unmet
    }
}

impl At {
    fn unmet(&self, decimals: u32) -> Vec<String> {
        let lefts = [Left::Nothing, Left::BelowHalf, Left::AboveHalf, Left::TieDown, Left::TieUp];
        let never = each(&lefts, &[0, 1]).into_iter().filter(|(left, sign)| self.left[*sign][*left as usize] == 0);
        let mut unmet: Vec<String> = never.map(|(left, sign)| format!("{left:?} {} zero", ["above", "below"][sign])).collect();
        let lengths = lengths(decimals).filter(|length| self.lengths[*length] == 0);
        unmet.extend(lengths.map(|length| format!("a text of {length} characters into every number of bytes")));
        let [by_value, wrapped] = self.written;
        let others = [
            (by_value, "a text by value into just enough bytes"),
            (wrapped, "a text by the wrapper into just enough bytes"),
            (self.as_printf, "a text that is as C prints the double"),
            (self.other_than_printf, "a text that is not as C prints the double"),
        ];
        unmet.extend(others.iter().filter(|(count, _)| *count == 0).map(|(_, what)| what.to_string()));
        unmet.iter().map(|what| format!("{what}, with {decimals} decimals")).collect()
    }
}

/// The lengths of all texts: before the point 1 to 49 characters, a minus sign among them; with decimals above 0 the point and these.
fn lengths(decimals: u32) -> RangeInclusive<usize> {
    let behind = if decimals == 0 { 0 } else { 1 + decimals as usize };
    1 + behind..=LONGEST - 8 + behind
}
