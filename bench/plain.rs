//! A check of a pool, and what an attach keeps of it, written for speed from document 01, section "The pool", and from tables A.1
//! to A.3 of ISO 11783-14: all that the programs of bench/pairwise.rs and bench/bitset.rs share. They differ in how a value that
//! was seen before is found, and are compiled each for itself. Sentences of 01 are quoted above the lines that follow them.
//!
//! Nothing is allocated in a check: its two large arrays are made once and serve for every pool.

use crate::library::{Label, Profile, NO_LABEL, NO_PROFILE};
use std::marker::PhantomData;

/// A code of D.9 and the number of the object it names.
pub type Fault = (u8, u16);

/// How a program finds a value that was seen before: each gives the place of the first value that stands at an earlier place too.
pub trait Repeats {
    fn number(numbers: &[u16]) -> Option<usize>;
    fn function_id(ids: &[u8]) -> Option<usize>;
    fn state_id(ids: &[u8]) -> Option<usize>;
}

/// What is done with what a good pool lists; nothing where it is only checked.
trait Keeper {
    fn function(&mut self, _id: u8, _trigger: u8) {}
    fn states(&mut self, _function: u8, _ids: &[u8]) {}
}

struct Nobody;

impl Keeper for Nobody {}

impl Keeper for Profile {
    fn function(&mut self, id: u8, trigger: u8) {
        self.trigger[usize::from(id)] = trigger;
    }

    fn states(&mut self, function: u8, ids: &[u8]) {
        self.states[usize::from(function)] = ids.iter().fold(0, |states, id| states | 1 << id);
    }
}

const BASE: u8 = 0;
const FUNCTION: u8 = 1;
const STATE: u8 = 2;

/// "At most 16,384 bytes".
const BYTES: usize = 16_384;
/// Of eight bytes or more each.
const OBJECTS: usize = BYTES / 8;
/// O is a byte.
const LISTED: usize = 255;
/// What is found by an object's number: of a function its place in the pool, which is below this bit; of a state its ID and this
/// bit; of a base neither.
const IS_STATE: u32 = 1 << 14;
const IS_BASE: u32 = 1 << 15;
/// Of what is found, the upper half is the count of the check that put it there: what earlier checks left there is not cleared.
const ONE_CHECK: u32 = 1 << 16;

pub struct Plain<R> {
    numbers: [u16; OBJECTS],
    found: [u32; 1 << 16],
    check: u32,
    repeats: PhantomData<R>,
}

/// What stage one has met: how many objects, and where the first base stands.
struct Walked {
    objects: usize,
    base: Option<usize>,
}

impl<R: Repeats> Plain<R> {
    pub fn new() -> Box<Plain<R>> {
        Box::new(Plain { numbers: [0; OBJECTS], found: [0; 1 << 16], check: 0, repeats: PhantomData })
    }

    /// "Success is 00, object FFFF."
    pub fn check(&mut self, pool: &[u8]) -> Fault {
        self.two_stages(pool, &mut Nobody).map_or_else(|fault| fault, |_| (0x00, 0xFFFF))
    }

    /// What is kept of a pool that is accepted; of any other, nothing.
    pub fn profile_of(&mut self, pool: &[u8]) -> Profile {
        let mut kept = NO_PROFILE;
        match self.two_stages(pool, &mut kept) {
            Ok(base) => keep_base(base, &mut kept),
            Err(_) => kept = NO_PROFILE,
        }
        kept
    }

    /// The base of a good pool, from its first byte on.
    fn two_stages<'p>(&mut self, pool: &'p [u8], keeper: &mut impl Keeper) -> Result<&'p [u8], Fault> {
        // "At most 16,384 bytes; more gives FF, object FFFF."
        if pool.len() > BYTES {
            return Err((0xFF, 0xFFFF));
        }
        self.next_check();
        let walked = self.stage_one(pool)?;
        // "no base, 02 with object 0000;"
        let base = &pool[walked.base.ok_or((0x02, 0x0000))?..];
        // "object number seen before, 05;"
        let numbers = &self.numbers[..walked.objects];
        if let Some(later) = R::number(numbers) {
            return Err((0x05, numbers[later]));
        }
        judge_base(base)?;
        self.listed(pool, base, keeper)?;
        Ok(base)
    }

    fn next_check(&mut self) {
        self.check = self.check.wrapping_add(ONE_CHECK);
        if self.check == 0 {
            self.found.fill(0);
            self.check = ONE_CHECK;
        }
    }

    /// "Stage one walks the objects; the first fault wins and names its object."
    fn stage_one(&mut self, pool: &[u8]) -> Result<Walked, Fault> {
        let mut walked = Walked { objects: 0, base: None };
        let mut rest = pool;
        loop {
            rest = self.states(rest, &mut walked)?;
            // "fewer than 3 bytes left, FF and object FFFF;"
            let (number, kind) = match *rest {
                [] => return Ok(walked),
                [low, high, kind, ..] => (two(low, high), kind),
                _ => return Err((0xFF, 0xFFFF)),
            };
            let place = pool.len() - rest.len();
            let judged = match kind {
                FUNCTION => function(rest, number).map(|behind| (place as u32, behind)),
                BASE => base(rest, number).map(|behind| (IS_BASE, behind)),
                // "fixed part cut, FF;" No whole state stands here.
                STATE => Err(0xFF),
                // "type not 0, 1 or 2, code 01;"
                _ => Err(0x01),
            };
            let (found, behind) = judged.map_err(|code| (code, number))?;
            if kind == BASE && walked.base.is_none() {
                walked.base = Some(place);
            }
            self.put(number, found, &mut walked);
            rest = behind;
        }
    }

    /// Walks the states that stand first, whole ones one behind another, and gives what stands behind them.
    #[inline(always)]
    fn states<'p>(&mut self, mut rest: &'p [u8], walked: &mut Walked) -> Result<&'p [u8], Fault> {
        // "state 8": number, type, state ID, name and picture.
        while let [low, high, STATE, id, n, name, p, picture, ref behind @ ..] = *rest {
            let number = two(low, high);
            // "others 1 to 65534", "state ID at most 63", "names and pictures not FFFF".
            let good = numbered(number) & (id <= 63) & (two(n, name) != 0xFFFF) & (two(p, picture) != 0xFFFF);
            if !good {
                return Err((0xFF, number));
            }
            self.put(number, IS_STATE | u32::from(id), walked);
            rest = behind;
        }
        Ok(rest)
    }

    #[inline(always)]
    fn put(&mut self, number: u16, found: u32, walked: &mut Walked) {
        self.numbers[walked.objects] = number;
        self.found[usize::from(number)] = self.check | found;
        walked.objects += 1;
    }

    /// What the base lists, and what those functions list. '"Absent" means no object of that number and of the wanted type.'
    fn listed(&self, pool: &[u8], base: &[u8], keeper: &mut impl Keeper) -> Result<(), Fault> {
        let (mut functions, mut ids) = ([&pool[..0]; LISTED], [0; LISTED]);
        for ((number, function), id) in functions_of(base).zip(&mut functions).zip(&mut ids) {
            // "a listed function absent, 03, naming the listed number;"
            let place = self.found[usize::from(number)] ^ self.check;
            if place >= IS_STATE {
                return Err((0x03, number));
            }
            *function = &pool[place as usize..];
            *id = function[3];
            keeper.function(function[3], function[4]);
        }
        let count = usize::from(base[26]);
        // "two listed functions with one function ID, 06;" "(for a number listed twice, that number)"
        if let Some(later) = R::function_id(&ids[..count]) {
            return Err((0x06, number_of(functions[later])));
        }
        let again = functions[..count].iter().try_fold(None, |again, function| self.list(function, again, keeper))?;
        again.map_or(Ok(()), Err)
    }

    /// The states that a function lists; gives on the first that was found to be there again, in this list or in one before it.
    fn list(&self, function: &[u8], again: Option<Fault>, keeper: &mut impl Keeper) -> Result<Option<Fault>, Fault> {
        let mut ids = [0; 64];
        for (number, id) in states_of(function).zip(&mut ids) {
            // "a listed state absent, 04, likewise;"
            let found = self.found[usize::from(number)] ^ self.check ^ IS_STATE;
            if found > 63 {
                return Err((0x04, number));
            }
            *id = found as u8;
        }
        let ids = &ids[..usize::from(function[29])];
        keeper.states(function[3], ids);
        // "two states of one function with one state ID, 07." "(for a number listed twice, that number)"
        Ok(again.or_else(|| R::state_id(ids).map(|later| (0x07, number_of(&function[30 + 2 * later..])))))
    }
}

// Stage one, a function or a base: each gives what stands behind it, or the code of its fault. Where a branch would be guessed
// wrong, as that on the style, all is asked and put together.

/// The first bytes, where there are so many. "fixed part cut, FF;"
fn fixed<const LENGTH: usize>(rest: &[u8]) -> Result<&[u8; LENGTH], u8> {
    rest.get(..LENGTH).and_then(|bytes| bytes.try_into().ok()).ok_or(0xFF)
}

/// What stands behind so many bytes. "list or labels cut, FF;"
fn behind(rest: &[u8], length: usize) -> Result<&[u8], u8> {
    rest.get(length..).ok_or(0xFF)
}

fn two(low: u8, high: u8) -> u16 {
    u16::from_le_bytes([low, high])
}

/// The number that stands first: an object's own, or one that is listed.
fn number_of(bytes: &[u8]) -> u16 {
    two(bytes[0], bytes[1])
}

/// "others 1 to 65534".
fn numbered(number: u16) -> bool {
    (number != 0) & (number != 0xFFFF)
}

/// "function 30 + 2·S (S states, at most 64)".
fn function(rest: &[u8], number: u16) -> Result<&[u8], u8> {
    let it: &[u8; 30] = fixed(rest)?;
    let behind = behind(rest, 30 + 2 * usize::from(it[29]))?;
    // "preferred trigger 1, 2 or 255; attribute 0 to 2", "S at most 64; names and pictures not FFFF".
    let good = numbered(number)
        & matches!(it[4], 1 | 2 | 255)
        & (it[29] <= 64)
        & (two(it[25], it[26]) != 0xFFFF)
        & (two(it[27], it[28]) != 0xFFFF)
        & style(it);
    good.then_some(behind).ok_or(0xFF)
}

fn style(it: &[u8; 30]) -> bool {
    let four = |place: usize| u32::from_le_bytes([it[place], it[place + 1], it[place + 2], it[place + 3]]);
    let (minimum, maximum, offset, scale) = (four(6), four(10), four(14), four(18));
    let (decimals, unit) = (it[22], two(it[23], it[24]));
    // "Style 00: minimum, maximum, offset, scale, decimals and unit are all one bits."
    let limits = minimum & maximum == u32::MAX;
    let nothing = limits & (offset & scale == u32::MAX) & (decimals == 0xFF) & (unit == 0xFFFF);
    // "Styles 01 and 10: scale finite and above zero, decimals at most 7, unit not FFFF."
    let scale = f32::from_bits(scale);
    let shown = (scale > 0.0) & (scale < f32::INFINITY) & (decimals <= 7) & (unit != 0xFFFF);
    // "Style 01: minimum and maximum are all one bits." "Style 10: minimum at most maximum."
    (it[5] == 0) & nothing | (it[5] == 1) & shown & limits | (it[5] == 2) & shown & (minimum <= maximum)
}

/// "base 27 + N + M + 2·O bytes (labels N and M, O functions)".
fn base(rest: &[u8], number: u16) -> Result<&[u8], u8> {
    let it: &[u8; 27] = fixed(rest)?;
    // "for a base, N of 0 or above 63, code 09, then M so, 0B;"
    if !(1..=63).contains(&it[24]) {
        return Err(0x09);
    }
    if !(1..=63).contains(&it[25]) {
        return Err(0x0B);
    }
    let behind = behind(rest, 27 + usize::from(it[24]) + usize::from(it[25]) + 2 * usize::from(it[26]))?;
    // "base number 0", "version 0 to 2; O at least 1", "names and pictures not FFFF".
    let good = number == 0 && it[3] <= 2 && it[26] >= 1 && two(it[20], it[21]) != 0xFFFF && two(it[22], it[23]) != 0xFFFF;
    good.then_some(behind).ok_or(0xFF)
}

// Stage two: the base and the lists.

const ALLOWED: [bool; 256] = {
    let mut allowed = [false; 256];
    let mut character = 0x20;
    while character <= 0xFF {
        allowed[character] =
            !matches!(character as u8, 0x7F..=0x9F | b'\\' | b'"' | b'\'' | b'`' | b'/' | b':' | b'*' | b'<' | b'>' | b'|' | b'?');
        character += 1;
    }
    allowed
};

fn judge_base(base: &[u8]) -> Result<(), Fault> {
    // "version not 2, 0C;"
    if base[3] != 2 {
        return Err((0x0C, 0x0000));
    }
    // "a version label byte outside 20–7E and A0–FF or one of the eleven characters that A.3 forbids, 0A;"
    if !version_label(base).iter().all(|&character| ALLOWED[usize::from(character)]) {
        return Err((0x0A, 0x0000));
    }
    Ok(())
}

fn version_label(base: &[u8]) -> &[u8] {
    &base[27..][..usize::from(base[24])]
}

fn configuration_label(base: &[u8]) -> &[u8] {
    &base[27 + usize::from(base[24])..][..usize::from(base[25])]
}

fn numbers(list: &[u8]) -> impl Iterator<Item = u16> + '_ {
    list.chunks_exact(2).map(|entry| two(entry[0], entry[1]))
}

fn functions_of(base: &[u8]) -> impl Iterator<Item = u16> + '_ {
    let labels = usize::from(base[24]) + usize::from(base[25]);
    numbers(&base[27 + labels..][..2 * usize::from(base[26])])
}

fn states_of(function: &[u8]) -> impl Iterator<Item = u16> + '_ {
    numbers(&function[30..][..2 * usize::from(function[29])])
}

// What an attach keeps of the base.

fn keep_base(base: &[u8], kept: &mut Profile) {
    let eight = |place: usize| u64::from_le_bytes(base[place..place + 8].try_into().unwrap_or_default());
    (kept.master, kept.mask) = (eight(4), eight(12));
    (kept.version, kept.configuration) = (label(version_label(base)), label(configuration_label(base)));
}

fn label(bytes: &[u8]) -> Label {
    let mut label = Label { length: bytes.len() as u8, ..NO_LABEL };
    label.bytes[..bytes.len()].copy_from_slice(bytes);
    label
}
