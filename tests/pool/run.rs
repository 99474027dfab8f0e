//! A run: the library held against the model, pool by pool, and what was met.

use super::generate::FULL;
use super::{dump, fail, model, text};
use std::collections::BTreeMap;

/// The codes that may be given. "Code 08 is never given".
pub const CODES: [u8; 13] = [0x00, 0x01, 0x02, 0x03, 0x04, 0x05, 0x06, 0x07, 0x09, 0x0A, 0x0B, 0x0C, 0xFF];
/// The codes of stage one: "the first fault wins", so each comes before each other, as the objects stand.
const STAGE_ONE: [u8; 4] = [0x01, 0x09, 0x0B, 0xFF];
/// The codes of stage two, but for 02, in their order.
const STAGE_TWO: [u8; 7] = [0x05, 0x0C, 0x0A, 0x03, 0x06, 0x04, 0x07];

/// How often each must be met, lest the run shows too little.
const LEAST_POOLS: u64 = 50;
const LEAST_WON: u64 = 20;
const LEAST_CONTESTS: u64 = 3;

pub struct Run {
    pub seed: u64,
    pub pools: u64,
    full: u64,
    codes: BTreeMap<u8, u64>,
    /// Of two faults in one pool, the code that was given and the other one.
    contests: BTreeMap<(u8, u8), u64>,
}

impl Run {
    pub fn new(seed: u64) -> Run {
        Run { seed, pools: 0, full: 0, codes: BTreeMap::new(), contests: BTreeMap::new() }
    }

    /// Holds the library against the model on one pool; gives the verdict.
    pub fn judge(&mut self, name: &str, pool: &[u8]) -> (u8, u16) {
        self.judge_first(pool.len(), name, pool)
    }

    /// The pool is only the first bytes of these; the rest stand behind it and mean nothing.
    pub fn judge_first(&mut self, length: usize, name: &str, bytes: &[u8]) -> (u8, u16) {
        let pool = &bytes[..length];
        let wanted = model::check(pool);
        let (given, unchanged) = library(bytes, length, self.pools as usize % 8);
        if given != wanted {
            self.stop(name, pool, &format!("the library gives {}, the model {}", text(given), text(wanted)));
        }
        if !unchanged {
            self.stop(name, pool, "the library changed bytes lent to it or beside them");
        }
        if !CODES.contains(&given.0) {
            self.stop(name, pool, &format!("code {:02X} is never given", given.0));
        }
        self.pools += 1;
        self.full += u64::from(length == FULL);
        *self.codes.entry(wanted.0).or_default() += 1;
        wanted
    }

    /// The same, where the code is known without the model.
    pub fn judge_as(&mut self, code: u8, name: &str, pool: &[u8]) -> (u8, u16) {
        let verdict = self.judge(name, pool);
        if verdict.0 != code {
            self.stop(name, pool, &format!("library and model give {}, meant was code {code:02X}", text(verdict)));
        }
        verdict
    }

    /// Two faults that alone give these verdicts, and what they give together.
    pub fn contest(&mut self, one: (u8, u16), other: (u8, u16), both: (u8, u16)) {
        if one == other {
            return;
        }
        if both.0 == one.0 {
            *self.contests.entry((one.0, other.0)).or_default() += 1;
        } else if both.0 == other.0 {
            *self.contests.entry((other.0, one.0)).or_default() += 1;
        }
    }

    pub fn stop(&self, name: &str, pool: &[u8], why: &str) -> ! {
        dump(pool);
        fail(&format!("seed {}, pool {} ({name}): {why}", self.seed, self.pools))
    }

    /// Prints what was met, and fails where it is too little.
    pub fn report(&self) {
        println!("code    pools  wins over another fault");
        for code in CODES {
            let (pools, won) = (self.codes.get(&code).copied().unwrap_or(0), self.won(code));
            println!("  {code:02X} {pools:8} {won:6}");
            if pools < LEAST_POOLS || (code != 0x00 && won < LEAST_WON) {
                fail(&format!("code {code:02X} is met too seldom"));
            }
        }
        for pair in contests_wanted() {
            if self.met(pair) < LEAST_CONTESTS {
                fail(&format!("{:02X} before {:02X} is met too seldom", pair.0, pair.1));
            }
        }
        println!("{} pools of exactly 16,384 bytes", self.full);
        if self.full < LEAST_POOLS {
            fail("16,384 bytes are met too seldom");
        }
        println!("pool: {} pools, 0 differences, every code met", self.pools);
    }

    fn met(&self, pair: (u8, u8)) -> u64 {
        self.contests.get(&pair).copied().unwrap_or(0)
    }

    /// How often this code came before another fault that it must come before, or that has the same code.
    fn won(&self, code: u8) -> u64 {
        let others = contests_wanted().into_iter().filter(|pair| pair.0 == code);
        others.chain([(code, code)]).map(|pair| self.met(pair)).sum()
    }
}

/// Codes of which the first must be seen to come before the second.
pub fn contests_wanted() -> Vec<(u8, u8)> {
    let mut pairs = vec![(0x01, 0x02), (0xFF, 0x02), (0x02, 0x05)];
    for one in STAGE_ONE {
        pairs.extend(STAGE_ONE.iter().filter(|&&other| other != one).map(|&other| (one, other)));
        pairs.extend(STAGE_TWO.iter().map(|&other| (one, other)));
    }
    for (place, &one) in STAGE_TWO.iter().enumerate() {
        pairs.extend(STAGE_TWO[place + 1..].iter().map(|&other| (one, other)));
    }
    pairs
}

/// The library's verdict, and whether memory is as it was. The pool stands in a buffer, with other bytes around it.
fn library(bytes: &[u8], length: usize, shift: usize) -> ((u8, u16), bool) {
    let around = [0x00, 0x01, 0x02, 0xFF][shift % 4];
    let mut buffer = vec![around; 32 + shift];
    let start = buffer.len();
    buffer.extend(bytes);
    buffer.extend([around; 32]);
    let before = buffer.clone();
    let verdict = crate::library::pool_check(&buffer[start..start + length]);
    ((verdict.code, verdict.object), buffer == before)
}
