//! The rounds of a run: which pools it tries.

use super::faults::{self, Edit};
use super::generate::{label_allows, Pool, Random, Shape, FULL};
use super::run::{contests_wanted, Run, CODES};
use super::{cases, text};

/// A legal pool that is to be edited has at most so many bytes, so that it can grow.
const EDITABLE: usize = 12_000;
/// A legal pool that is to be filled up has at most so many, so that it can be filled up exactly.
const FILLABLE: usize = FULL - 64;

/// The cases of document 01 and of its decided open points.
pub fn fixed(run: &mut Run) {
    for case in cases::fixed() {
        let verdict = run.judge(case.name, &case.pool);
        if verdict != case.verdict {
            run.stop(case.name, &case.pool, &format!("{}, meant was {}", text(verdict), text(case.verdict)));
        }
    }
}

/// Each byte as the only, the first and the last one of a version label.
pub fn every_label_character(run: &mut Run) {
    let mut random = Random::new(run.seed);
    for character in 0x00..=0xFF {
        let code = if label_allows(character) { 0x00 } else { 0x0A };
        for (length, place) in [(1, 0), (63, 0), (63, 62)] {
            let mut pool = Pool::least(&mut random);
            pool.base().version_label = vec![b'x'; length];
            pool.base().version_label[place] = character;
            run.judge_as(code, "version label", &pool.bytes());
        }
    }
}

/// Small pools cut at every place, what is cut off standing behind.
pub fn every_cut(run: &mut Run) {
    let mut random = Random::new(run.seed);
    let shape = Shape { functions: 2, states: 3, shortest: 1, longest: 3, unlisted: 1 };
    for _ in 0..4 {
        for pool in [Pool::least(&mut random), Pool::legal(&mut random, shape, FULL)] {
            let bytes = pool.bytes();
            for length in 0..=bytes.len() {
                run.judge_first(length, "cut", &bytes);
            }
        }
    }
}

/// Pools that are legal but for their size, on both sides of 16,384 bytes.
pub fn every_size(run: &mut Run) {
    let mut random = Random::new(run.seed);
    for size in FULL - 8..=FULL + 8 {
        let mut pool = any_legal(&mut random, EDITABLE);
        pool.pad(&mut random, size, 30);
        let bytes = pool.bytes();
        let code = if size <= FULL { 0x00 } else { 0xFF };
        assert_eq!(bytes.len(), size);
        run.judge_as(code, "size", &bytes);
    }
}

/// Each edit of a legal pool some times.
pub fn every_edit(run: &mut Run) {
    let mut random = Random::new(run.seed);
    for edit in faults::edits() {
        for _ in 0..8 {
            one_edit(run, edit, &mut random);
        }
    }
}

/// Each two codes of which one must come before the other, and each code with itself, some times.
pub fn every_contest(run: &mut Run) {
    let mut random = Random::new(run.seed);
    let same = CODES[1..].iter().map(|&code| (code, code));
    for (one, other) in contests_wanted().into_iter().chain(same) {
        for _ in 0..16 {
            let (one, other) = (faults::edit_giving(one, &mut random), faults::edit_giving(other, &mut random));
            two_edits(run, one, other, &mut random);
            two_edits(run, other, one, &mut random);
        }
    }
}

/// Until `count` pools were tried.
pub fn by_chance(run: &mut Run, count: u64) {
    let mut random = Random::new(run.seed);
    while run.pools < count {
        match random.below(16) {
            0..=2 => legal(run, &mut random),
            3..=5 => {
                let code = random.pick(&CODES);
                one_edit(run, faults::edit_giving(code, &mut random), &mut random);
            }
            6..=10 => two_edits(run, any_fault(&mut random), any_fault(&mut random), &mut random),
            11 => many_edits(run, &mut random),
            12 | 13 => altered(run, &mut random),
            14 => cut(run, &mut random),
            _ => formless(run, &mut random),
        }
    }
}

fn any_fault(random: &mut Random) -> Edit {
    let code = random.pick(&CODES[1..]);
    faults::edit_giving(code, random)
}

fn any_legal(random: &mut Random, limit: usize) -> Pool {
    let shape = any_shape(random);
    Pool::legal(random, shape, limit)
}

/// A small one mostly.
fn any_shape(random: &mut Random) -> Shape {
    let (functions, states, shortest, longest, unlisted) = match random.below(24) {
        0 => (1, 0, 0, 0, 0),
        1 => (random.between(200, 255), random.between(0, 40), 0, 12, 20),
        2 => (random.between(60, 80), random.between(64, 90), 60, 64, 10),
        3 | 4 => (random.between(1, 20), random.between(0, 100), 0, 64, 10),
        5 => (random.between(1, 4), random.between(64, 70), 0, 64, 3),
        _ => (random.between(1, 4), random.between(0, 8), 0, 8, random.between(0, 4)),
    };
    let (functions, states, unlisted) = (functions as usize, states as usize, unlisted as usize);
    Shape { functions, states, shortest, longest, unlisted }
}

/// Now and then, exactly 16,384 bytes.
fn fill_sometimes(pool: &mut Pool, random: &mut Random) {
    if random.once_in(16) {
        let functions_in = random.pick(&[0, 2, 30]);
        pool.pad(random, FULL - pool.tail.len(), functions_in);
    }
}

fn legal(run: &mut Run, random: &mut Random) {
    let mut pool = if random.once_in(8) { Pool::least(random) } else { any_legal(random, FILLABLE) };
    fill_sometimes(&mut pool, random);
    run.judge_as(0x00, "legal", &pool.bytes());
}

fn one_edit(run: &mut Run, edit: Edit, random: &mut Random) {
    let mut pool = any_legal(random, EDITABLE);
    (edit.apply)(&mut pool, random);
    fill_sometimes(&mut pool, random);
    match edit.code {
        Some(code) => run.judge_as(code, edit.name, &pool.bytes()),
        None => run.judge(edit.name, &pool.bytes()),
    };
}

/// One fault, another one, and both in one pool.
fn two_edits(run: &mut Run, one: Edit, other: Edit, random: &mut Random) {
    let legal = any_legal(random, EDITABLE);
    let (seed, other_seed) = (random.number(), random.number());
    let edited = |pool: &Pool, edit: Edit, seed: u64| {
        let mut pool = pool.clone();
        (edit.apply)(&mut pool, &mut Random::new(seed));
        pool
    };
    let first = edited(&legal, one, seed);
    let second = edited(&legal, other, other_seed);
    let mut both = edited(&first, other, other_seed);
    fill_sometimes(&mut both, random);

    let alone = run.judge(one.name, &first.bytes());
    let other_alone = run.judge(other.name, &second.bytes());
    let together = run.judge(&format!("{}, {}", one.name, other.name), &both.bytes());
    run.contest(alone, other_alone, together);
}

fn many_edits(run: &mut Run, random: &mut Random) {
    let mut pool = any_legal(random, EDITABLE);
    for _ in 0..3 + random.below(3) {
        (any_fault(random).apply)(&mut pool, random);
    }
    run.judge("many edits", &pool.bytes());
}

fn altered(run: &mut Run, random: &mut Random) {
    let mut pool = any_legal(random, FILLABLE);
    fill_sometimes(&mut pool, random);
    let mut bytes = pool.bytes();
    faults::alter(&mut bytes, random);
    run.judge("altered", &bytes);
}

fn cut(run: &mut Run, random: &mut Random) {
    let mut pool = any_legal(random, FILLABLE);
    fill_sometimes(&mut pool, random);
    let bytes = pool.bytes();
    run.judge_first(random.below(bytes.len()), "cut", &bytes);
}

fn formless(run: &mut Run, random: &mut Random) {
    if random.once_in(4) {
        run.judge_as(0xFF, "too long", &faults::too_long(random));
    } else {
        run.judge("bytes by chance", &faults::noise(random));
    }
}
