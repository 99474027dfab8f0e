//! What a driver waits for at start-up: the check of full pools, what an attach keeps of them, and the attach, beside two plain
//! programs that do the same in the same run. One checks every pair for a number or an ID seen before (bench/pairwise.rs): on
//! each of the pools the library has to take less time than it. The other has sets of bits for it (bench/bitset.rs). Before,
//! all three are held to each other on these pools and on pools by chance. Without a limit stand beside them a pool written
//! again and one sent.

use crate::bitset::Bitset;
use crate::calls;
use crate::event::Event;
use crate::fail;
use crate::faults;
use crate::generate::{Pool, Random, Shape, FULL};
use crate::library::Profile;
use crate::master::{given, library_event};
use crate::pairwise::Pairwise;
use crate::plain::{Fault, Plain, Repeats};
use crate::start_pools::{cases, Case, Group, GOOD};
use crate::states::Pair;
use crate::times::{hide, least, Call};
use std::cell::RefCell;
use std::rc::Rc;

/// How often the library may look slower on a busy machine before it counts as that.
const TRIES: usize = 3;
/// Pools by chance, and the number that they are made from.
const BY_CHANCE: usize = 20_000;
const SEED: u64 = 14;

/// The two programs, with their arrays.
struct Programs {
    pairwise: Rc<RefCell<Box<Pairwise>>>,
    bitset: Rc<RefCell<Box<Bitset>>>,
}

/// The same call of all three.
struct Trio {
    shape: &'static str,
    fault: &'static str,
    group: Group,
    limited: bool,
    calls: [Box<Call>; 3],
}

/// Of a trio: nanoseconds of each.
type Times = [f64; 3];

/// Prints the tables; gives the pools on which the library does not take less time than the program that checks every pair.
pub fn report() -> Vec<String> {
    let programs = Programs { pairwise: Rc::new(RefCell::new(Pairwise::new())), bitset: Rc::new(RefCell::new(Bitset::new())) };
    let cases = cases();
    cases.iter().for_each(|case| compare_case(&programs, case));
    compare_by_chance(&programs);
    let good: Vec<&Case> = cases.iter().filter(|case| case.group == Group::Good).collect();
    let first: Vec<&Case> = good.iter().copied().filter(|case| case.fault == GOOD).collect();
    let tables = [
        ("scm_pool_check", cases.iter().map(|case| check(&programs, case)).collect()),
        ("scm_profile_of", good.iter().map(|case| profile(&programs, case)).collect()),
        ("scm_attach, beside what the programs keep of the pool", first.iter().map(|case| attach(&programs, case)).collect()),
        ("scm_pool_rewrite, beside the programs' check and a copy", first.iter().map(|case| rewrite(&programs, case)).collect()),
        ("scm_transfer_write, beside a plain copy, twice", vec![transfer(first[0])]),
    ];
    tables.into_iter().flat_map(|(call, trios)| table(call, trios)).collect()
}

fn table(call: &str, mut trios: Vec<Trio>) -> Vec<String> {
    println!("\n{call:72} {:>10} {:>11} {:>6} {:>10} {:>6}", "library µs", "pairwise µs", "ratio", "bits µs", "ratio");
    let times: Vec<Times> = trios.iter_mut().map(measured).collect();
    for (group, name) in [(Group::Good, "good pools"), (Group::StageTwo, "faults of stage two"), (Group::StageOne, "faults of stage one")] {
        let of: Vec<&Times> = trios.iter().zip(&times).filter(|(trio, _)| trio.group == group).map(|(_, times)| times).collect();
        summary(name, &of);
    }
    let slow = trios.iter().zip(&times).filter(|(trio, times)| trio.limited && times[0] >= times[1]);
    let name = |trio: &Trio| format!("{call}, {}, {}", trio.shape, trio.fault);
    slow.map(|(trio, times)| format!("{}: {:.2} times the time of checking every pair", name(trio), times[0] / times[1])).collect()
}

/// Measures until the library takes less time than the first program, but not for ever; prints the last times.
fn measured(trio: &mut Trio) -> Times {
    let mut times = [0.0; 3];
    for _ in 0..TRIES {
        let [library, pairwise, bitset] = &mut trio.calls;
        times.copy_from_slice(&least(&mut [&mut **library, &mut **pairwise, &mut **bitset]));
        if !trio.limited || times[0] < times[1] {
            break;
        }
    }
    let [library, pairwise, bitset] = times;
    let mark = if trio.limited && library >= pairwise { " SLOWER" } else { "" };
    let micro = times.map(|time| time / 1_000.0);
    print!("{:35} {:36} {:10.3} {:11.3} {:6.2}", trio.shape, trio.fault, micro[0], micro[1], library / pairwise);
    println!(" {:10.3} {:6.2}{mark}", micro[2], library / bitset);
    times
}

/// The worst ratios and their geometric means.
fn summary(name: &str, times: &[&Times]) {
    if times.is_empty() {
        return;
    }
    let of = |other: usize| {
        let ratios = times.iter().map(|times| times[0] / times[other]);
        let worst = ratios.clone().fold(0.0, f64::max);
        let mean = (ratios.map(f64::ln).sum::<f64>() / times.len() as f64).exp();
        format!("worst {worst:.2}, geometric mean {mean:.2}")
    };
    println!("{name}, library to pairwise: {}; to bits: {}", of(1), of(2));
}

// The calls.

fn told(fault: Fault) -> u64 {
    u64::from(fault.0) << 16 | u64::from(fault.1)
}

fn library_check(pool: &[u8]) -> Fault {
    let verdict = calls::pool_check(pool);
    (verdict.code, verdict.object)
}

/// Of what is kept, some.
fn some(kept: &Profile) -> u64 {
    kept.master ^ kept.mask ^ u64::from(kept.version.length) ^ kept.states[255]
}

fn trio(case: &Case, limited: bool, calls: [Box<Call>; 3]) -> Trio {
    Trio { shape: case.shape, fault: case.fault, group: case.group, limited, calls }
}

/// A call on a pool with one of the three, which is lent for it.
fn on<P: 'static>(pool: &Rc<Vec<u8>>, program: &Rc<RefCell<P>>, call: fn(&mut P, &[u8]) -> u64) -> Box<Call> {
    let (pool, program) = (Rc::clone(pool), Rc::clone(program));
    Box::new(move || call(&mut program.borrow_mut(), hide(&pool[..])))
}

fn check(programs: &Programs, case: &Case) -> Trio {
    let pool = Rc::new(case.pool.clone());
    let library = on(&pool, &Rc::new(RefCell::new(())), |_, pool| told(library_check(pool)));
    let pairwise = on(&pool, &programs.pairwise, |program, pool| told(program.check(pool)));
    let bitset = on(&pool, &programs.bitset, |program, pool| told(program.check(pool)));
    trio(case, true, [library, pairwise, bitset])
}

fn profiles(programs: &Programs, pool: &Rc<Vec<u8>>) -> [Box<Call>; 2] {
    let pairwise = on(pool, &programs.pairwise, |program, pool| some(hide(&program.profile_of(pool))));
    let bitset = on(pool, &programs.bitset, |program, pool| some(hide(&program.profile_of(pool))));
    [pairwise, bitset]
}

fn profile(programs: &Programs, case: &Case) -> Trio {
    let pool = Rc::new(case.pool.clone());
    let library = on(&pool, &Rc::new(RefCell::new(())), |_, pool| some(hide(&calls::profile_of(pool))));
    let [pairwise, bitset] = profiles(programs, &pool);
    trio(case, true, [library, pairwise, bitset])
}

/// The library also copies its master.
fn attach(programs: &Programs, case: &Case) -> Trio {
    let pool = Rc::new(case.pool.clone());
    let event = given(Pair::new().after(Event::On), Event::Attach { slot: 0, name: 0, pool: Rc::clone(&pool) });
    let library = Box::new(move || library_event(hide(&event)));
    let [pairwise, bitset] = profiles(programs, &pool);
    trio(case, true, [library, pairwise, bitset])
}

fn rewrite(programs: &Programs, case: &Case) -> Trio {
    let pool = Rc::new(case.pool.clone());
    let library = on(&pool, &Rc::new(RefCell::new(vec![0; FULL])), |out, pool| calls::pool_rewrite(pool, out).number.into());
    trio(case, false, [library, check_and_copy(&pool, &programs.pairwise), check_and_copy(&pool, &programs.bitset)])
}

fn check_and_copy<R: Repeats + 'static>(pool: &Rc<Vec<u8>>, program: &Rc<RefCell<Box<Plain<R>>>>) -> Box<Call> {
    let lent = Rc::new(RefCell::new((Rc::clone(program), vec![0; FULL])));
    on(pool, &lent, |(program, out), pool| {
        out.copy_from_slice(pool);
        told(program.borrow_mut().check(pool))
    })
}

/// A copy has no pairs and no sets.
fn transfer(case: &Case) -> Trio {
    let pool = Rc::new(case.pool.clone());
    let out = || Rc::new(RefCell::new(vec![0; FULL + 1]));
    let library = on(&pool, &out(), |out, pool| calls::write_transfer(pool, out).length as u64);
    let copy = || {
        on(&pool, &out(), |out, pool| {
            out[0] = 0x1F;
            out[1..].copy_from_slice(pool);
            out.len() as u64
        })
    };
    trio(case, false, [library, copy(), copy()])
}

// All three give the same.

fn compare_case(programs: &Programs, case: &Case) {
    let name = format!("{}, {}", case.shape, case.fault);
    let (code, object) = compare(programs, &name, &case.pool);
    if code != case.code {
        fail(&format!("{name}: {code:02X} {object:04X}, meant was code {:02X}", case.code));
    }
}

fn compare(programs: &Programs, name: &str, pool: &[u8]) -> Fault {
    let (mut pairwise, mut bitset) = (programs.pairwise.borrow_mut(), programs.bitset.borrow_mut());
    let (library, pairs, bits) = (library_check(pool), pairwise.check(pool), bitset.check(pool));
    if pairs != library || bits != library {
        fail(&format!("{name}: the library gives {library:02X?}, pairwise {pairs:02X?}, bitset {bits:02X?}: {pool:02X?}"));
    }
    let kept = calls::profile_of(pool);
    if pairwise.profile_of(pool) != kept || bitset.profile_of(pool) != kept {
        fail(&format!("{name}: what is kept differs: {pool:02X?}"));
    }
    library
}

/// Pools of every size and fault.
fn compare_by_chance(programs: &Programs) {
    let random = &mut Random::new(SEED);
    let mut codes = [0; 256];
    for place in 0..BY_CHANCE {
        let (code, _) = compare(programs, &format!("pool {place} by chance"), &by_chance(random));
        codes[usize::from(code)] += 1;
    }
    let met: Vec<String> = (0..256).filter(|&code| codes[code] > 0).map(|code| format!("{code:02X} {}", codes[code])).collect();
    println!("{BY_CHANCE} pools by chance, 0 differences; by code: {}", met.join(", "));
}

fn by_chance(random: &mut Random) -> Vec<u8> {
    match random.below(40) {
        0 => return faults::noise(random),
        1 => return faults::too_long(random),
        _ => (),
    }
    let large = random.once_in(8);
    let (functions, states) = if large { (1 + random.below(150), random.below(500)) } else { (1 + random.below(6), random.below(12)) };
    let shape = Shape { functions, states, shortest: 0, longest: random.below(65), unlisted: random.below(6) };
    let mut pool = Pool::legal(random, shape, 12_000);
    let edits = faults::edits();
    (0..random.below(4)).for_each(|_| (random.pick(&edits).apply)(&mut pool, random));
    if random.once_in(16) {
        pool.pad(random, FULL - pool.tail.len(), 30);
    }
    let mut bytes = pool.bytes();
    match random.below(8) {
        0 => faults::alter(&mut bytes, random),
        1 => bytes.truncate(random.below(bytes.len() + 1)),
        _ => (),
    }
    bytes
}
