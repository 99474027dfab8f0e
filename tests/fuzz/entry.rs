//! The entry that an engine calls with each input, and what is done when something is found: the input is saved where FUZZ_FOUND says, and
//! the program ends with status 1.

use crate::coverage::Coverage;
use crate::decode::{Bytes, Play};
use crate::message;
use crate::pair::Pair;
use crate::pools::{self, Pools};
use crate::printed;
use crate::storing::{self, Known};
use std::cell::RefCell;
use std::fs::File;
use std::io::Write;
use std::os::unix::io::IntoRawFd;
use std::sync::atomic::{AtomicI32, AtomicPtr, AtomicU64, AtomicUsize, Ordering::Relaxed};

/// The first byte of an input, by six: on a master, on a master, a pool, a message, blocks, a shown value.
pub const MASTER: u8 = 0;
pub const POOL: u8 = 2;
pub const MESSAGE: u8 = 3;
pub const BLOCKS: u8 = 4;
pub const SHOWN: u8 = 5;

/// The input that is being done, and the file that takes it if something is found.
static INPUT: AtomicPtr<u8> = AtomicPtr::new(std::ptr::null_mut());
static LENGTH: AtomicUsize = AtomicUsize::new(0);
static FILE: AtomicI32 = AtomicI32::new(-1);
static EVENTS: AtomicU64 = AtomicU64::new(0);

/// Signals that end a program: a trap in the library, or the word to stop when it hangs.
const SIGNALS: [i32; 6] = [4, 6, 7, 8, 11, 15];

extern "C" {
    fn signal(number: i32, handler: extern "C" fn(i32)) -> usize;
    fn write(file: i32, bytes: *const u8, length: usize) -> isize;
    fn _exit(status: i32) -> !;
}

struct Harness {
    pair: Pair,
    pools: Pools,
    known: Known,
}

thread_local! {
    static HARNESS: RefCell<Harness> = RefCell::new(prepare());
}

fn prepare() -> Harness {
    if let Some(path) = std::env::var_os("FUZZ_FOUND") {
        FILE.store(File::create(path).map_or(-1, IntoRawFd::into_raw_fd), Relaxed);
    }
    for number in SIGNALS {
        // SAFETY: the handler calls nothing but `write` and `_exit`.
        unsafe { signal(number, stopped) };
    }
    std::panic::set_hook(Box::new(|panic| found(&format!("the harness or the model cannot go on: {panic}"))));
    Harness { pair: Pair::new(), pools: Pools::new(), known: Known::new() }
}

/// # Safety
/// `data` points to `length` bytes.
#[allow(non_snake_case)]
#[no_mangle]
pub unsafe extern "C" fn LLVMFuzzerTestOneInput(data: *const u8, length: usize) -> i32 {
    let input = if length == 0 { &[] } else { std::slice::from_raw_parts(data, length) };
    one_input(input);
    0
}

pub fn one_input(input: &[u8]) {
    HARNESS.with(|harness| {
        let harness = &mut *harness.borrow_mut();
        INPUT.store(input.as_ptr() as *mut u8, Relaxed);
        LENGTH.store(input.len(), Relaxed);
        let mut bytes = Bytes(input);
        match bytes.byte() % 6 {
            POOL => pools::judge(&harness.pools, &mut bytes),
            MESSAGE => message::judge(&mut bytes),
            BLOCKS => storing::judge(&mut harness.pair, &harness.known, &mut bytes),
            SHOWN => printed::judge(&mut bytes),
            _ => Play::new(&mut harness.pair, &harness.pools, &harness.known, bytes).run(),
        }
        LENGTH.store(0, Relaxed);
        EVENTS.store(harness.pair.events, Relaxed);
    });
}

/// Events done so far.
pub fn events() -> u64 {
    EVENTS.load(Relaxed)
}

/// The same; what is met is counted by name, and each event is printed if so wished.
pub fn replay(input: &[u8], print: bool) {
    HARNESS.with(|harness| {
        let pair = &mut harness.borrow_mut().pair;
        pair.print = print;
        pair.met.get_or_insert_with(Coverage::new);
    });
    one_input(input);
}

/// What the replayed inputs met of what tests/master demands, in numbers and by name what they did not.
pub fn met() -> (String, Vec<String>) {
    HARNESS.with(|harness| match &harness.borrow().pair.met {
        Some(met) => (met.summary(), met.missed().into_iter().map(String::from).collect()),
        None => (String::new(), Vec::new()),
    })
}

/// Something is wrong: says what, saves the input and ends.
pub fn found(why: &str) -> ! {
    println!("fuzz: {why}");
    let _ = std::io::stdout().flush();
    save_and_end()
}

fn save_and_end() -> ! {
    // SAFETY: the input is lent for as long as it is being done.
    unsafe {
        write(FILE.load(Relaxed), INPUT.load(Relaxed), LENGTH.load(Relaxed));
        _exit(1)
    }
}

extern "C" fn stopped(_signal: i32) {
    let why = b"fuzz: a signal ended it: the library trapped, or did not come back\n";
    // SAFETY: the bytes are those of the text.
    unsafe { write(1, why.as_ptr(), why.len()) };
    save_and_end()
}
