//! Rows of the report: a call of the library beside the same of the model.

use crate::fail;
use crate::library::Master;
use crate::moved;
use crate::stack;
use crate::times::{hide, least, Call};
use std::mem::size_of;
use std::rc::Rc;

/// A call of include/scm.h in one case. The caller's frame holds so many bytes of structs that are handed over and given
/// back. Both sides give the same number.
pub struct Row {
    pub call: &'static str,
    pub case: &'static str,
    pub on_master: bool,
    structs: usize,
    library: Box<Call>,
    model: Box<Call>,
}

impl Row {
    pub fn name(&self) -> String {
        [self.call, self.case].join(if self.case.is_empty() { "" } else { ", " })
    }
}

/// What is given is made once, and is not part of the times.
pub fn row<T: 'static>(name: (&'static str, &'static str), structs: usize, given: T, library: fn(&T) -> u64, model: fn(&T) -> u64) -> Row {
    let given = Rc::new(given);
    let same = Rc::clone(&given);
    let library = Box::new(move || library(hide(&*given)));
    let model = Box::new(move || model(hide(&*same)));
    Row { call: name.0, case: name.1, on_master: structs >= size_of::<Master>(), structs, library, model }
}

/// Fails where library and model differ.
pub fn compare(row: &mut Row) {
    let (library, model) = ((row.library)(), (row.model)());
    if library != model {
        fail(&format!("{}: the library gives {library:X}, the model {model:X}", row.name()));
    }
}

/// Nanoseconds of the library's call and of the model's.
pub struct Times {
    pub library: f64,
    pub model: f64,
}

/// Measures and prints the times.
pub fn times(rows: &mut [Row]) -> Vec<Times> {
    println!("{:20} {:38} {:>10} {:>10} {:>7}", "call", "", "library µs", "model µs", "ratio");
    rows.iter_mut().map(times_of).collect()
}

fn times_of(row: &mut Row) -> Times {
    let times = least(&mut [&mut *row.library, &mut *row.model]);
    let (library, model) = (times[0], times[1]);
    println!("{:20} {:38} {:10.3} {:10.3} {:7.2}", row.call, row.case, library / 1_000.0, model / 1_000.0, library / model);
    Times { library, model }
}

/// Bytes that a call moves, in copies of a master to one digit, and its bytes of stack with its structs.
pub struct Bytes {
    pub copies: f64,
    pub stack: usize,
}

/// Counts and prints the bytes. Threads are started here, which makes emulators slower: this comes after all times.
pub fn bytes(rows: &mut [Row]) -> Vec<Bytes> {
    println!("{:20} {:38} {:>7} {:>12} {:>17}", "call", "", "copies", "stack bytes", "with its structs");
    rows.iter_mut().map(bytes_of).collect()
}

fn bytes_of(row: &mut Row) -> Bytes {
    moved::taken();
    (row.library)();
    let copies = (10.0 * moved::taken() as f64 / size_of::<Master>() as f64).round() / 10.0;
    let own = stack::bytes(&mut *row.library);
    let stack = own + row.structs;
    println!("{:20} {:38} {copies:7.1} {own:12} {stack:17}", row.call, row.case);
    Bytes { copies, stack }
}
