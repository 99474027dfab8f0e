//! The layout: the table that include/scm.h asserts, against the structs of tests/library.rs field by field, and against the library: each field is
//! seen to be where the table says, by a call that reads it or writes it while all other bytes are others.

mod events;
mod values;

use crate::library::{self, Master, Plain, Row};
use std::collections::BTreeSet;

/// A field of the master that has no fields of its own: its name, where it stands, its bytes, and the rows of the table on the way to it.
struct Leaf {
    name: String,
    at: usize,
    bytes: usize,
    rows: Vec<(&'static str, &'static str)>,
}

/// The rows of the table that a call was seen to agree with.
pub struct Seen {
    leaves: Vec<Leaf>,
    rows: BTreeSet<(&'static str, &'static str)>,
    calls: u64,
}

pub fn run(arguments: &[&str]) {
    if !arguments.is_empty() {
        crate::wrong_usage();
    }
    let rows = library::layout();
    table(&rows);
    let mut seen = Seen { leaves: Vec::new(), rows: BTreeSet::new(), calls: 0 };
    let master = rows.iter().find(|row| row.structure == "scm_master" && row.field.is_empty()).unwrap();
    leaves(&rows, &Row { at: 0, ..master.clone() }, &Leaf::root(), &mut seen.leaves);
    values::all(&mut seen);
    events::all(&mut seen);
    let unseen: Vec<String> = rows.iter().filter(|row| !seen.has(row)).map(|row| format!("{}.{}", row.structure, row.field)).collect();
    if !unseen.is_empty() {
        fail(&format!("no call shows where these stand: {}", unseen.join(", ")));
    }
    let fields = rows.iter().filter(|row| !row.field.is_empty()).count();
    println!("layout: {} structs, {fields} fields as in the header, each seen in the library by {} calls", rows.len() - fields, seen.calls);
}

fn fail(why: &str) -> ! {
    crate::fail("layout", why)
}

/// The header's table and the structs here have the same rows.
fn table(rows: &[Row]) {
    let header: BTreeSet<_> = library::header_layout().into_iter().collect();
    let here: BTreeSet<_> = rows.iter().map(|row| (row.structure.to_string(), row.field.to_string(), row.at)).collect();
    if header != here || header.len() != rows.len() {
        let (one, other): (Vec<_>, Vec<_>) = (header.difference(&here).collect(), here.difference(&header).collect());
        fail(&format!("the header has {one:?}, the structs here have {other:?}"));
    }
}

/// The leaves of a field: of each element where it is an array of structs, of each field where it is a struct.
fn leaves(rows: &[Row], row: &Row, above: &Leaf, into: &mut Vec<Leaf>) {
    let element = row.kind.trim_start_matches('[').split(';').next().unwrap().trim();
    let structure = match rows.iter().find(|row| row.field.is_empty() && row.kind == element) {
        Some(structure) => structure,
        None => return into.push(above.down(row, String::new(), 0)),
    };
    let count = row.bytes / structure.bytes;
    for i in 0..count {
        let index = if count > 1 { format!("[{i}]") } else { String::new() };
        let element = above.down(row, index, i * structure.bytes);
        for field in rows.iter().filter(|field| field.structure == structure.structure && !field.field.is_empty()) {
            leaves(rows, field, &element, into);
        }
    }
}

impl Leaf {
    fn root() -> Leaf {
        Leaf { name: String::new(), at: 0, bytes: 0, rows: Vec::new() }
    }

    /// This field of the struct that stands here, or an element of it.
    fn down(&self, row: &Row, index: String, further: usize) -> Leaf {
        let mut rows = self.rows.clone();
        rows.push((row.structure, row.field));
        let name = if self.name.is_empty() { format!("{}{index}", row.field) } else { format!("{}.{}{index}", self.name, row.field) };
        Leaf { name, at: self.at + row.at + further, bytes: row.bytes, rows }
    }
}

impl Seen {
    /// A struct's size shows where a call gives it whole; it counts with its last field.
    fn has(&self, row: &Row) -> bool {
        row.field.is_empty() || self.rows.contains(&(row.structure, row.field))
    }

    /// A call gave what these fields must give.
    pub fn gives<T: PartialEq + std::fmt::Debug>(&mut self, what: &str, given: T, wanted: T, rows: &[(&'static str, &[&'static str])]) {
        self.calls += 1;
        if given != wanted {
            fail(&format!("{what}: the library gives {given:?}, wanted is {wanted:?}"));
        }
        for (structure, fields) in rows {
            self.rows.extend(fields.iter().map(|field| (*structure, *field)));
        }
    }

    /// A call changed exactly the fields in which `wanted` differs from `before`, to what they are there.
    pub fn changes(&mut self, what: &str, before: &Master, given: &Master, wanted: &Master) {
        self.calls += 1;
        for leaf in &self.leaves {
            let [old, new, meant] = [before, given, wanted].map(|master| master.field(leaf.at, leaf.bytes));
            if new != meant {
                fail(&format!("{what}: field {} is {new:02X?}, wanted is {meant:02X?}", leaf.name));
            }
            if new != old {
                self.rows.extend(leaf.rows.iter().skip(1));
            }
        }
    }
}
