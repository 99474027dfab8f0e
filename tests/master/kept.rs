//! What the master keeps of an accepted pool: "Of an accepted pool the master keeps what its rules need". A plain
//! reading of the bytes by tables A.1 to A.3; places are counted from 0.

use super::check;

/// A listed function: its ID, its preferred trigger, and the IDs of the states that it lists.
#[derive(Clone, PartialEq, Debug)]
pub struct Function {
    pub id: u8,
    pub trigger: u8,
    pub states: Vec<u8>,
}

#[derive(Clone, PartialEq, Debug)]
pub struct Kept {
    pub master_name: u64,
    pub mask: u64,
    pub version_label: Vec<u8>,
    pub configuration_label: Vec<u8>,
    pub functions: Vec<Function>,
}

impl Kept {
    pub fn function(&self, id: u8) -> Option<&Function> {
        self.functions.iter().find(|function| function.id == id)
    }
}

/// What is kept of a pool, or the D.9 code and the object for which it is refused.
pub fn accept(pool: &[u8]) -> Result<Kept, (u8, u16)> {
    match check::check(pool) {
        (0x00, _) => Ok(read(pool)),
        fault => Err(fault),
    }
}

fn read(pool: &[u8]) -> Kept {
    let objects = objects(pool);
    let base = object(&objects, 0, 0);
    let (n, m) = (usize::from(base[24]), usize::from(base[25]));
    let functions = listed(&base[27 + n + m..]);
    Kept {
        master_name: eight_bytes(&base[4..12]),
        mask: eight_bytes(&base[12..20]),
        version_label: base[27..27 + n].to_vec(),
        configuration_label: base[27 + n..27 + n + m].to_vec(),
        functions: functions.into_iter().map(|number| function(&objects, number)).collect(),
    }
}

fn function(objects: &[&[u8]], number: u16) -> Function {
    let bytes = object(objects, 1, number);
    let states = listed(&bytes[30..]);
    Function {
        id: bytes[3],
        trigger: bytes[4],
        states: states.into_iter().map(|state| object(objects, 2, state)[3]).collect(),
    }
}

/// The objects of an accepted pool, each with its own bytes.
fn objects(pool: &[u8]) -> Vec<&[u8]> {
    let mut rest = pool;
    let mut found = Vec::new();
    while !rest.is_empty() {
        let length = match rest[2] {
            0 => 27 + usize::from(rest[24]) + usize::from(rest[25]) + 2 * usize::from(rest[26]),
            1 => 30 + 2 * usize::from(rest[29]),
            _ => 8,
        };
        found.push(&rest[..length]);
        rest = &rest[length..];
    }
    found
}

/// The object of a type and a number, which an accepted pool holds.
fn object<'a>(objects: &[&'a [u8]], kind: u8, number: u16) -> &'a [u8] {
    objects.iter().find(|bytes| bytes[2] == kind && two_bytes(bytes) == number).unwrap()
}

fn listed(bytes: &[u8]) -> Vec<u16> {
    bytes.chunks(2).map(two_bytes).collect()
}

fn two_bytes(bytes: &[u8]) -> u16 {
    u16::from_le_bytes([bytes[0], bytes[1]])
}

fn eight_bytes(bytes: &[u8]) -> u64 {
    bytes.iter().rev().fold(0, |number, &byte| number * 256 + u64::from(byte))
}
