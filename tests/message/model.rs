//! A model of messages C.2 to C.5, D.2 to D.15 and E.2 to E.8, written from the rules of 01 and the tables of annexes C, D and E.
//!
//! Each clause is a row of a table: the side that sends it, its code, its bytes, and its fields with their place and the values they take.
//! Reading and writing go by the table; they know no message by name, but for the label of D.3 and D.5 and the pool of D.6.

use std::collections::BTreeMap;

/// Where a field stands, bytes counted from 1 as the annexes do, bits from 1 to 8.
#[derive(Clone, Copy)]
pub enum At {
    /// `Bytes(k, w)`: w bytes from byte k, least significant first.
    Bytes(usize, usize),
    /// `Bits(k, low, high)`: bits low to high of byte k.
    Bits(usize, u32, u32),
}

pub struct Field {
    pub name: &'static str,
    pub at: At,
    /// The ranges of values that the field allows, both ends within.
    pub values: &'static [(u64, u64)],
}

#[derive(Clone, Copy, PartialEq)]
pub enum Length {
    Is(usize),
    /// D.3, D.5.
    Label,
    /// D.6.
    Pool,
}

pub struct Clause {
    pub name: &'static str,
    pub kind: u8,
    pub side: u32,
    pub code: u8,
    pub length: Length,
    pub fields: &'static [Field],
}

const ANY8: &[(u64, u64)] = &[(0, 0xFF)];
const ANY16: &[(u64, u64)] = &[(0, 0xFFFF)];
const ANY32: &[(u64, u64)] = &[(0, 0xFFFF_FFFF)];
const BITS2: &[(u64, u64)] = &[(0, 3)];
const BITS6: &[(u64, u64)] = &[(0, 63)];

const fn byte(name: &'static str, k: usize, values: &'static [(u64, u64)]) -> Field {
    Field { name, at: At::Bytes(k, 1), values }
}
const fn wide(name: &'static str, k: usize, w: usize, values: &'static [(u64, u64)]) -> Field {
    Field { name, at: At::Bytes(k, w), values }
}
const fn bits(name: &'static str, k: usize, low: u32, high: u32, values: &'static [(u64, u64)]) -> Field {
    Field { name, at: At::Bits(k, low, high), values }
}

pub const CLIENT: u32 = 0;
pub const MASTER: u32 = 1;
use Length::*;

const fn request(name: &'static str, kind: u8, code: u8) -> Clause {
    Clause { name, kind, side: CLIENT, code, length: Is(8), fields: &[] }
}
const fn response(name: &'static str, kind: u8, code: u8, fields: &'static [Field]) -> Clause {
    Clause { name, kind, side: MASTER, code, length: Is(8), fields }
}

/// D.3 and D.5.
const LABELLED: &[Field] = &[byte("code", 2, &[(0x00, 0x01), (0xFF, 0xFF)]), bits("label", 3, 1, 6, BITS6)];

pub const CLAUSES: &[Clause] = &[
    Clause { name: "C.2", kind: 1, side: CLIENT, code: 0x90, length: Is(8), fields: &[byte("code", 2, &[(0x00, 0x02)])] },
    Clause {
        name: "C.3",
        kind: 2,
        side: MASTER,
        code: 0x90,
        length: Is(10),
        fields: &[
            byte("version", 2, &[(0x00, 0x02)]),
            byte("width", 3, &[(32, 255)]),
            byte("height", 4, &[(32, 255)]),
            wide("characters", 5, 2, &[(32, 0xFFFF)]),
            byte("colour", 7, ANY8),
            byte("size", 8, ANY8),
            byte("font", 9, ANY8),
            byte("style", 10, ANY8),
        ],
    },
    Clause { name: "C.4", kind: 3, side: CLIENT, code: 0x91, length: Is(8), fields: &[wide("memory", 2, 4, ANY32)] },
    response("C.5", 4, 0x91, &[byte("code", 2, &[(0x00, 0x01)])]),
    request("D.2", 5, 0x01),
    Clause { name: "D.3", kind: 6, side: MASTER, code: 0x01, length: Label, fields: LABELLED },
    request("D.4", 7, 0x02),
    Clause { name: "D.5", kind: 8, side: MASTER, code: 0x02, length: Label, fields: LABELLED },
    Clause { name: "D.6", kind: 9, side: CLIENT, code: 0x03, length: Pool, fields: &[] },
    response("D.7", 10, 0x03, &[byte("code", 2, &[(0x00, 0x01), (0xFF, 0xFF)])]),
    request("D.8", 11, 0x04),
    response("D.9", 12, 0x04, &[byte("code", 2, &[(0x00, 0x0C), (0xFF, 0xFF)]), wide("object", 3, 2, ANY16)]),
    Clause { name: "D.10", kind: 13, side: CLIENT, code: 0x05, length: Is(8), fields: &[byte("code", 2, &[(0x00, 0x01)])] },
    response("D.11", 14, 0x05, &[byte("code", 2, &[(0x00, 0x01), (0xFF, 0xFF)])]),
    request("D.12", 15, 0x06),
    response("D.13", 16, 0x06, &[byte("code", 2, &[(0x00, 0x02), (0xFF, 0xFF)])]),
    request("D.14", 17, 0x07),
    response("D.15", 18, 0x07, &[byte("code", 2, &[(0x00, 0x03), (0xFF, 0xFF)])]),
    response("E.2", 19, 0x30, &[byte("code", 2, &[(0x00, 0x01)]), byte("reason", 4, &[(0x01, 0x03), (0xFF, 0xFF)])]),
    Clause { name: "E.3", kind: 20, side: CLIENT, code: 0x31, length: Is(8), fields: &[byte("code", 4, &[(0x01, 0x03), (0xFF, 0xFF)])] },
    Clause {
        name: "E.4",
        kind: 21,
        side: CLIENT,
        code: 0x32,
        length: Is(8),
        fields: &[byte("function", 2, ANY8), bits("state", 3, 1, 6, BITS6), bits("status", 3, 7, 8, BITS2), byte("tan", 4, ANY8), wide("value", 5, 4, ANY32)],
    },
    Clause {
        name: "E.5",
        kind: 22,
        side: MASTER,
        code: 0x32,
        length: Is(8),
        fields: &[
            byte("function", 2, ANY8),
            bits("state", 3, 1, 6, BITS6),
            bits("status", 3, 7, 8, BITS2),
            byte("error", 4, &[(0x00, 0x06), (0xFF, 0xFF)]),
            byte("tan", 5, ANY8),
        ],
    },
    Clause {
        name: "E.6",
        kind: 23,
        side: MASTER,
        code: 0x33,
        length: Is(8),
        fields: &[byte("function", 2, ANY8), bits("state", 3, 1, 6, BITS6), byte("tan", 4, ANY8), wide("value", 5, 4, ANY32)],
    },
    Clause {
        name: "E.7",
        kind: 24,
        side: CLIENT,
        code: 0x34,
        length: Is(8),
        fields: &[
            byte("function", 2, ANY8),
            bits("state", 3, 1, 6, BITS6),
            bits("status", 3, 7, 8, BITS2),
            byte("error", 4, &[(0x00, 0x03), (0xFF, 0xFF)]),
            byte("tan", 5, ANY8),
        ],
    },
    Clause {
        name: "E.8",
        kind: 25,
        side: MASTER,
        code: 0x34,
        length: Is(8),
        fields: &[byte("function", 2, ANY8), bits("state", 3, 1, 6, BITS6), bits("status", 3, 7, 8, BITS2), byte("tan", 4, ANY8)],
    },
];

/// A message: its kind, 0 for none, the fields that its clause has, and the label beside it.
#[derive(Clone, PartialEq, Debug)]
pub struct Message {
    pub kind: u8,
    pub fields: BTreeMap<&'static str, u64>,
    /// The length that a label says it has, and its bytes.
    pub label_length: usize,
    pub label: Vec<u8>,
}

impl Message {
    pub fn none() -> Message {
        Message { kind: 0, fields: BTreeMap::new(), label_length: 0, label: Vec::new() }
    }
}

fn get(bytes: &[u8], at: At) -> u64 {
    match at {
        At::Bytes(k, w) => (0..w).fold(0, |n, i| n + (u64::from(bytes[k - 1 + i]) << (8 * i))),
        At::Bits(k, low, high) => (u64::from(bytes[k - 1]) >> (low - 1)) & ((1 << (high - low + 1)) - 1),
    }
}

fn allows(field: &Field, v: u64) -> bool {
    field.values.iter().any(|&(a, b)| a <= v && v <= b)
}

/// "without error the label has 1 to 63 bytes, with an error none, else 4"
fn label_allowed(error: u64, length: usize) -> bool {
    if error == 0 {
        (1..=63).contains(&length)
    } else {
        length == 0
    }
}

/// The number that a reading gives, and the message.
pub fn read(side: u32, bytes: &[u8]) -> (u8, Message) {
    let refused = (4, Message::none());
    if bytes.is_empty() {
        return refused;
    }
    let clause = match CLAUSES.iter().find(|c| c.side == side && c.code == bytes[0]) {
        Some(clause) => clause,
        None => return refused,
    };
    let mut label = Vec::new();
    match clause.length {
        Is(n) => {
            if bytes.len() != n {
                return refused;
            }
        }
        Pool => {
            if bytes.len() < 9 || bytes.len() > 16_385 {
                return refused;
            }
        }
        Label => {
            if bytes.len() < 8 {
                return refused;
            }
            let n = (bytes[2] & 0x3F) as usize;
            if bytes.len() != std::cmp::max(8, 3 + n) || !label_allowed(u64::from(bytes[1]), n) {
                return refused;
            }
            label = bytes[3..3 + n].to_vec();
        }
    }
    let mut fields = BTreeMap::new();
    for field in clause.fields {
        let v = get(bytes, field.at);
        if !allows(field, v) {
            return refused;
        }
        if field.name != "label" {
            fields.insert(field.name, v);
        }
    }
    (0, Message { kind: clause.kind, fields, label_length: label.len(), label })
}

/// The number that writing gives, and the bytes, into `room` bytes of lent output.
pub fn write(message: &Message, room: usize) -> (u8, Vec<u8>) {
    let clause = match CLAUSES.iter().find(|c| c.kind == message.kind) {
        Some(clause) => clause,
        None => return if room < 8 { (1, Vec::new()) } else { (4, Vec::new()) },
    };
    let length = match clause.length {
        Is(n) => n,
        Label => std::cmp::max(8, 3 + message.label_length),
        Pool => 1, // its code: the pool has a call of its own
    };
    if room < length {
        return (1, Vec::new());
    }
    if clause.length == Pool {
        return (4, Vec::new());
    }
    if clause.length == Label && !label_allowed(message.fields["code"], message.label_length) {
        return (4, Vec::new());
    }
    let mut out = vec![0xFF; length];
    out[0] = clause.code;
    for field in clause.fields {
        if field.name == "label" {
            out[2] = message.label_length as u8;
            out[3..3 + message.label_length].copy_from_slice(&message.label[..message.label_length]);
            continue;
        }
        let v = message.fields[field.name];
        if !allows(field, v) {
            return (4, Vec::new());
        }
        match field.at {
            At::Bytes(k, w) => {
                for i in 0..w {
                    out[k - 1 + i] = (v >> (8 * i)) as u8;
                }
            }
            // The first field of a byte clears its reserved bits.
            At::Bits(k, low, _) => {
                if low == 1 {
                    out[k - 1] = 0;
                }
                out[k - 1] |= (v << (low - 1)) as u8;
            }
        }
    }
    (0, out)
}

/// D.6. A pool longer than 16,384 bytes asks for the room of the longest transfer.
pub fn write_transfer(pool: &[u8], room: usize) -> (u8, Vec<u8>) {
    if room < 1 + std::cmp::min(pool.len(), 16_384) {
        return (1, Vec::new());
    }
    if pool.len() < 8 || pool.len() > 16_384 {
        return (4, Vec::new());
    }
    let mut out = vec![0x03];
    out.extend_from_slice(pool);
    (0, out)
}
