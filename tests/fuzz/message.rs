//! The mode of messages: read, write and read back, held against the model of tests/message.

use crate::counters::{self, Row};
use crate::decode::Bytes;
use crate::entry::found;
use crate::library::{self, Message as Flat};
use crate::message_model::flat::flat;
use crate::message_model::model::{self, Field, Length, Message, CLAUSES};

/// The mode: bytes that a side sent, a message by its fields, or a transfer.
pub fn judge(bytes: &mut Bytes) {
    match bytes.byte() {
        0..=99 => {
            let side = [0, 1, 0, 1, 0, 1, 2, 256][usize::from(bytes.byte() % 8)];
            let (number, message) = read(side, bytes.rest());
            if number == 0 && message.kind != 9 {
                back(side, &message);
            }
        }
        100..=229 => by_fields(bytes),
        _ => transfer(bytes),
    }
}

fn read(side: u32, bytes: &[u8]) -> (u8, Flat) {
    let given = library::message_read(side, bytes);
    let (number, message) = model::read(side, bytes);
    let wanted = (number, flat(&message));
    if given != wanted {
        found(&format!("message read: the library gives {given:?}, the model {wanted:?}"));
    }
    counters::count(Row::Read, usize::from(given.1.kind) * 2 + (side % 2) as usize);
    given
}

/// "A message written and read back is the same message."
fn back(side: u32, message: &Flat) {
    let mut out = [0xA5; 80];
    let (number, length) = library::message_write(message, &mut out);
    if number != 0 || read(side, &out[..length]).1 != *message {
        found("message read, written and read back is not the same");
    }
}

/// Mostly a value that the field allows.
fn value(field: &Field, bytes: &mut Bytes) -> u64 {
    let choice = bytes.byte();
    let (low, high) = field.values[usize::from(choice) % field.values.len()];
    let any = if high > 0xFF { u64::from(bytes.long()) } else { u64::from(bytes.byte()) };
    let width = field.values.iter().map(|(_, high)| *high).max().unwrap_or(0);
    match choice {
        0..=223 => low + any % (high - low + 1),
        _ if width > 0xFFFF => any & 0xFFFF_FFFF,
        _ if width > 0xFF => any & 0xFFFF,
        _ => any & 0xFF,
    }
}

fn by_fields(bytes: &mut Bytes) {
    let kind = bytes.byte() % 28;
    let room = usize::from(bytes.byte()) % 90;
    let mut message = Message { kind, ..Message::none() };
    if let Some(clause) = CLAUSES.iter().find(|clause| clause.kind == kind) {
        for field in clause.fields.iter().filter(|field| field.name != "label") {
            message.fields.insert(field.name, value(field, bytes));
        }
        if clause.length == Length::Label {
            message.label_length = usize::from(bytes.byte());
            message.label = bytes.take(63.min(message.label_length)).to_vec();
            message.label.resize(63.min(message.label_length), b'x');
        }
    }
    let mut out = vec![0xA5; room];
    let written = library::message_write(&flat(&message), &mut out);
    compare(written, &out, model::write(&message, room));
    counters::count(Row::Written, usize::from(kind) * 8 + usize::from(written.0));
    if written.0 == 0 {
        let side = CLAUSES.iter().find(|clause| clause.kind == kind).map_or(0, |clause| clause.side);
        if read(side, &out[..written.1]).1 != flat(&message) {
            found("message written and read back is not the same");
        }
    }
}

fn transfer(bytes: &mut Bytes) {
    let (spare, repeated) = (usize::from(bytes.byte() % 4), usize::from(bytes.byte()));
    let pool = bytes.rest().repeat(if repeated > 250 { 16_384 / 8 } else { 1 });
    let pool = &pool[..pool.len().min(16_390)];
    let room = (pool.len() + spare).saturating_sub(1);
    let mut out = vec![0xA5; room];
    let written = library::transfer_write(pool, &mut out);
    compare(written, &out, model::write_transfer(pool, room));
    if written.0 == 0 && read(0, &out[..written.1]).1.kind != 9 {
        found("transfer written and read back is none");
    }
}

/// The bytes of the message at the head of the lent ones; the others stay.
fn compare(written: (u8, usize), out: &[u8], wanted: (u8, Vec<u8>)) {
    let mut wanted_out = vec![0xA5; out.len()];
    wanted_out[..wanted.1.len()].copy_from_slice(&wanted.1);
    if written != (wanted.0, wanted.1.len()) || out != &wanted_out[..] {
        found(&format!("message written: the library gives {} and {out:02X?}, the model {wanted:02X?}", written.0));
    }
}
