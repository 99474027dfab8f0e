//! Objects of a pool, read and written, held against the model of tests/objects.

use crate::counters::{self, Row};
use crate::decode::Bytes;
use crate::entry::found;
use crate::library::{self, Object};
use crate::object_model as model;

/// So many objects of a pool are read.
const READ: usize = 12;
/// So many fields are edited.
const EDITS: usize = 6;

/// The first objects of any bytes, as far as they can be read.
pub fn read(pool: &[u8]) {
    let mut place = 0;
    for _ in 0..READ {
        place = at(pool, place).next;
    }
}

fn at(pool: &[u8], place: usize) -> Object {
    let (given, wanted) = (library::object_at(pool, place), model::object_at(pool, place));
    if given != wanted {
        found(&format!("object at {place}: the library gives {given:?}, the model {wanted:?}"));
    }
    given
}

/// One of the first objects of a pool: which, at which place, into how much room, and edits of its fields until the bytes end.
pub fn write(pool: &[u8], bytes: &mut Bytes) {
    let first = model::object_at(pool, 0);
    let last = (0..bytes.byte() % 16).fold(first, |object, _| model::object_at(pool, object.next));
    let mut object = if last.kind == 255 { first } else { last };
    let (place, room) = (bytes.byte(), bytes.byte());
    for _ in 0..EDITS {
        match bytes.next() {
            Some(field) => edit(&mut object, field, bytes.long()),
            None => break,
        }
    }
    let place = match place {
        0..=199 => usize::from(place),
        _ => usize::MAX - usize::from(place) + 200,
    };
    let enough = place.saturating_add(model::size(&object)).min(1_500);
    let room = match room {
        0..=127 => enough,
        128..=199 => enough.saturating_sub(1),
        _ => enough + usize::from(room) - 200,
    };
    hold(&object, place, room);
}

/// A field, a cell of a label or of the list, or its kind.
fn edit(it: &mut Object, field: u8, to: u32) {
    let (small, wide, far) = (to as u8, to as u16, (to >> 16) as usize);
    match field % 24 {
        0 => it.kind = small % 4,
        1 => it.number = wide,
        2 => it.standard = small,
        3 => it.master = u64::from(to) << 20,
        4 => it.mask = u64::from(to) << 20,
        5 => it.name = wide,
        6 => it.picture = wide,
        7 => it.function = small,
        8 => it.trigger = small,
        9 => it.attribute = small % 4,
        10 => it.minimum = to,
        11 => it.maximum = to,
        12 => it.offset = to,
        13 => it.scale = to,
        14 => it.decimals = small,
        15 => it.unit = wide,
        16 => it.state = small,
        17 => it.n = small,
        18 => it.m = small,
        19 => it.count = small,
        20 => it.version[far % 63] = small,
        21 => it.configuration[far % 63] = small,
        22 => it.list[far % 255] = wide,
        _ => it.next = to as usize,
    }
}

/// What is written is what the model writes, and reads back as the model reads it.
fn hold(object: &Object, place: usize, room: usize) {
    let (mut out, mut wanted_out) = (vec![0xA5; room], vec![0xA5; room]);
    let given = library::object_write(object, place, &mut out);
    let wanted = model::write(object, place, &mut wanted_out);
    if given != wanted || out != wanted_out {
        found(&format!("object written at {place} into {room} bytes: the library gives {given:?}, the model {wanted:?}, of {object:?}"));
    }
    counters::count(Row::Object, usize::from(object.kind.min(3)) * 8 + usize::from(given.0));
    if given.0 == 0 && at(&out, place).kind != object.kind {
        found(&format!("object written at {place} and read back is none: {object:?}"));
    }
}
