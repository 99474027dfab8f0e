//! The structs that a call takes or gives by value: each field with bytes of its own, as the tables of ISO 11783-14 place them in a pool or a message.

use super::Seen;
use crate::library::{self, Capability, Label, Message, MessageStep, Object, Profile, NO_MESSAGE, NO_PROFILE};
use crate::pool::generate::{Pool, Random, Shape, FULL};

/// A listed state that is absent.
const ABSENT: u16 = 0x1234;

pub fn all(seen: &mut Seen) {
    verdicts(seen);
    objects(seen);
    profiles(seen);
    for sample in messages() {
        one_message(seen, &sample);
    }
    shown(seen);
}

fn pair(number: u16) -> [u8; 2] {
    number.to_le_bytes()
}

/// Table A.1, all of it as long as can be; its list says these numbers.
fn base(list: &[u16]) -> Vec<u8> {
    let mut bytes = vec![0x00, 0x00, 0x00, 0x02];
    bytes.extend(0x1716_1514_1312_1110u64.to_le_bytes());
    bytes.extend(0x2726_2524_2322_2120u64.to_le_bytes());
    bytes.extend([pair(0x3130), pair(0x3332)].concat());
    bytes.extend([63, 62, list.len() as u8]);
    bytes.extend((0..63).map(|i| 0xA0 + i));
    bytes.extend((0..62).map(|i| 0x41 + i));
    bytes.extend(list.iter().flat_map(|&number| pair(number)));
    bytes
}

/// Table A.2, style 10.
fn function(list: &[u16]) -> Vec<u8> {
    let mut bytes = [pair(0x0201), pair(0x0501)].concat();
    bytes.extend([2, 2]);
    bytes.extend([0x4342_4140u32, 0x5352_5150, 0x6362_6160, 0x3DCC_CCCD].map(u32::to_le_bytes).concat());
    bytes.push(7);
    bytes.extend([pair(0x7170), pair(0x7372), pair(0x7574)].concat());
    bytes.push(list.len() as u8);
    bytes.extend(list.iter().flat_map(|&number| pair(number)));
    bytes
}

fn refused_pool() -> Vec<u8> {
    [base(&[0x0201]), function(&[ABSENT])].concat()
}

/// 04, naming the absent state: by the check, by the rewriting, by an attachment; and an accepted pool.
fn verdicts(seen: &mut Seen) {
    let pool = refused_pool();
    let verdict = library::pool_check(&pool);
    seen.gives("check", (verdict.code, verdict.object), (4, ABSENT), &[("scm_verdict", &["code", "object"])]);
    let mut out = vec![0; pool.len()];
    let rewritten = library::pool_rewrite(&pool, &mut out);
    let given = (rewritten.number, rewritten.code, rewritten.object);
    seen.gives("rewriting", given, (6, 4, ABSENT), &[("scm_rewritten", &["number", "code", "object"])]);
    let mut ready = library::new();
    ready.state = 1;
    let outcome = library::value::attach(&ready, 0, 1, &pool);
    let given = (outcome.number, outcome.code, outcome.object, outcome.count);
    seen.gives("attachment", given, (6, 4, ABSENT, 0), &[("scm_outcome", &["number", "code", "object"])]);
    seen.gives("attachment", outcome.master, ready, &[("scm_outcome", &["master"])]);
}

const NO_OBJECT: Object = Object {
    kind: 0,
    place: 0,
    next: 0,
    number: 0,
    standard: 0,
    master: 0,
    mask: 0,
    name: 0,
    picture: 0,
    function: 0,
    trigger: 0,
    attribute: 0,
    minimum: 0,
    maximum: 0,
    offset: 0,
    scale: 0,
    decimals: 0,
    unit: 0,
    state: 0,
    n: 0,
    m: 0,
    count: 0,
    version: [0; 63],
    configuration: [0; 63],
    list: [0; 255],
};

/// A base, a function and a state in a row, each at its place.
fn objects(seen: &mut Seen) {
    let list: Vec<u16> = (0..255).map(|i| 0x8000 + 0x0101 * (i % 127) + i).collect();
    let (first, second) = (base(&list), function(&list[..64]));
    let state = [pair(0x8382), pair(0x3F02), pair(0x8584), pair(0x8786)].concat();
    let pool = [&first[..], &second, &state].concat();
    let mut wanted = Object { next: first.len(), standard: 2, name: 0x3130, picture: 0x3332, ..NO_OBJECT };
    (wanted.master, wanted.mask) = (0x1716_1514_1312_1110, 0x2726_2524_2322_2120);
    (wanted.n, wanted.m, wanted.count) = (63, 62, 255);
    wanted.version.iter_mut().zip(0xA0..).for_each(|(cell, byte)| *cell = byte);
    wanted.configuration[..62].iter_mut().zip(0x41..).for_each(|(cell, byte)| *cell = byte);
    wanted.list.copy_from_slice(&list);
    let fields = &["kind", "next", "standard", "master", "mask", "name", "picture", "n", "m", "count", "version", "configuration", "list"];
    seen.gives("base", library::object_at(&pool, 0), wanted, &[("scm_object", fields)]);
    written(seen, "base", &wanted, &first);

    let (place, next) = (first.len(), first.len() + second.len());
    let mut wanted = Object { kind: 1, place, next, number: 0x0201, name: 0x7372, picture: 0x7574, count: 64, ..NO_OBJECT };
    (wanted.function, wanted.trigger, wanted.attribute) = (5, 2, 2);
    (wanted.minimum, wanted.maximum, wanted.offset, wanted.scale) = (0x4342_4140, 0x5352_5150, 0x6362_6160, 0x3DCC_CCCD);
    (wanted.decimals, wanted.unit) = (7, 0x7170);
    wanted.list[..64].copy_from_slice(&list[..64]);
    let fields = &["place", "number", "function", "trigger", "attribute", "minimum", "maximum", "offset", "scale", "decimals", "unit"];
    seen.gives("function", library::object_at(&pool, place), wanted, &[("scm_object", fields)]);
    written(seen, "function", &wanted, &second);

    let (place, next) = (next, pool.len());
    let wanted = Object { kind: 2, place, next, number: 0x8382, state: 63, name: 0x8584, picture: 0x8786, ..NO_OBJECT };
    seen.gives("state", library::object_at(&pool, place), wanted, &[("scm_object", &["state"])]);
    written(seen, "state", &wanted, &state);
}

/// The same fields are read of it when it is written, by the wrapper and by value.
fn written(seen: &mut Seen, what: &str, object: &Object, bytes: &[u8]) {
    let place = 0x0107;
    let mut wanted = vec![0xEE; place];
    wanted.extend(bytes);
    let (mut out, mut by_value) = (vec![0xEE; wanted.len()], vec![0xEE; wanted.len()]);
    seen.gives(what, library::object_write(object, place, &mut out), (0, wanted.len()), &[]);
    seen.gives(what, &out, &wanted, &[]);
    let placed = library::value::object_write(object, place, &mut by_value);
    seen.gives(what, (placed.number, placed.next), (0, wanted.len()), &[("scm_placed", &["next"])]);
    seen.gives(what, &by_value, &wanted, &[]);
    let short = library::value::object_write(object, place + 1, &mut by_value);
    seen.gives(what, (short.number, short.next), (1, place + 1), &[("scm_placed", &["number"])]);
}

/// What is kept of a pool, as the pool was made.
fn profiles(seen: &mut Seen) {
    let mut random = Random::new(3);
    let shape = Shape { functions: 100, states: 64, shortest: 0, longest: 20, unlisted: 0 };
    for _ in 0..20 {
        let mut pool = Pool::legal(&mut random, shape, FULL);
        let mut wanted = NO_PROFILE;
        (wanted.master, wanted.mask) = (pool.base().master_name, pool.base().mask);
        wanted.version = label(&pool.base().version_label);
        wanted.configuration = label(&pool.base().configuration_label);
        for function in &pool.functions {
            let id = usize::from(function.function_id);
            wanted.trigger[id] = function.preferred_trigger;
            for number in &function.states {
                let state = pool.states.iter().find(|state| state.number == *number).unwrap();
                wanted.states[id] |= 1 << state.state_id;
            }
        }
        let given: Profile = library::profile_of(&pool.bytes());
        let fields = &["master", "mask", "version", "configuration", "trigger", "states"];
        seen.gives("profile", given, wanted, &[("scm_profile", fields), ("scm_label", &["length", "bytes"])]);
    }
}

fn label(bytes: &[u8]) -> Label {
    let mut label = Label { length: bytes.len() as u8, bytes: [0; 63] };
    label.bytes[..bytes.len()].copy_from_slice(bytes);
    label
}

type Rows = &'static [(&'static str, &'static [&'static str])];

/// A message, the side that sends it, its bytes by annexes C, D and E, and the fields that these bytes show.
struct Sample {
    side: u32,
    bytes: Vec<u8>,
    message: Message,
    rows: Rows,
}

const CAPABILITY: Rows = &[
    ("scm_message", &["kind", "capability"]),
    ("scm_capability", &["version", "width", "height", "characters", "colour", "size", "font", "style"]),
];
const RESPONSE: Rows = &[("scm_message", &["step"]), ("scm_message_step", &["function", "state", "status", "error", "tan"])];

fn messages() -> Vec<Sample> {
    let capability = Capability { version: 2, width: 0x31, height: 0x42, characters: 0x5453, colour: 0x65, size: 0x76, font: 0x87, style: 0x98 };
    let step = MessageStep { function: 0x21, state: 0x32, status: 0, error: 0, tan: 0x43, value: 0 };
    let response = MessageStep { status: 3, error: 6, ..step };
    let command = MessageStep { value: 0x5455_5657, ..step };
    let text: Vec<u8> = (0..63).map(|i| 0x80 + i).collect();
    let labelled = [&[0x01, 0x00, 63], &text[..]].concat();
    let sample = |side, bytes: &[u8], message, rows| Sample { side, bytes: bytes.to_vec(), message, rows };
    let [of_12, of_19]: [Rows; 2] = [&[("scm_message", &["code", "object"])], &[("scm_message", &["code", "reason"])]];
    vec![
        sample(1, &[0x90, 2, 0x31, 0x42, 0x53, 0x54, 0x65, 0x76, 0x87, 0x98], Message { kind: 2, capability, ..NO_MESSAGE }, CAPABILITY),
        sample(
            0,
            &[0x91, 0x24, 0x23, 0x22, 0x21, 0xFF, 0xFF, 0xFF],
            Message { kind: 3, memory: 0x2122_2324, ..NO_MESSAGE },
            &[("scm_message", &["memory"])],
        ),
        sample(1, &labelled, Message { kind: 6, label: label(&text), ..NO_MESSAGE }, &[("scm_message", &["label"])]),
        sample(1, &[0x04, 7, 0x22, 0x11, 0xFF, 0xFF, 0xFF, 0xFF], Message { kind: 12, code: 7, object: 0x1122, ..NO_MESSAGE }, of_12),
        sample(1, &[0x30, 1, 0xFF, 3, 0xFF, 0xFF, 0xFF, 0xFF], Message { kind: 19, code: 1, reason: 3, ..NO_MESSAGE }, of_19),
        sample(1, &[0x32, 0x21, 0xF2, 6, 0x43, 0xFF, 0xFF, 0xFF], Message { kind: 22, step: response, ..NO_MESSAGE }, RESPONSE),
        sample(
            1,
            &[0x33, 0x21, 0x32, 0x43, 0x57, 0x56, 0x55, 0x54],
            Message { kind: 23, step: command, ..NO_MESSAGE },
            &[("scm_message_step", &["value"])],
        ),
    ]
}

/// Read and written, by the wrappers and by value.
fn one_message(seen: &mut Seen, sample: &Sample) {
    let Sample { side, bytes, message, rows } = sample;
    let name = format!("message {}", message.kind);
    seen.gives(&name, library::message_read(*side, bytes), (0, *message), rows);
    let reading = library::value::message_read(*side, bytes);
    seen.gives(&name, (reading.number, reading.message), (0, *message), &[("scm_message_reading", &["message"])]);
    let refused = library::value::message_read(*side, &bytes[1..]);
    seen.gives(&name, (refused.number, refused.message), (4, NO_MESSAGE), &[("scm_message_reading", &["number"])]);
    let mut out = vec![0; bytes.len()];
    seen.gives(&name, library::message_write(message, &mut out), (0, bytes.len()), rows);
    seen.gives(&name, &out, bytes, rows);
    let short = library::value::message_write(message, &mut out[1..]);
    seen.gives(&name, (short.number, short.length), (1, 0), &[("scm_written", &["number"])]);
    let long = library::value::message_write(message, &mut out);
    seen.gives(&name, (long.number, long.length), (0, bytes.len()), &[("scm_written", &["length"])]);
}

fn shown(seen: &mut Seen) {
    for (scale, wanted) in [(0.5, (0, 1, 15.0)), (-1.0, (4, 0, 0.0))] {
        let value = library::value::shown(40, -10, scale);
        seen.gives("shown", (value.number, value.exact, value.value), wanted, &[("scm_shown_value", &["number", "exact", "value"])]);
    }
    for (room, wanted) in [(2, (1, 0)), (3, (0, 3))] {
        let written = library::value::shown_text(250, 0, 0.5, 0, &mut vec![0; room]);
        seen.gives("shown text", (written.number, written.length), wanted, &[("scm_written", &["number", "length"])]);
    }
}
