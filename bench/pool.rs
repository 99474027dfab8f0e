//! The calls that know no master: on pools, messages and values.

use crate::calls;
use crate::kept;
use crate::library::{self, Message, MessageReading, Object, Profile, Shown};
use crate::message;
use crate::objects;
use crate::pools;
use crate::rows::{row, Row};
use crate::{check, generate};
use std::cell::RefCell;
use std::mem::size_of;
use std::os::raw::{c_char, c_int};

/// How the cases of a full pool begin.
pub const FULL: &str = "16,384 bytes";

pub fn rows() -> Vec<Row> {
    let mut rows = checks();
    rows.extend(on_pools());
    rows.extend(messages());
    rows.extend(values());
    rows
}

fn checks() -> Vec<Row> {
    let pools = [
        ("61 bytes", pools::small()),
        ("40 functions of 8 states", pools::middle()),
        ("16,384 bytes, many states", pools::many_states()),
        ("16,384 bytes, many functions", pools::many_functions()),
        ("16,384 bytes, long lists", pools::long_lists()),
        ("long lists of alike numbers", pools::alike_numbers()),
    ];
    pools.into_iter().map(|(case, pool)| row(("scm_pool_check", case), 0, pool, library_check, model_check)).collect()
}

pub fn library_check(pool: &Vec<u8>) -> u64 {
    let verdict = calls::pool_check(pool);
    u64::from(verdict.code) << 16 | u64::from(verdict.object)
}

fn model_check(pool: &Vec<u8>) -> u64 {
    let (code, object) = check::check(pool);
    u64::from(code) << 16 | u64::from(object)
}

fn on_pools() -> Vec<Row> {
    let kept = |case, pool| row(("scm_profile_of", case), size_of::<Profile>(), pool, library_kept, model_kept);
    let object = |case, at| row(("scm_object_at", case), size_of::<Object>(), at, library_object, model_object);
    let rewrite = |case, pool| row(("scm_pool_rewrite", case), 0, lent(pool), library_rewrite, model_rewrite);
    let write = |case, at| row(("scm_object_write", case), size_of::<Object>(), to_write_object(at), library_place, model_place);
    vec![
        kept("61 bytes", pools::small()),
        kept("40 functions of 8 states", pools::middle()),
        kept("16,384 bytes, many functions", pools::many_functions()),
        kept("16,384 bytes, long lists", pools::long_lists()),
        kept("long lists of alike numbers", pools::alike_numbers()),
        object("a state", (pools::many_states(), generate::FULL - 8)),
        object("a base that lists 255 functions", base_first()),
        write("a state", (pools::many_states(), generate::FULL - 8)),
        write("a base that lists 255 functions", base_first()),
        rewrite("61 bytes", pools::small()),
        rewrite("16,384 bytes, many states", pools::many_states()),
        rewrite("16,384 bytes, long lists", pools::long_lists()),
    ]
}

fn library_kept(pool: &Vec<u8>) -> u64 {
    let profile = calls::profile_of(pool);
    profile.master ^ profile.mask ^ u64::from(profile.version.length)
}

fn model_kept(pool: &Vec<u8>) -> u64 {
    kept::accept(pool).map_or(0, |kept| kept.master_name ^ kept.mask ^ kept.version_label.len() as u64)
}

/// A pool that begins with its base, and the place of that.
fn base_first() -> (Vec<u8>, usize) {
    let mut pool = pools::shaped(255, 0, 0);
    pool.order = None;
    (pool.bytes(), 0)
}

fn library_object((pool, place): &(Vec<u8>, usize)) -> u64 {
    let object = calls::object_at(pool, *place);
    object.next as u64 + (u64::from(object.number) << 32) + (u64::from(object.kind) << 56)
}

fn model_object((pool, place): &(Vec<u8>, usize)) -> u64 {
    let object = objects::object_at(pool, *place);
    object.next as u64 + (u64::from(object.number) << 32) + (u64::from(object.kind) << 56)
}

/// An object, the place where it stood, and bytes to write it there.
type Placed = (Object, usize, RefCell<Vec<u8>>);

fn to_write_object((pool, place): (Vec<u8>, usize)) -> Placed {
    (objects::object_at(&pool, place), place, RefCell::new(vec![0; generate::FULL]))
}

fn library_place((object, place, out): &Placed) -> u64 {
    let placed = calls::write_object(object, *place, &mut out.borrow_mut());
    u64::from(placed.number) << 32 | placed.next as u64
}

fn model_place((object, place, out): &Placed) -> u64 {
    let (number, next) = objects::write(object, *place, &mut out.borrow_mut());
    u64::from(number) << 32 | next as u64
}

/// Bytes to be read, and lent ones to be written.
type Lent = (Vec<u8>, RefCell<Vec<u8>>);

fn lent(bytes: Vec<u8>) -> Lent {
    let room = bytes.len() + 80;
    (bytes, RefCell::new(vec![0; room]))
}

fn library_rewrite((pool, out): &Lent) -> u64 {
    let answer = calls::pool_rewrite(pool, &mut out.borrow_mut());
    u64::from(answer.number) << 32 | u64::from(answer.code) << 16 | u64::from(answer.object)
}

/// The check, and a copy.
fn model_rewrite((pool, out): &Lent) -> u64 {
    let refused = check::check(pool).0 != 0;
    out.borrow_mut()[..pool.len()].copy_from_slice(pool);
    u64::from(refused)
}

fn messages() -> Vec<Row> {
    let read = |case, bytes| row(("scm_message_read", case), size_of::<MessageReading>(), bytes, library_read, model_read);
    let write = |case, bytes| row(("scm_message_write", case), size_of::<Message>(), to_write(bytes), library_write, model_write);
    let indication = vec![0x32, 0x05, 0x82, 0x00, 0xF0, 0x00, 0x00, 0x00];
    let command = vec![0x33, 0x05, 0x02, 0xFF, 0xF0, 0x00, 0x00, 0x00];
    let mut label = vec![0x01, 0x00, 63];
    label.extend([b'V'; 63]);
    vec![
        read("E.4", (0, indication)),
        read("D.3, label of 63", (1, label.clone())),
        write("E.6", command),
        write("D.3, label of 63", label),
        row(("scm_transfer_write", "16,384 bytes"), 0, lent(pools::many_states()), library_transfer, model_transfer),
    ]
}

fn library_read((side, bytes): &(u32, Vec<u8>)) -> u64 {
    let reading = calls::read(*side, bytes);
    u64::from(reading.number) << 8 | u64::from(reading.message.kind)
}

fn model_read((side, bytes): &(u32, Vec<u8>)) -> u64 {
    let (number, message) = message::read(*side, bytes);
    u64::from(number) << 8 | u64::from(message.kind)
}

/// A message that the master sends, as both have it, and room to write it.
type Written = (Message, message::Message, RefCell<Vec<u8>>);

fn to_write(bytes: Vec<u8>) -> Written {
    (calls::read(1, &bytes).message, message::read(1, &bytes).1, RefCell::new(vec![0; 80]))
}

fn library_write((message, _, out): &Written) -> u64 {
    let written = calls::write(message, &mut out.borrow_mut());
    u64::from(written.number) << 32 | written.length as u64
}

fn model_write((_, message, out): &Written) -> u64 {
    let (number, bytes) = message::write(message, 80);
    out.borrow_mut()[..bytes.len()].copy_from_slice(&bytes);
    u64::from(number) << 32 | bytes.len() as u64
}

fn library_transfer((pool, out): &Lent) -> u64 {
    let written = calls::write_transfer(pool, &mut out.borrow_mut());
    u64::from(written.number) << 32 | written.length as u64
}

fn model_transfer((pool, out): &Lent) -> u64 {
    let room = out.borrow().len();
    let (number, bytes) = message::write_transfer(pool, room);
    out.borrow_mut()[..bytes.len()].copy_from_slice(&bytes);
    u64::from(number) << 32 | bytes.len() as u64
}

fn values() -> Vec<Row> {
    let given: (u32, i32, f32) = (240, -40, 0.1);
    let text = |case, given, decimals| row(("scm_shown_text", case), 0, to_print(given, decimals), library_text, c_text);
    vec![
        row(("scm_shown", "240 - 40, scale 0.1"), 0, given, library_shown, model_shown),
        row(("scm_shown_bits", "240 - 40, scale 0.1"), 0, given, library_bits, model_shown),
        text("20.0, beside C's printf", given, 1),
        text("20.0000003, beside C's printf", given, 7),
        text("of 57 characters, beside C's printf", (0, i32::MIN, f32::MAX), 7),
        row(("scm_version", ""), 0, (), |_| u64::from(calls::version()), |_| u64::from(library::header_version())),
    ]
}

fn library_shown(&(value, offset, scale): &(u32, i32, f32)) -> u64 {
    shown(calls::shown_of(value, offset, scale))
}

fn shown(given: Shown) -> u64 {
    given.value.to_bits() + u64::from(given.number)
}

fn library_bits(&(value, offset, scale): &(u32, i32, f32)) -> u64 {
    shown(calls::shown_bits(value, offset, scale.to_bits()))
}

/// "(value + offset) · scale, the sum exact, the product in f64 rounded once."
fn model_shown(&(value, offset, scale): &(u32, i32, f32)) -> u64 {
    if !scale.is_finite() || scale <= 0.0 {
        return 4;
    }
    let sum = i64::from(value) + i64::from(offset);
    (sum as f64 * f64::from(scale)).to_bits()
}

/// What is shown, with how many decimals, and bytes for its text and a 0.
type Text = ((u32, i32, f32), u32, RefCell<Vec<u8>>);

fn to_print(given: (u32, i32, f32), decimals: u32) -> Text {
    (given, decimals, RefCell::new(vec![0; 58]))
}

fn library_text(&((value, offset, scale), decimals, ref out): &Text) -> u64 {
    let written = calls::write_shown(value, offset, scale, decimals, &mut out.borrow_mut());
    told(&out.borrow()[..written.length])
}

/// The double, which is exact here, printed by the C library.
fn c_text(&((value, offset, scale), decimals, ref out): &Text) -> u64 {
    let double = (i64::from(value) + i64::from(offset)) as f64 * f64::from(scale);
    let (mut out, format) = (out.borrow_mut(), b"%.*f\0".as_ptr().cast());
    // SAFETY: the format asks for an int and a double, and the room is that of the bytes.
    let length = unsafe { snprintf(out.as_mut_ptr().cast(), out.len(), format, decimals as c_int, double) };
    told(&out[..length as usize])
}

/// A text's length, first and last character.
fn told(text: &[u8]) -> u64 {
    (text.len() as u64) << 16 | u64::from(text[0]) << 8 | u64::from(text[text.len() - 1])
}

extern "C" {
    fn snprintf(to: *mut c_char, room: usize, format: *const c_char, ...) -> c_int;
}
