//! The check of a pool, written from document 01, section "The pool", and from tables A.1 to A.3 of ISO 11783-14.
//! It shares nothing with the library. It is plain on purpose: "seen before" compares every pair, and a listed object
//! is looked up by a scan of all objects. Sentences of 01 are quoted above the lines that follow them.

/// A code of D.9 and the number of the object it names.
type Fault = (u8, u16);

const BASE: u8 = 0;
const FUNCTION: u8 = 1;
const STATE: u8 = 2;

/// One object of the pool: its number, its type, and all its bytes.
struct Object<'a> {
    number: u16,
    kind: u8,
    bytes: &'a [u8],
}

/// "Success is 00, object FFFF."
pub fn check(pool: &[u8]) -> (u8, u16) {
    match two_stages(pool) {
        Ok(()) => (0x00, 0xFFFF),
        Err(fault) => fault,
    }
}

fn two_stages(pool: &[u8]) -> Result<(), Fault> {
    // "At most 16,384 bytes; more gives FF, object FFFF."
    if pool.len() > 16_384 {
        return Err((0xFF, 0xFFFF));
    }
    let objects = stage_one(pool)?;
    stage_two(&objects)
}

// Fields. Places are the record bytes of tables A.1 to A.3, counted from 1.
// "Numbers are least significant byte first".

fn byte(object: &[u8], place: usize) -> u8 {
    object[place - 1]
}

fn two_bytes(object: &[u8], place: usize) -> u16 {
    u16::from(byte(object, place)) | u16::from(byte(object, place + 1)) << 8
}

fn four_bytes(object: &[u8], place: usize) -> u32 {
    u32::from(two_bytes(object, place)) | u32::from(two_bytes(object, place + 2)) << 16
}

/// The object numbers that stand from a place to the object's end: a base's functions, a function's states.
fn list(object: &[u8], place: usize) -> Vec<u16> {
    object[place - 1..].chunks(2).map(|entry| two_bytes(entry, 1)).collect()
}

fn version_label_length(base: &[u8]) -> usize {
    usize::from(byte(base, 25))
}

fn configuration_label_length(base: &[u8]) -> usize {
    usize::from(byte(base, 26))
}

fn version_label<'a>(base: &Object<'a>) -> &'a [u8] {
    &base.bytes[27..27 + version_label_length(base.bytes)]
}

fn functions_of(base: &Object) -> Vec<u16> {
    let labels = version_label_length(base.bytes) + configuration_label_length(base.bytes);
    list(base.bytes, 28 + labels)
}

fn states_of(function: &Object) -> Vec<u16> {
    list(function.bytes, 31)
}

// Stage one.

/// "Stage one walks the objects; the first fault wins and names its object."
fn stage_one(pool: &[u8]) -> Result<Vec<Object<'_>>, Fault> {
    let mut objects = Vec::new();
    let mut rest = pool;
    while !rest.is_empty() {
        let object = first_object(rest)?;
        rest = &rest[object.bytes.len()..];
        objects.push(object);
    }
    Ok(objects)
}

/// "At each object, in order:"
fn first_object(rest: &[u8]) -> Result<Object<'_>, Fault> {
    // "fewer than 3 bytes left, FF and object FFFF;"
    if rest.len() < 3 {
        return Err((0xFF, 0xFFFF));
    }
    let number = two_bytes(rest, 1);
    let kind = byte(rest, 3);
    // "type not 0, 1 or 2, code 01;"
    if kind != BASE && kind != FUNCTION && kind != STATE {
        return Err((0x01, number));
    }
    // "fixed part cut, FF;"
    if rest.len() < fixed_length(kind) {
        return Err((0xFF, number));
    }
    // "for a base, N of 0 or above 63, code 09, then M so, 0B;"
    if kind == BASE && !(1..=63).contains(&version_label_length(rest)) {
        return Err((0x09, number));
    }
    if kind == BASE && !(1..=63).contains(&configuration_label_length(rest)) {
        return Err((0x0B, number));
    }
    // "list or labels cut, FF;"
    let length = fixed_length(kind) + open_length(kind, rest);
    if rest.len() < length {
        return Err((0xFF, number));
    }
    // "a field out of its range, FF."
    let object = Object { number, kind, bytes: &rest[..length] };
    if !in_range(&object) {
        return Err((0xFF, number));
    }
    Ok(object)
}

/// "base 27 + N + M + 2·O bytes (labels N and M, O functions), function 30 + 2·S (S states, at most 64), state 8."
fn fixed_length(kind: u8) -> usize {
    match kind {
        BASE => 27,
        FUNCTION => 30,
        _ => 8,
    }
}

/// The labels and the list, as the fixed part gives their lengths.
fn open_length(kind: u8, bytes: &[u8]) -> usize {
    match kind {
        BASE => version_label_length(bytes) + configuration_label_length(bytes) + 2 * usize::from(byte(bytes, 27)),
        FUNCTION => 2 * usize::from(byte(bytes, 30)),
        _ => 0,
    }
}

fn in_range(object: &Object) -> bool {
    match object.kind {
        BASE => base_in_range(object),
        FUNCTION => function_in_range(object),
        _ => state_in_range(object),
    }
}

/// "base number 0", "version 0 to 2; O at least 1", "names and pictures not FFFF".
fn base_in_range(base: &Object) -> bool {
    let version = byte(base.bytes, 4);
    let name = two_bytes(base.bytes, 21);
    let picture = two_bytes(base.bytes, 23);
    let functions = byte(base.bytes, 27);
    base.number == 0 && version <= 2 && functions >= 1 && name != 0xFFFF && picture != 0xFFFF
}

/// "others 1 to 65534", "preferred trigger 1, 2 or 255; attribute 0 to 2", "S at most 64; names and pictures not FFFF".
fn function_in_range(function: &Object) -> bool {
    let preferred_trigger = byte(function.bytes, 5);
    let name = two_bytes(function.bytes, 26);
    let picture = two_bytes(function.bytes, 28);
    let states = byte(function.bytes, 30);
    (1..=65534).contains(&function.number)
        && [1, 2, 255].contains(&preferred_trigger)
        && states <= 64
        && name != 0xFFFF
        && picture != 0xFFFF
        && style_in_range(function.bytes)
}

/// The attribute is the style: "attribute 0 to 2".
fn style_in_range(function: &[u8]) -> bool {
    let attribute = byte(function, 6);
    let minimum = four_bytes(function, 7);
    let maximum = four_bytes(function, 11);
    match attribute {
        // "Style 00: minimum, maximum, offset, scale, decimals and unit are all one bits."
        0 => function[6..25].iter().all(|&one| one == 0xFF),
        // "Style 01: minimum and maximum are all one bits."
        1 => minimum == 0xFFFF_FFFF && maximum == 0xFFFF_FFFF && shown_in_range(function),
        // "Style 10: minimum at most maximum."
        2 => minimum <= maximum && shown_in_range(function),
        _ => false,
    }
}

/// "Styles 01 and 10: scale finite and above zero, decimals at most 7, unit not FFFF."
fn shown_in_range(function: &[u8]) -> bool {
    let scale = f32::from_bits(four_bytes(function, 19));
    let decimals = byte(function, 23);
    let unit = two_bytes(function, 24);
    scale.is_finite() && scale > 0.0 && decimals <= 7 && unit != 0xFFFF
}

/// "others 1 to 65534", "state ID at most 63", "names and pictures not FFFF".
fn state_in_range(state: &Object) -> bool {
    let name = two_bytes(state.bytes, 5);
    let picture = two_bytes(state.bytes, 7);
    (1..=65534).contains(&state.number) && state_id(state) <= 63 && name != 0xFFFF && picture != 0xFFFF
}

fn function_id(function: &Object) -> u8 {
    byte(function.bytes, 4)
}

fn state_id(state: &Object) -> u8 {
    byte(state.bytes, 4)
}

// Stage two.

/// "Stage two, each over the whole pool:"
fn stage_two(objects: &[Object]) -> Result<(), Fault> {
    // "no base, 02 with object 0000;"
    let base = objects.iter().find(|object| object.kind == BASE).ok_or((0x02, 0x0000))?;
    // "object number seen before, 05;"
    let numbers: Vec<u16> = objects.iter().map(|object| object.number).collect();
    if let Some(later) = seen_before(&numbers) {
        return Err((0x05, numbers[later]));
    }
    // "version not 2, 0C;"
    if byte(base.bytes, 4) != 2 {
        return Err((0x0C, base.number));
    }
    // "a version label byte outside 20–7E and A0–FF or one of the eleven characters that A.3 forbids, 0A;"
    if !version_label(base).iter().all(|&character| allowed(character)) {
        return Err((0x0A, base.number));
    }
    let functions = listed_functions(objects, base)?;
    each_function_id_once(&functions)?;
    // "each over the whole pool": every list is looked up (04) before any list's IDs are compared (07).
    let mut lists = Vec::new();
    for function in functions {
        lists.push(listed_states(objects, function)?);
    }
    lists.iter().try_for_each(|states| each_state_id_once(states))
}

/// "For 05, 06 and 07 the later object is named": the first place whose value stood before.
fn seen_before<T: PartialEq>(values: &[T]) -> Option<usize> {
    for later in 0..values.len() {
        for earlier in 0..later {
            if values[earlier] == values[later] {
                return Some(later);
            }
        }
    }
    None
}

fn allowed(character: u8) -> bool {
    const ELEVEN: [u8; 11] = [0x5C, 0x22, 0x27, 0x60, 0x2F, 0x3A, 0x2A, 0x3C, 0x3E, 0x7C, 0x3F];
    ((0x20..=0x7E).contains(&character) || character >= 0xA0) && !ELEVEN.contains(&character)
}

/// '"Absent" means no object of that number and of the wanted type.'
fn find<'o, 'a>(objects: &'o [Object<'a>], number: u16, kind: u8) -> Option<&'o Object<'a>> {
    objects.iter().find(|object| object.number == number && object.kind == kind)
}

/// The functions that the base lists, "in the base's order".
/// "a listed function absent, 03, naming the listed number;"
fn listed_functions<'o, 'a>(objects: &'o [Object<'a>], base: &Object) -> Result<Vec<&'o Object<'a>>, Fault> {
    let numbers = functions_of(base).into_iter();
    numbers.map(|number| find(objects, number, FUNCTION).ok_or((0x03, number))).collect()
}

/// "two listed functions with one function ID, 06;" "(for a number listed twice, that number)"
fn each_function_id_once(functions: &[&Object]) -> Result<(), Fault> {
    let ids: Vec<u8> = functions.iter().map(|function| function_id(function)).collect();
    match seen_before(&ids) {
        Some(later) => Err((0x06, functions[later].number)),
        None => Ok(()),
    }
}

/// The states that a function lists, "in list order".
/// "a listed state absent, 04, likewise;"
fn listed_states<'o, 'a>(objects: &'o [Object<'a>], function: &Object) -> Result<Vec<&'o Object<'a>>, Fault> {
    let numbers = states_of(function).into_iter();
    numbers.map(|number| find(objects, number, STATE).ok_or((0x04, number))).collect()
}

/// "two states of one function with one state ID, 07." "(for a number listed twice, that number)"
fn each_state_id_once(states: &[&Object]) -> Result<(), Fault> {
    let ids: Vec<u8> = states.iter().map(|state| state_id(state)).collect();
    match seen_before(&ids) {
        Some(later) => Err((0x07, states[later].number)),
        None => Ok(()),
    }
}
