//! An object at a place, read and written, from document 01, section "The pool", and from tables A.1 to A.3 of ISO
//! 11783-14. It shares nothing with the library. Places in tables count from 1.

use crate::library::Object;

/// No object: its place, which is also the next, and all else 0.
pub fn refused(place: usize) -> Object {
    Object {
        kind: 255,
        place,
        next: place,
        number: 0,
        standard: 0,
        master: 0,
        mask: 0,
        name: 0,
        picture: 0,
        function: 0,
        trigger: 0,
        attribute: 0,
        minimum: 0,
        maximum: 0,
        offset: 0,
        scale: 0,
        decimals: 0,
        unit: 0,
        state: 0,
        n: 0,
        m: 0,
        count: 0,
        version: [0; 63],
        configuration: [0; 63],
        list: [0; 255],
    }
}

/// A place past the end, and a cut or illegal object, are refused; so is every place of "more" than 16,384 bytes.
pub fn object_at(pool: &[u8], place: usize) -> Object {
    if pool.len() > 16_384 || place >= pool.len() {
        return refused(place);
    }
    let rest = &pool[place..];
    let read = match rest.get(2) {
        Some(0) => base(rest, refused(place)),
        Some(1) => function(rest, refused(place)),
        Some(2) => state(rest, refused(place)),
        _ => None,
    };
    read.unwrap_or_else(|| refused(place))
}

/// "Numbers are least significant byte first": the record bytes from `first` to `last` of a table.
fn field(object: &[u8], first: usize, last: usize) -> u64 {
    object[first - 1..last].iter().rev().fold(0, |number, &byte| number << 8 | u64::from(byte))
}

fn small(object: &[u8], place: usize) -> u8 {
    field(object, place, place) as u8
}

fn pair(object: &[u8], first: usize) -> u16 {
    field(object, first, first + 1) as u16
}

fn quad(object: &[u8], first: usize) -> u32 {
    field(object, first, first + 3) as u32
}

/// `count` numbers of two bytes each from a place on.
fn numbers(object: &[u8], first: usize, count: u8) -> [u16; 255] {
    let mut list = [0; 255];
    for (entry, cell) in list.iter_mut().take(usize::from(count)).enumerate() {
        *cell = pair(object, first + 2 * entry);
    }
    list
}

/// The 63 cells of a label of `length` bytes from a place on.
fn label(object: &[u8], first: usize, length: u8) -> [u8; 63] {
    let mut cells = [0; 63];
    let length = usize::from(length);
    cells[..length].copy_from_slice(&object[first - 1..first - 1 + length]);
    cells
}

/// Table A.1. "base 27 + N + M + 2·O bytes".
fn base(rest: &[u8], blank: Object) -> Option<Object> {
    if rest.len() < 27 {
        return None;
    }
    let (n, m, count) = (small(rest, 25), small(rest, 26), small(rest, 27));
    let size = 27 + usize::from(n) + usize::from(m) + 2 * usize::from(count);
    if !(1..=63).contains(&n) || !(1..=63).contains(&m) || rest.len() < size {
        return None;
    }
    let read = Object {
        kind: 0,
        next: blank.place + size,
        number: pair(rest, 1),
        standard: small(rest, 4),
        master: field(rest, 5, 12),
        mask: field(rest, 13, 20),
        name: pair(rest, 21),
        picture: pair(rest, 23),
        n,
        m,
        count,
        version: label(rest, 28, n),
        configuration: label(rest, 28 + usize::from(n), m),
        list: numbers(rest, 28 + usize::from(n) + usize::from(m), count),
        ..blank
    };
    Some(read).filter(base_right)
}

/// "base number 0", "version 0 to 2; O at least 1", "names and pictures not FFFF"
fn base_right(it: &Object) -> bool {
    it.number == 0 && it.standard <= 2 && it.count >= 1 && it.name != 0xFFFF && it.picture != 0xFFFF
}

/// Table A.2. "function 30 + 2·S (S states, at most 64)".
fn function(rest: &[u8], blank: Object) -> Option<Object> {
    if rest.len() < 30 {
        return None;
    }
    let count = small(rest, 30);
    let size = 30 + 2 * usize::from(count);
    if rest.len() < size {
        return None;
    }
    let read = Object {
        kind: 1,
        next: blank.place + size,
        number: pair(rest, 1),
        function: small(rest, 4),
        trigger: small(rest, 5),
        attribute: small(rest, 6),
        minimum: quad(rest, 7),
        maximum: quad(rest, 11),
        offset: quad(rest, 15),
        scale: quad(rest, 19),
        decimals: small(rest, 23),
        unit: pair(rest, 24),
        name: pair(rest, 26),
        picture: pair(rest, 28),
        count,
        list: numbers(rest, 31, count),
        ..blank
    };
    Some(read).filter(function_right)
}

/// "others 1 to 65534", "preferred trigger 1, 2 or 255", "S at most 64", "names and pictures not FFFF"
fn function_right(it: &Object) -> bool {
    (1..=65_534).contains(&it.number)
        && [1, 2, 255].contains(&it.trigger)
        && it.count <= 64
        && it.name != 0xFFFF
        && it.picture != 0xFFFF
        && style_right(it)
}

/// "attribute 0 to 2"
fn style_right(read: &Object) -> bool {
    let unlimited = read.minimum == u32::MAX && read.maximum == u32::MAX;
    // "Styles 01 and 10: scale finite and above zero, decimals at most 7, unit not FFFF."
    let scale = f32::from_bits(read.scale);
    let shown = scale.is_finite() && scale > 0.0 && read.decimals <= 7 && read.unit != 0xFFFF;
    match read.attribute {
        // "Style 00: minimum, maximum, offset, scale, decimals and unit are all one bits."
        0 => unlimited && (read.offset, read.scale, read.decimals, read.unit) == (u32::MAX, u32::MAX, u8::MAX, u16::MAX),
        // "Style 01: minimum and maximum are all one bits."
        1 => unlimited && shown,
        // "Style 10: minimum at most maximum."
        2 => read.minimum <= read.maximum && shown,
        _ => false,
    }
}

/// Table A.3. "state 8".
fn state(rest: &[u8], blank: Object) -> Option<Object> {
    if rest.len() < 8 {
        return None;
    }
    let read = Object {
        kind: 2,
        next: blank.place + 8,
        number: pair(rest, 1),
        state: small(rest, 4),
        name: pair(rest, 5),
        picture: pair(rest, 7),
        ..blank
    };
    Some(read).filter(state_right)
}

/// "others 1 to 65534", "state ID at most 63", "names and pictures not FFFF"
fn state_right(it: &Object) -> bool {
    (1..=65_534).contains(&it.number) && it.state <= 63 && it.name != 0xFFFF && it.picture != 0xFFFF
}

/// Writes an object at a place of the lent bytes: the number, and the place after it. "Every number but 0 leaves .. all lent
/// memory unchanged. Where several apply: 1, 4".
pub fn write(object: &Object, place: usize, out: &mut [u8]) -> (u8, usize) {
    let size = size(object);
    if out.len() < place || out.len() - place < size {
        return (1, place);
    }
    if !legal(object) {
        return (4, place);
    }
    let bytes = bytes(object);
    assert_eq!(bytes.len(), size);
    out[place..place + size].copy_from_slice(&bytes);
    (0, place + size)
}

/// "base 27 + N + M + 2·O bytes (labels N and M, O functions), function 30 + 2·S (S states, at most 64), state 8"
pub fn size(object: &Object) -> usize {
    let [n, m, count] = [object.n, object.m, object.count].map(usize::from);
    match object.kind {
        0 => 27 + n + m + 2 * count,
        1 => 30 + 2 * count,
        2 => 8,
        _ => 0,
    }
}

/// "type not 0, 1 or 2", "N of 0 or above 63", "then M so", "a field out of its range"; and the cells that an object does not use
/// are 0: those after each label, which a base alone has, and after the list, which a state lacks.
fn legal(it: &Object) -> bool {
    let unused = |version: u8, configuration: u8, listed: u8| {
        it.version.iter().skip(version.into()).chain(it.configuration.iter().skip(configuration.into())).all(|&cell| cell == 0)
            && it.list.iter().skip(listed.into()).all(|&cell| cell == 0)
    };
    match it.kind {
        0 => (1..=63).contains(&it.n) && (1..=63).contains(&it.m) && base_right(it) && unused(it.n, it.m, it.count),
        1 => function_right(it) && unused(0, 0, it.count),
        2 => state_right(it) && unused(0, 0, 0),
        _ => false,
    }
}

/// Tables A.1 to A.3, field after field.
fn bytes(it: &Object) -> Vec<u8> {
    let listed = || it.list.iter().take(it.count.into()).flat_map(|number| number.to_le_bytes());
    let mut bytes = it.number.to_le_bytes().to_vec();
    bytes.push(it.kind);
    match it.kind {
        0 => {
            bytes.push(it.standard);
            bytes.extend([it.master.to_le_bytes(), it.mask.to_le_bytes()].concat());
            bytes.extend([it.name.to_le_bytes(), it.picture.to_le_bytes()].concat());
            bytes.extend([it.n, it.m, it.count]);
            bytes.extend(it.version.iter().take(it.n.into()).chain(it.configuration.iter().take(it.m.into())));
            bytes.extend(listed());
        }
        1 => {
            bytes.extend([it.function, it.trigger, it.attribute]);
            bytes.extend([it.minimum, it.maximum, it.offset, it.scale].map(u32::to_le_bytes).concat());
            bytes.push(it.decimals);
            bytes.extend([it.unit, it.name, it.picture].map(u16::to_le_bytes).concat());
            bytes.push(it.count);
            bytes.extend(listed());
        }
        _ => {
            bytes.push(it.state);
            bytes.extend([it.name.to_le_bytes(), it.picture.to_le_bytes()].concat());
        }
    }
    bytes
}
