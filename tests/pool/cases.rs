//! The cases of document 01 that concern pools, and those of its decided open points, byte by byte.

pub struct Case {
    pub name: &'static str,
    pub pool: Vec<u8>,
    pub verdict: (u8, u16),
}

fn case(name: &'static str, pool: Vec<u8>, verdict: (u8, u16)) -> Case {
    Case { name, pool, verdict }
}

/// A base that lists function 1, with a version label of N bytes and a configuration label of one byte.
#[rustfmt::skip]
fn base(n: u8) -> Vec<u8> {
    let mut base = vec![
        0x00, 0x00, 0x00, 0x02,                         // number 0, type 0, version 2
        0x01, 0x02, 0x03, 0x04, 0x05, 0x06, 0x07, 0x08, // master NAME
        0xFF, 0xFF, 0xFF, 0xFF, 0xFF, 0xFF, 0xFF, 0xFF, // mask
        0xE8, 0x03, 0xE9, 0x03,                         // name 1000, picture 1001
        n, 1, 1,                                        // N, M = 1, O = 1
    ];
    base.extend(vec![b'v'; usize::from(n)]);
    base.push(b'c');
    base.extend([0x01, 0x00]);
    base
}

/// Function 1 of style 00, that lists S times state 2.
#[rustfmt::skip]
fn function(s: u8) -> Vec<u8> {
    let mut function = vec![
        0x01, 0x00, 0x01, 0x05, 0x01, 0x00,             // number 1, type 1, function ID 5, trigger 1, style 00
        0xFF, 0xFF, 0xFF, 0xFF, 0xFF, 0xFF, 0xFF, 0xFF, // minimum, maximum
        0xFF, 0xFF, 0xFF, 0xFF, 0xFF, 0xFF, 0xFF, 0xFF, // offset, scale
        0xFF, 0xFF, 0xFF,                               // decimals, unit
        0xEA, 0x03, 0xEB, 0x03, s,                      // name 1002, picture 1003, S
    ];
    function.extend([0x02, 0x00].repeat(usize::from(s)));
    function
}

fn without_last_byte(pool: &[u8]) -> Vec<u8> {
    pool[..pool.len() - 1].to_vec()
}

/// The least pool with one byte altered.
fn least_with(place: usize, byte: u8) -> Vec<u8> {
    let mut pool = [base(1), function(0)].concat();
    pool[place] = byte;
    pool
}

pub fn fixed() -> Vec<Case> {
    let least = [base(1), function(0)].concat();
    assert_eq!(least.len(), 61);
    let mut base_five = least_with(0, 5);
    base_five[24] = 0;
    vec![
        case("N = M = O = 1, S = 0", least.clone(), (0x00, 0xFFFF)),
        case("without the last byte", without_last_byte(&least), (0xFF, 0x0001)),
        case("empty", Vec::new(), (0x02, 0x0000)),
        case("one byte", vec![0], (0xFF, 0xFFFF)),
        case("two bytes", vec![0, 0], (0xFF, 0xFFFF)),
        case("version label of 63", [base(63), function(0)].concat(), (0x00, 0xFFFF)),
        case("version label of 64", [base(64), function(0)].concat(), (0x09, 0x0000)),
        case("S = 65", [base(1), function(65)].concat(), (0xFF, 0x0001)),
        case("function before base", [function(0), base(1)].concat(), (0x00, 0xFFFF)),
        case("no base", function(0), (0x02, 0x0000)),
        case("two bases", [base(1), base(1), function(0)].concat(), (0x05, 0x0000)),
        case("no function", base(1), (0x03, 0x0001)),
        case("no state", [base(1), function(1)].concat(), (0x04, 0x0002)),
        case("version 1", least_with(3, 1), (0x0C, 0x0000)),
        case("version label with a colon", least_with(27, b':'), (0x0A, 0x0000)),
        case("object FFFF of type 9", vec![0xFF, 0xFF, 9], (0x01, 0xFFFF)),
        case("base number 5, N = 0", base_five, (0x09, 0x0005)),
    ]
}
