//! The messages that the master reads and writes, E.2 to E.8, from annex E and document 01. Bytes are counted from 1.
//! "Reserved bytes are written FF and not looked at when read; reserved bits are written 0."

/// Bits 7 and 8 of byte 3 in E.4, E.5, E.7 and E.8.
#[derive(Clone, Copy, PartialEq, Eq, Debug)]
pub enum Status {
    /// 00: started and finished in one.
    Whole,
    /// 01
    Started,
    /// 10
    Finished,
    /// 11
    Error,
}

impl Status {
    pub const ALL: [Status; 4] = [Status::Whole, Status::Started, Status::Finished, Status::Error];

    pub fn bits(self) -> u8 {
        match self {
            Status::Whole => 0b00,
            Status::Started => 0b01,
            Status::Finished => 0b10,
            Status::Error => 0b11,
        }
    }

    fn of(byte_3: u8) -> Status {
        Status::ALL[usize::from(byte_3 / 64)]
    }
}

/// E.4
#[derive(Clone, Copy, PartialEq, Debug)]
pub struct Indication {
    pub function: u8,
    pub state: u8,
    pub status: Status,
    pub tan: u8,
    pub value: u32,
}

/// E.7
#[derive(Clone, Copy, PartialEq, Debug)]
pub struct Answer {
    pub function: u8,
    pub state: u8,
    pub status: Status,
    pub error: u8,
    pub tan: u8,
}

/// "every other message 8": 8 bytes of this code.
fn is(message: &[u8], code: u8) -> bool {
    message.len() == 8 && message[0] == code
}

/// E.4, with its TAN in byte 4. "E.4 carries its value at every status."
pub fn read_indication(message: &[u8]) -> Option<Indication> {
    if !is(message, 0x32) {
        return None;
    }
    Some(Indication {
        function: message[1],
        state: message[2] % 64,
        status: Status::of(message[2]),
        tan: message[3],
        value: u32::from_le_bytes([message[4], message[5], message[6], message[7]]),
    })
}

/// E.3, of which the master needs nothing but that it is one: its error code is 01, 02, 03 or FF.
pub fn read_client_abort(message: &[u8]) -> Option<()> {
    if is(message, 0x31) && [0x01, 0x02, 0x03, 0xFF].contains(&message[3]) {
        Some(())
    } else {
        None
    }
}

/// E.7, with its error in byte 4 and its TAN in byte 5.
pub fn read_answer(message: &[u8]) -> Option<Answer> {
    if !is(message, 0x34) || ![0x00, 0x01, 0x02, 0x03, 0xFF].contains(&message[3]) {
        return None;
    }
    Some(Answer {
        function: message[1],
        state: message[2] % 64,
        status: Status::of(message[2]),
        error: message[3],
        tan: message[4],
    })
}

fn byte_3(state: u8, status: Status) -> u8 {
    state + 64 * status.bits()
}

/// E.2, "reason 01".
pub fn state_command(enabled: bool) -> [u8; 8] {
    [0x30, u8::from(enabled), 0xFF, 0x01, 0xFF, 0xFF, 0xFF, 0xFF]
}

/// E.4 as a client sends it.
pub fn indication(it: &Indication) -> [u8; 8] {
    let value = it.value.to_le_bytes();
    let third = byte_3(it.state, it.status);
    [0x32, it.function, third, it.tan, value[0], value[1], value[2], value[3]]
}

/// E.5, which answers an E.4.
pub fn indication_response(to: &Indication, error: u8) -> [u8; 8] {
    [0x32, to.function, byte_3(to.state, to.status), error, to.tan, 0xFF, 0xFF, 0xFF]
}

/// E.6
pub fn command(function: u8, state: u8, tan: u8, value: u32) -> [u8; 8] {
    let value = value.to_le_bytes();
    [0x33, function, state, tan, value[0], value[1], value[2], value[3]]
}

/// E.7 as a client sends it.
pub fn answer(it: &Answer) -> [u8; 8] {
    [0x34, it.function, byte_3(it.state, it.status), it.error, it.tan, 0xFF, 0xFF, 0xFF]
}

/// E.8, which acknowledges an E.7.
pub fn acknowledgement(of: &Answer) -> [u8; 8] {
    [0x34, of.function, byte_3(of.state, of.status), of.tan, 0xFF, 0xFF, 0xFF, 0xFF]
}
