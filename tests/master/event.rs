//! An event: a call on the master with all that is handed over, done on the library and on the model alike.

use super::library;
use super::model::{Master, Outcome};
use std::fmt;
use std::rc::Rc;

/// `room` is how many bytes are lent for output.
#[derive(Clone)]
pub enum Event {
    On,
    Off,
    Attach { slot: usize, name: u64, pool: Rc<Vec<u8>> },
    Enable { slot: usize, room: usize },
    Disable { slot: usize, room: usize },
    Report { slot: usize, report: u32 },
    Lost { slot: usize },
    Record,
    Stop,
    Cancel,
    Indication { slot: usize, message: Vec<u8>, room: usize },
    ClientAbort { slot: usize, message: Vec<u8> },
    Start,
    Abort,
    Tick { millimetres: u32, room: usize },
    Answer { slot: usize, message: Vec<u8>, room: usize },
    Store { room: usize },
    Load { blocks: Rc<Vec<u8>> },
    Edition { edition: u32 },
}

/// The call of an event, in one module or another.
macro_rules! called {
    ($event:expr, $m:expr, $out:expr, $($calls:ident)::+) => {
        match $event {
            Event::On => $($calls)::+::on($m),
            Event::Off => $($calls)::+::off($m),
            Event::Attach { slot, name, pool } => $($calls)::+::attach($m, *slot, *name, pool),
            Event::Enable { slot, .. } => $($calls)::+::enable($m, *slot, $out),
            Event::Disable { slot, .. } => $($calls)::+::disable($m, *slot, $out),
            Event::Report { slot, report } => $($calls)::+::report($m, *slot, *report),
            Event::Lost { slot } => $($calls)::+::lost($m, *slot),
            Event::Record => $($calls)::+::record($m),
            Event::Stop => $($calls)::+::stop($m),
            Event::Cancel => $($calls)::+::cancel($m),
            Event::Indication { slot, message, .. } => $($calls)::+::indication($m, *slot, message, $out),
            Event::ClientAbort { slot, message } => $($calls)::+::client_abort($m, *slot, message),
            Event::Start => $($calls)::+::start($m),
            Event::Abort => $($calls)::+::abort($m),
            Event::Tick { millimetres, .. } => $($calls)::+::tick($m, *millimetres, $out),
            Event::Answer { slot, message, .. } => $($calls)::+::answer($m, *slot, message, $out),
            Event::Store { .. } => $($calls)::+::store($m, $out),
            Event::Load { blocks } => $($calls)::+::load($m, blocks),
            Event::Edition { edition } => $($calls)::+::edition($m, *edition),
        }
    };
}

impl Event {
    pub fn name(&self) -> &'static str {
        match self {
            Event::On => "on",
            Event::Off => "off",
            Event::Attach { .. } => "attach",
            Event::Enable { .. } => "enable",
            Event::Disable { .. } => "disable",
            Event::Report { .. } => "report",
            Event::Lost { .. } => "lost",
            Event::Record => "record",
            Event::Stop => "stop",
            Event::Cancel => "cancel",
            Event::Indication { .. } => "indication",
            Event::ClientAbort { .. } => "client_abort",
            Event::Start => "start",
            Event::Abort => "abort",
            Event::Tick { .. } => "tick",
            Event::Answer { .. } => "answer",
            Event::Store { .. } => "store",
            Event::Load { .. } => "load",
            Event::Edition { .. } => "edition",
        }
    }

    /// How many bytes are lent for output; none where the call takes none.
    pub fn room(&self) -> usize {
        match *self {
            Event::Enable { room, .. } | Event::Disable { room, .. } | Event::Tick { room, .. } => room,
            Event::Indication { room, .. } | Event::Answer { room, .. } | Event::Store { room } => room,
            _ => 0,
        }
    }

    /// The bytes that are handed over to be read.
    pub fn handed(&self) -> &[u8] {
        match self {
            Event::Attach { pool, .. } => pool,
            Event::Load { blocks } => blocks,
            Event::Indication { message, .. } | Event::ClientAbort { message, .. } | Event::Answer { message, .. } => {
                message
            }
            _ => &[],
        }
    }

    pub fn slot(&self) -> Option<usize> {
        match *self {
            Event::Attach { slot, .. } | Event::Enable { slot, .. } | Event::Disable { slot, .. } => Some(slot),
            Event::Report { slot, .. } | Event::Lost { slot } | Event::Indication { slot, .. } => Some(slot),
            Event::ClientAbort { slot, .. } | Event::Answer { slot, .. } => Some(slot),
            _ => None,
        }
    }

    /// By the wrappers of the header.
    pub fn on_library(&self, m: &library::Master, out: &mut [u8]) -> library::Outcome {
        called!(self, m, out, library)
    }

    /// By the calls that give everything by value.
    pub fn by_value(&self, m: &library::Master, out: &mut [u8]) -> library::Outcome {
        called!(self, m, out, library::value)
    }

    pub fn on_model(&self, m: &mut Master, out: &mut [u8]) -> Outcome {
        match self {
            Event::On => m.on(),
            Event::Off => m.off(),
            Event::Attach { slot, name, pool } => m.attach(*slot, *name, pool),
            Event::Enable { slot, .. } => m.enable(*slot, out),
            Event::Disable { slot, .. } => m.disable(*slot, out),
            Event::Report { slot, report } => m.report(*slot, *report),
            Event::Lost { slot } => m.lost(*slot),
            Event::Record => m.record(),
            Event::Stop => m.stop(),
            Event::Cancel => m.cancel(),
            Event::Indication { slot, message, .. } => m.indication(*slot, message, out),
            Event::ClientAbort { slot, message } => m.client_abort(*slot, message),
            Event::Start => m.start(),
            Event::Abort => m.abort(),
            Event::Tick { millimetres, .. } => m.tick(*millimetres, out),
            Event::Answer { slot, message, .. } => m.answer(*slot, message, out),
            Event::Store { .. } => m.store(out),
            Event::Load { blocks } => m.load(blocks),
            Event::Edition { edition } => m.edition(*edition),
        }
    }
}

impl fmt::Display for Event {
    fn fmt(&self, f: &mut fmt::Formatter<'_>) -> fmt::Result {
        write!(f, "{}", self.name())?;
        if let Some(slot) = self.slot() {
            write!(f, " slot {slot}")?;
        }
        match self {
            Event::Attach { name, pool, .. } => write!(f, " NAME {name:016X}, pool of {} bytes", pool.len())?,
            Event::Report { report, .. } => write!(f, " report {report}")?,
            Event::Load { blocks } => write!(f, " {} bytes", blocks.len())?,
            Event::Edition { edition } => write!(f, " {edition}")?,
            Event::Tick { millimetres, .. } => write!(f, " {millimetres} mm")?,
            Event::Indication { message, .. } | Event::ClientAbort { message, .. } | Event::Answer { message, .. } => {
                write!(f, " message {message:02X?}")?
            }
            _ => {}
        }
        write!(f, ", {} bytes lent", self.room())
    }
}
