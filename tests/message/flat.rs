//! A message of the model as C has it.

use super::model::Message;
use crate::library::{Message as Flat, NO_MESSAGE};

pub fn set(flat: &mut Flat, name: &str, v: u64) {
    match name {
        "code" => flat.code = v as u8,
        "reason" => flat.reason = v as u8,
        "object" => flat.object = v as u16,
        "memory" => flat.memory = v as u32,
        "version" => flat.capability.version = v as u8,
        "width" => flat.capability.width = v as u8,
        "height" => flat.capability.height = v as u8,
        "characters" => flat.capability.characters = v as u16,
        "colour" => flat.capability.colour = v as u8,
        "size" => flat.capability.size = v as u8,
        "font" => flat.capability.font = v as u8,
        "style" => flat.capability.style = v as u8,
        "function" => flat.step.function = v as u8,
        "state" => flat.step.state = v as u8,
        "status" => flat.step.status = v as u8,
        "error" => flat.step.error = v as u8,
        "tan" => flat.step.tan = v as u8,
        "value" => flat.step.value = v as u32,
        _ => panic!("no field {name}"),
    }
}

/// The message as C has it: fields that its clause lacks are 0, and so are the cells past a label.
pub fn flat(m: &Message) -> Flat {
    let mut f = NO_MESSAGE;
    f.kind = m.kind;
    for (name, v) in &m.fields {
        set(&mut f, name, *v);
    }
    f.label.length = m.label_length as u8;
    f.label.bytes[..m.label.len()].copy_from_slice(&m.label);
    f
}
