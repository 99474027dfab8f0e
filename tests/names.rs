//! The numbers that have names in the header: its version, which the library has too; sizes and limits, which are those of documents 01 and 02; and
//! every code, by the tables of ISO 11783-14 and of both documents, or by the library's own numbering, which the models of the tests have too.

use crate::library;
use std::collections::BTreeMap;

/// 2.1.1: a call has come since 2.0.0, and a field where a struct that crosses had room for it; since 2.1.0 nothing that a host sees but time and stack.
const VERSION: u32 = 2_001_001;

type Names = &'static [(&'static str, usize)];

const NAMES: &[Names] = &[
    // "Eight slots." "At most 64 steps". "At most 16,384 bytes". The greatest object is a base, "27 + N + M + 2·O bytes".
    &[("SCM_SLOTS", 8), ("SCM_STEPS", 64), ("SCM_POOL_BYTES", 16_384), ("SCM_OBJECT_BYTES", 27 + 63 + 63 + 2 * 255)],
    // "D.3 and D.5 are max(8, 3 + label length) bytes". "A first answer after 15 ticks is in time". "tick 36,000".
    &[("SCM_MESSAGE_BYTES", 80), ("SCM_ANSWER_TICKS", 15), ("SCM_LAST_TICK", 36_000)],
    // Document 02: "blocks of 512 bytes"; a sequence has "at most 7" of them.
    &[("SCM_BLOCK_BYTES", 512), ("SCM_STORE_BYTES", 7 * 512)],
    // "No text is longer than 57 characters", and the wrapper puts a 0 after them.
    &[("SCM_SHOWN_BYTES", 57 + 1)],
    // E.2, E.5 and E.8. "A tick fills a frame buffer of 576 bytes, nine to a frame".
    &[("SCM_ANSWER_BYTES", 8), ("SCM_FRAME_BYTES", 9), ("SCM_FRAMES_BYTES", 576)],
    // "Numbers a call gives back"
    &[("SCM_OK", 0), ("SCM_TOO_SHORT", 1), ("SCM_WRONG_STATE", 2), ("SCM_WRONG_SLOT", 3), ("SCM_WRONG_VALUE", 4), ("SCM_NOT_EXPECTED", 5)],
    &[("SCM_POOL_REFUSED", 6), ("SCM_NO_STEP", 7), ("SCM_NOT_ENABLED", 8), ("SCM_NAME_DIFFERS", 9), ("SCM_LABEL_DIFFERS", 10)],
    &[("SCM_NOT_IN_POOL", 11), ("SCM_NOT_READY", 12), ("SCM_NOT_DISABLED", 13), ("SCM_NO_CLIENT", 14), ("SCM_NO_MATCH", 15)],
    // "16 the check of a whole lent block, 17 counts or fields out of range"
    &[("SCM_CHECK_WRONG", 16), ("SCM_NOT_STORED", 17)],
    // "A sequence has an edition, 1 or 2".
    &[("SCM_EDITION_1", 1), ("SCM_EDITION_2", 2)],
    // D.9
    &[("SCM_POOL_TAKEN", 0x00), ("SCM_POOL_UNKNOWN_TYPE", 0x01), ("SCM_POOL_NO_BASE", 0x02), ("SCM_POOL_NO_FUNCTION", 0x03)],
    &[("SCM_POOL_NO_STATE", 0x04), ("SCM_POOL_NUMBER_TWICE", 0x05), ("SCM_POOL_FUNCTION_TWICE", 0x06), ("SCM_POOL_STATE_TWICE", 0x07)],
    &[("SCM_POOL_VERSION_LENGTH", 0x09), ("SCM_POOL_VERSION_BYTES", 0x0A), ("SCM_POOL_CONFIGURATION_LENGTH", 0x0B)],
    &[("SCM_POOL_WRONG_VERSION", 0x0C), ("SCM_POOL_OTHER", 0xFF)],
    // Tables A.1 to A.3: the type; of a function the preferred trigger and bits 0 and 1 of the attribute.
    &[("SCM_OBJECT_BASE", 0), ("SCM_OBJECT_FUNCTION", 1), ("SCM_OBJECT_STATE", 2), ("SCM_OBJECT_NONE", 255)],
    &[("SCM_TRIGGER_TIME", 1), ("SCM_TRIGGER_DISTANCE", 2), ("SCM_TRIGGER_EITHER", 255)],
    &[("SCM_STYLE_HIDDEN", 0b00), ("SCM_STYLE_SHOWN", 0b01), ("SCM_STYLE_CHANGED", 0b10)],
    // The side that sent a message, and its clause, C.2 to C.5, D.2 to D.15, E.2 to E.8.
    &[("SCM_CLIENT", 0), ("SCM_MASTER", 1), ("SCM_NOTHING", 0)],
    &[("SCM_CAPABILITY_REQUEST", 1), ("SCM_CAPABILITY_RESPONSE", 2), ("SCM_MEMORY_REQUEST", 3), ("SCM_MEMORY_RESPONSE", 4)],
    &[("SCM_VERSION_REQUEST", 5), ("SCM_VERSION_RESPONSE", 6), ("SCM_CONFIGURATION_REQUEST", 7), ("SCM_CONFIGURATION_RESPONSE", 8)],
    &[("SCM_TRANSFER", 9), ("SCM_TRANSFER_RESPONSE", 10), ("SCM_ACTIVATION_COMMAND", 11), ("SCM_POOL_ACKNOWLEDGEMENT", 12)],
    &[("SCM_DELETE_COMMAND", 13), ("SCM_DELETE_RESPONSE", 14), ("SCM_STORE_COMMAND", 15), ("SCM_STORE_RESPONSE", 16)],
    &[("SCM_LOAD_COMMAND", 17), ("SCM_LOAD_RESPONSE", 18), ("SCM_STATE_COMMAND", 19), ("SCM_CLIENT_ABORT", 20), ("SCM_INDICATION", 21)],
    &[("SCM_INDICATION_RESPONSE", 22), ("SCM_COMMAND", 23), ("SCM_ANSWER", 24), ("SCM_ANSWER_ACKNOWLEDGEMENT", 25)],
    // E.4, bits 7 and 8 of byte 3; E.2, bytes 2 and 4; E.3, byte 4; E.5, byte 4; E.7, byte 4.
    &[("SCM_AT_ONCE", 0b00), ("SCM_STARTED", 0b01), ("SCM_DONE", 0b10), ("SCM_FAILED", 0b11), ("SCM_DISABLE", 0), ("SCM_ENABLE", 1)],
    &[("SCM_REASON_OPERATOR", 0x01), ("SCM_REASON_NOT_IN_SEQUENCE", 0x02), ("SCM_REASON_IN_SEQUENCE", 0x03), ("SCM_REASON_NONE", 0xFF)],
    &[("SCM_ABORT_TIMED_OUT", 0x01), ("SCM_ABORT_OPERATOR", 0x02), ("SCM_ABORT_FAULT", 0x03), ("SCM_ABORT_OTHER", 0xFF)],
    &[("SCM_INDICATION_TAKEN", 0x00), ("SCM_INDICATION_NO_FUNCTION", 0x01), ("SCM_INDICATION_NO_STATE", 0x02)],
    &[("SCM_INDICATION_WRONG_STATUS", 0x03), ("SCM_INDICATION_FULL", 0x04), ("SCM_INDICATION_GOES_ON", 0x05)],
    &[("SCM_INDICATION_STOPPED", 0x06), ("SCM_INDICATION_OTHER", 0xFF)],
    &[("SCM_ANSWER_NO_ERROR", 0x00), ("SCM_ANSWER_FAULT", 0x01), ("SCM_ANSWER_OPERATOR", 0x02), ("SCM_ANSWER_CONDITIONS", 0x03)],
    &[("SCM_ANSWER_OTHER", 0xFF)],
    // The library's own: states, reports, of a step's mark, of a command's answer.
    &[("SCM_INACTIVE", 0), ("SCM_READY", 1), ("SCM_RECORD", 2), ("SCM_RECORD_COMPLETE", 3), ("SCM_PLAYBACK", 4), ("SCM_ABORT", 5)],
    &[("SCM_REPORT_DISABLED", 0), ("SCM_REPORT_READY", 1), ("SCM_REPORT_RECORD", 2), ("SCM_REPORT_PLAYBACK", 4), ("SCM_REPORT_ABORT", 5)],
    &[("SCM_MARK_TICKS", 0), ("SCM_MARK_MILLIMETRES", 1), ("SCM_UNANSWERED", 0), ("SCM_ANSWERED_STARTED", 1), ("SCM_ANSWERED_DONE", 2)],
];

pub fn run(arguments: &[&str]) {
    if !arguments.is_empty() {
        crate::wrong_usage();
    }
    let version = version();
    let header: BTreeMap<String, usize> = library::header_names().into_iter().collect();
    let wanted: BTreeMap<String, usize> = NAMES.iter().copied().flatten().map(|(name, number)| (name.to_string(), *number)).collect();
    for (name, number) in &wanted {
        if header.get(name) != Some(number) {
            fail(&format!("{name} is {:?} in the header, wanted is {number}", header.get(name)));
        }
    }
    for name in declared() {
        if !wanted.contains_key(&name) {
            fail(&format!("the header declares {name}, of which nothing is said here"));
        }
    }
    println!("names: version {version} in the header and in the library; {} sizes, limits and codes as they must be", wanted.len());
}

/// Every enumerator of the header, which stands on a line of its own, and every macro that is a number, but for the version.
fn declared() -> Vec<String> {
    let lines = include_str!("../include/scm.h").lines();
    let named = lines.filter_map(|line| {
        let (name, number) = match line.strip_prefix("#define ") {
            Some(macro_) => macro_.split_once(' ')?,
            None => line.strip_prefix("    ")?.split_once(" = ")?,
        };
        let is_number = number.trim_start().starts_with(|first: char| first.is_ascii_digit());
        (name.starts_with("SCM_") && name != "SCM_VERSION" && is_number).then(|| name.to_string())
    });
    named.collect()
}

fn fail(why: &str) -> ! {
    crate::fail("names", why)
}

/// Major, minor and patch, of which the last two have three digits each.
fn version() -> String {
    let (header, archive) = (library::header_version(), library::version());
    if (header, archive) != (VERSION, VERSION) {
        fail(&format!("the header is of version {header}, the library of {archive}, wanted is {VERSION}"));
    }
    format!("{}.{}.{}", header / 1_000_000, header / 1_000 % 1_000, header % 1_000)
}
