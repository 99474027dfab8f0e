//! The words of the header: every number and every code that may be given has words of its own, and all others share one.

use crate::library;
use std::collections::BTreeSet;

/// What is said in words: which codes, and by which function.
type Words = (&'static str, &'static [u8], fn(u8) -> String);

const WORDS: &[Words] = &[
    // "Numbers a call gives back", and of document 02 the refusals of request 1
    ("number", &[0, 1, 2, 3, 4, 5, 6, 7, 8, 9, 10, 11, 12, 13, 14, 15, 16, 17], library::number_text),
    // D.9. "Code 08 is never given".
    ("pool code", &[0x00, 0x01, 0x02, 0x03, 0x04, 0x05, 0x06, 0x07, 0x09, 0x0A, 0x0B, 0x0C, 0xFF], library::pool_code_text),
    // Inactive, ready, record, record complete, playback, abort.
    ("state", &[0, 1, 2, 3, 4, 5], library::state_text),
    // Disabled, ready, record, playback, abort.
    ("report", &[0, 1, 2, 4, 5], library::report_text),
    // The two bits of E.4, E.5, E.7 and E.8.
    ("status", &[0b00, 0b01, 0b10, 0b11], library::status_text),
    // Byte 4 of E.2; 00 is reserved.
    ("reason", &[0x01, 0x02, 0x03, 0xFF], library::reason_text),
    // Byte 4 of E.3; 00 is reserved.
    ("abort", &[0x01, 0x02, 0x03, 0xFF], library::abort_text),
    // Byte 4 of E.5.
    ("indication error", &[0x00, 0x01, 0x02, 0x03, 0x04, 0x05, 0x06, 0xFF], library::indication_error_text),
    // Byte 4 of E.7.
    ("answer error", &[0x00, 0x01, 0x02, 0x03, 0xFF], library::answer_error_text),
];

pub fn run(arguments: &[&str]) {
    if !arguments.is_empty() {
        crate::wrong_usage();
    }
    let said: Vec<String> = WORDS.iter().map(|words| format!("{} of {}", hold(words), words.0)).collect();
    println!("texts: {}, each in words of its own", said.join(", "));
}

fn fail(why: &str) -> ! {
    crate::fail("texts", why)
}

/// How many have words of their own.
fn hold((what, known, text): &Words) -> usize {
    let (mut own, mut others) = (BTreeSet::new(), BTreeSet::new());
    for code in 0..=255 {
        let words = text(code);
        if words.is_empty() || own.contains(&words) {
            fail(&format!("{what} {code}: {words:?} is empty or said before"));
        }
        if known.contains(&code) { own.insert(words) } else { others.insert(words) };
    }
    if others.len() != 1 || !own.is_disjoint(&others) {
        fail(&format!("{what}: what is none has not the words of none: {others:?}"));
    }
    own.len()
}
