//! The library, through include/scm.h, against models that are written from documents 01 and 02 alone. Stops at the first difference, which it prints.
//!
//!   main                        every part, each in one line and what it met
//!   main long                   the same with many more cases
//!   main small                  every part with few cases, for a checker of memory
//!   main PART [COUNT [SEED]]    one part, with so many cases and from such a number: pool, objects, profile, shown, printed, stored, bits,
//!                               fences, unwanted
//!   main message [COUNT]        so many messages of each clause are tried with every value of every byte
//!   main layout, texts or names one part
//!   main master [COUNT]         the cases of 01, then scenarios; fails where something that must be met was not
//!   main master met             the same, and prints all that was met, and how often
//!   main master SEED COUNT      so many other scenarios from this number on
//!   main poolcheck PROGRAM      the program that reads a pool from standard input; HOST_RUN is the command that runs it

#![deny(warnings)]

mod bits;
mod fences;
mod layout;
mod library;
mod master;
mod message;
mod names;
mod objects;
mod pool;
mod printed;
mod profile;
mod shown;
mod stored;
mod texts;
mod unwanted;

type Part = fn(&[&str]);

/// The parts: name, function, and the arguments for many cases and for few.
const PARTS: &[(&str, Part, &[&str], &[&str])] = &[
    ("texts", texts::run, &[], &[]),
    ("names", names::run, &[], &[]),
    ("layout", layout::run, &[], &[]),
    ("pool", pool::run, &["40000"], &["1"]),
    ("objects", objects::run, &["4000"], &["250"]),
    ("profile", profile::run, &["6000"], &["100"]),
    ("message", message::run, &[], &["1"]),
    ("shown", shown::run, &["20000000"], &["10000"]),
    ("printed", printed::run, &["400000"], &["200"]),
    ("stored", stored::run, &["1000"], &["5"]),
    ("bits", bits::run, &["10000"], &["50"]),
    ("fences", fences::run, &["3000"], &["20"]),
    ("unwanted", unwanted::run, &["3000"], &["20"]),
    ("master", master::run, &["1200"], &["11783", "12"]),
];

fn main() {
    let arguments: Vec<String> = std::env::args().skip(1).collect();
    let arguments: Vec<&str> = arguments.iter().map(String::as_str).collect();
    match arguments[..] {
        [] => PARTS.iter().for_each(|(_, run, _, _)| run(&[])),
        ["long"] => PARTS.iter().for_each(|(_, run, many, _)| run(many)),
        ["small"] => PARTS.iter().for_each(|(_, run, _, few)| run(few)),
        ["poolcheck", ref rest @ ..] => pool::run_program(rest),
        [name, ref rest @ ..] => match PARTS.iter().find(|(part, _, _, _)| *part == name) {
            Some((_, run, _, _)) => run(rest),
            None => wrong_usage(),
        },
    }
}

fn wrong_usage() -> ! {
    fail("usage", "main, main long, main small, main PART [ARGUMENTS], main poolcheck PROGRAM")
}

fn number(text: &str) -> u64 {
    text.parse().unwrap_or_else(|_| fail("usage", &format!("not a number: {text}")))
}

/// "[COUNT [SEED]]"
fn count_and_seed(arguments: &[&str], count: u64, seed: u64) -> (u64, u64) {
    match arguments {
        [] => (count, seed),
        [count] => (number(count), seed),
        [count, seed] => (number(count), number(seed)),
        _ => wrong_usage(),
    }
}

fn fail(part: &str, why: &str) -> ! {
    eprintln!("{part}: {why}");
    std::process::exit(1)
}
