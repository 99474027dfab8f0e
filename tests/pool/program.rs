//! Holds the program that reads a pool from standard input against the model: one pool a run.

use super::faults;
use super::generate::{Pool, Random, Shape, FULL};
use super::{cases, dump, fail, model, text};
use std::io::Write;
use std::process::{Command, Stdio};

/// A name and the bytes for standard input.
type Input = (String, Vec<u8>);

pub fn compare(path: &str, seed: u64) {
    let mut random = Random::new(seed);
    let mut inputs: Vec<Input> = cases::fixed().into_iter().map(|case| (case.name.to_string(), case.pool)).collect();
    inputs.extend(edited(&mut random));
    inputs.extend(sized(&mut random));
    for (name, input) in &inputs {
        let wanted = text(model::check(input)) + "\n";
        let given = output(path, input).unwrap_or_else(|why| fail(&format!("{path} ({name}): {why}")));
        if given != wanted.as_bytes() {
            dump(&input[..input.len().min(FULL)]);
            let given = String::from_utf8_lossy(&given);
            fail(&format!("{path} ({name}, {} bytes): wrote {given:?}, wanted was {wanted:?}", input.len()));
        }
    }
    println!("poolcheck: {} inputs, 0 differences", inputs.len());
}

/// What the program writes to standard output. It is an error if it does not read all of its input.
fn output(path: &str, input: &[u8]) -> std::io::Result<Vec<u8>> {
    let prefix = std::env::var("HOST_RUN").unwrap_or_default();
    let words: Vec<&str> = prefix.split_whitespace().chain([path]).collect();
    let mut child = Command::new(words[0]).args(&words[1..]).stdin(Stdio::piped()).stdout(Stdio::piped()).spawn()?;
    if let Some(mut stdin) = child.stdin.take() {
        stdin.write_all(input)?;
    }
    Ok(child.wait_with_output()?.stdout)
}

/// A small pool for each edit, so for each code.
fn edited(random: &mut Random) -> Vec<Input> {
    let shape = Shape { functions: 3, states: 4, shortest: 0, longest: 4, unlisted: 2 };
    let mut inputs = Vec::new();
    for edit in faults::edits() {
        let mut pool = Pool::legal(random, shape, FULL);
        (edit.apply)(&mut pool, random);
        inputs.push((edit.name.to_string(), pool.bytes()));
    }
    inputs
}

/// Pools of sizes that a reader may stumble over.
fn sized(random: &mut Random) -> Vec<Input> {
    let least = Pool::least(random).bytes();
    let mut full = Pool::least(random);
    full.pad(random, FULL, 0);
    let full = full.bytes();
    assert_eq!(full.len(), FULL);
    let behind = |pool: &[u8], size: usize| {
        let mut bytes = pool.to_vec();
        bytes.resize(size, 0);
        (format!("{} good bytes in {size}", pool.len()), bytes)
    };
    vec![
        behind(&full, FULL),
        behind(&full, FULL + 1),
        behind(&least, FULL + 1),
        behind(&least, 0x1_0000),
        behind(&least, 0x1_0000 + least.len()),
        behind(&full, 1 << 20),
        behind(&least, 1 << 20),
    ]
}
