//! The library's check of a pool, and the program that reads one from standard input, against a model that is written from document 01 alone.

mod cases;
pub mod faults;
pub mod generate;
pub mod model;
mod program;
mod rounds;
mod run;

const COUNT: u64 = 10_000;
const SEED: u64 = 11_783;

/// At least COUNT pools, made from SEED.
pub fn run(arguments: &[&str]) {
    let (count, seed) = crate::count_and_seed(arguments, COUNT, SEED);
    compare(count, seed);
}

/// The program, with one pool a run. HOST_RUN, if set, is the command that runs it.
pub fn run_program(arguments: &[&str]) {
    match arguments {
        [path] => program::compare(path, SEED),
        _ => crate::wrong_usage(),
    }
}

fn compare(count: u64, seed: u64) {
    let mut run = run::Run::new(seed);
    rounds::fixed(&mut run);
    rounds::every_label_character(&mut run);
    rounds::every_cut(&mut run);
    rounds::every_size(&mut run);
    rounds::every_edit(&mut run);
    rounds::every_contest(&mut run);
    rounds::by_chance(&mut run, count);
    run.report();
}

/// Code and object as the program writes them.
fn text(verdict: (u8, u16)) -> String {
    format!("{:02X} {:04X}", verdict.0, verdict.1)
}

fn fail(why: &str) -> ! {
    crate::fail("pool", why)
}

fn dump(pool: &[u8]) {
    for (row, bytes) in pool.chunks(16).enumerate() {
        let bytes: Vec<String> = bytes.iter().map(|byte| format!("{byte:02X}")).collect();
        println!("{:05X}  {}", 16 * row, bytes.join(" "));
    }
}
