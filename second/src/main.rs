//! The second program: the pool of document 01 and of the change requests in document 02 once more,
//! written from those two alone and in another way, to be held against the first one.
//!
//!   second tape                    a tape on standard input, its lines on standard output
//!   second probe                   probe commands on standard input, a line for each
//!   second compare --tape "COMMAND" --probe "COMMAND" [--seed N] [--keep DIR] [--pool-only] [--first]
//!                                  holds both programs, each a command for a shell,
//!                                  against this one; failing inputs are kept in DIR
//!                                  (target/compare); the last line is `N passed, M failed`;
//!                                  --pool-only leaves the piston bank out, for a probe that has
//!                                  none; --first ends at the first difference
//!   second self [--seed N]         checks of this program by itself, with the same last line
//!   second count [--seed N]        only the branches that the random inputs take
//!   second work N K                probe commands: a pool of N bytes full of 8-byte blocks, and K
//!                                  inspections of it
//!   second pools [--seed N]        small pools as text of the prover's language
//!
//! The state is vectors of blocks and ordered lists (state.rs). The rules make a new state from
//! the old one (rules.rs), and all governed bytes of it are laid over the old bytes (layout.rs).
//! A pool is read by rebuilding the state and comparing every governed byte. calls.rs joins the
//! two and keeps the order of refusals. The piston bank stands on these calls (bank.rs).

mod bank;
mod banks;
mod branches;
mod calls;
mod cases;
mod child;
mod compare;
mod conversion;
mod damage;
mod homing;
mod images;
mod layout;
mod levels;
mod pools;
mod probe;
mod random;
mod report;
mod rules;
mod script;
mod selfcheck;
mod state;
mod tally;
mod tape;
mod tapes;

use std::env;
use std::io::{self, Read, Write};
use std::path::PathBuf;
use std::process::exit;

fn main() {
    let words: Vec<String> = env::args().skip(1).collect();
    let (command, options) = match words.split_first() {
        Some((command, options)) => (command.as_str(), options),
        None => usage("a sub-command is missing"),
    };
    match command {
        "tape" => print_all(&tape::run(&input())),
        "probe" => print_all(&probe::run(&input())),
        "compare" => finish(compare::run(compare_options(options))),
        "self" => {
            let keep = option(options, "--keep").unwrap_or("target/compare");
            finish(selfcheck::run(seed(options), &PathBuf::from(keep)))
        }
        "count" => compare::count(seed(options)),
        "work" => work(options),
        "pools" => print_all(&pools::text(seed(options))),
        other => usage(&format!("no sub-command is called {}", other)),
    }
}

fn usage(fault: &str) -> ! {
    eprintln!("second: {}", fault);
    eprintln!("usage: second tape | probe | self [--seed N] | count [--seed N]");
    eprintln!("       second work N K | pools [--seed N]");
    eprintln!(
        "       second compare --tape \"COMMAND\" --probe \"COMMAND\" [--seed N] [--keep DIR]"
    );
    eprintln!("                      [--pool-only] [--first]");
    exit(2)
}

fn finish(good: bool) {
    exit(if good { 0 } else { 1 })
}

fn input() -> Vec<u8> {
    let mut bytes = Vec::new();
    if let Err(error) = io::stdin().lock().read_to_end(&mut bytes) {
        usage(&format!("standard input cannot be read: {}", error));
    }
    bytes
}

fn print_all(lines: &str) {
    // A reader that has gone away is no fault of this program.
    drop(io::stdout().lock().write_all(lines.as_bytes()));
}

/// The word behind an option's name.
fn option<'a>(words: &'a [String], name: &str) -> Option<&'a str> {
    let place = words.iter().position(|word| word == name)?;
    words.get(place + 1).map(String::as_str)
}

fn seed(words: &[String]) -> u64 {
    match option(words, "--seed").unwrap_or("1").parse() {
        Ok(seed) => seed,
        Err(_) => usage("a seed is a number"),
    }
}

fn number(words: &[String], place: usize, name: &str) -> usize {
    match words.get(place).map(|word| word.parse()) {
        Some(Ok(number)) => number,
        _ => usage(&format!("work needs the number {}", name)),
    }
}

fn work(words: &[String]) {
    let n = number(words, 0, "N");
    if !state::allowed(n) {
        usage("N is a multiple of 8 from 176 to 65536");
    }
    let mut script = script::Script::new();
    script.image(&layout::write(&images::full_of_small(n), &vec![0; n]));
    for _ in 0..number(words, 1, "K") {
        script.plain(b'N');
    }
    drop(io::stdout().lock().write_all(&script.input));
}

/// A shell takes the command apart, so that a path in it may have a space.
fn command_words(words: &[String], name: &str) -> Vec<String> {
    let text = option(words, name).unwrap_or("").trim();
    if text.is_empty() {
        usage(&format!("compare needs {} \"COMMAND\"", name));
    }
    ["sh", "-c", &format!("exec {}", text)].map(str::to_string).to_vec()
}

fn compare_options(words: &[String]) -> compare::Options {
    compare::Options {
        tape: command_words(words, "--tape"),
        probe: command_words(words, "--probe"),
        seed: seed(words),
        keep: PathBuf::from(option(words, "--keep").unwrap_or("target/compare")),
        pool_only: words.iter().any(|word| word == "--pool-only"),
        first: words.iter().any(|word| word == "--first"),
    }
}
