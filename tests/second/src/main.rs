//! The program `second`: the double of boxrun and box on standard input, and the random inputs by their seed.

use std::env;
use std::io::{self, Read};
use std::process;

use second::console::{complain, out};
use second::demand3::check_many;
use second::generate;
use second::histogram::Histogram;
use second::input::{boxrun, boxrun_stripped, drawn, raced, reached, saved, stripped};
use second::numbers::MOST_INPUT;
use second::sheet::checked;

const USAGE: &str = "second [--strip | check | save | strip | reach THREAD | draw | race] < INPUT \
                     | generate SEED COUNT | one SEED N | demand3 SEED COUNT\n";

fn main() {
    let arguments: Vec<String> = env::args().skip(1).collect();
    let words: Vec<&str> = arguments.iter().map(String::as_str).collect();
    let status = match words.as_slice() {
        [] => printed(boxrun),
        ["--strip"] => printed(boxrun_stripped),
        ["check"] => printed(checked),
        ["save"] => printed(saved),
        ["strip"] => printed(stripped),
        ["draw"] => printed(drawn),
        ["race"] => printed(raced),
        ["reach", thread] => match thread.parse() {
            Ok(thread) => printed(|input| reached(input, thread)),
            Err(_) => usage(),
        },
        [command, seed, count] => match (seed.parse(), count.parse()) {
            (Ok(seed), Ok(count)) => numbered(command, seed, count),
            _ => usage(),
        },
        _ => usage(),
    };
    process::exit(status);
}

fn numbered(command: &str, seed: u64, count: u64) -> i32 {
    match command {
        "generate" => histogram(seed, count),
        "one" => out(&generate::input(seed, count)),
        "demand3" => demand3(seed, count),
        _ => usage(),
    }
}

fn usage() -> i32 {
    complain(USAGE);
    2
}

/// Reads one byte more than the most, so that long input shows.
fn printed(print: impl Fn(&[u8]) -> Vec<u8>) -> i32 {
    let mut input = Vec::new();
    let most = MOST_INPUT as u64 + 1;
    match io::stdin().lock().take(most).read_to_end(&mut input) {
        Ok(_) => out(&print(&input)),
        Err(_) => {
            complain("standard input cannot be read\n");
            1
        }
    }
}

fn histogram(seed: u64, count: u64) -> i32 {
    let histogram = Histogram::of(seed, count);
    let mut text = String::new();
    for (name, number) in histogram.rows() {
        text.push_str(&format!("{:<28}{:>10}\n", name, number));
    }
    let status = out(text.as_bytes());
    let missing = histogram.missing();
    if missing.is_empty() {
        return status;
    }
    complain(&format!("missing: {}\n", missing.join(", ")));
    1
}

fn demand3(seed: u64, count: u64) -> i32 {
    match check_many(seed, count) {
        Ok(counts) => {
            let rows = counts.rows();
            let text: String = rows
                .iter()
                .map(|(name, number)| format!("{:<42}{:>10}\n", name, number))
                .collect();
            out(text.as_bytes())
        }
        Err(violation) => {
            out(&violation.input);
            complain(&format!("{}\n", violation.fault));
            1
        }
    }
}
