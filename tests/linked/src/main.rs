//! The program `linked`: `read SEED COUNT` and `run SEED COUNT` hold the compiled box against the second interpreter, on words; `host SEED
//! COUNT` does so through the calls of a C host, on bytes, `race SEED COUNT` for races, on runs that often have one, and `write SEED COUNT` for
//! tables that are written back to their texts; `corpus FILE` does so for the texts of a file and holds both to the file's own answers, and
//! `corpus make EDITION SEED` makes such a file of the texts of an edition; `bench [FILE]` measures both, and shows the times of the file's
//! lines, a load's name, a tab and its ns, beside them.

use std::env;
use std::fs;
use std::process;

use linked::{agree, bench, corpus, host, races, runs, writes};
use second::console::{complain, out};
use second::script::Edition;

const CALLS: usize = 4001;

/// What many texts or runs came to: the rows to show, and what none of them had; or the first difference, with its input.
type Held = Result<(Vec<(String, u64)>, Vec<String>), (Vec<u8>, String)>;

fn main() {
    let arguments: Vec<String> = env::args().skip(1).collect();
    let words: Vec<&str> = arguments.iter().map(String::as_str).collect();
    let status = match words.as_slice() {
        ["bench"] => measured(""),
        ["bench", file] => match fs::read_to_string(file) {
            Ok(lua) => measured(&lua),
            Err(fault) => failed(&format!("{}: {}", file, fault)),
        },
        ["corpus", file] => match fs::read_to_string(file) {
            Ok(texts) => {
                told(corpus::held(&texts).map(|counts| (counts.rows(), corpus::missing(&counts))))
            }
            Err(fault) => failed(&format!("{}: {}", file, fault)),
        },
        ["corpus", "make", edition, seed] => match (*edition, seed.parse()) {
            ("1", Ok(seed)) => out(corpus::made(Edition::One, seed).as_bytes()),
            ("2", Ok(seed)) => out(corpus::made(Edition::Two, seed).as_bytes()),
            _ => usage(),
        },
        [what, seed, count] => match (*what, seed.parse(), count.parse()) {
            ("read", Ok(seed), Ok(count)) => {
                told(agree::many(seed, count).map(|counts| (counts.rows(), counts.missing())))
            }
            ("run", Ok(seed), Ok(count)) => {
                told(runs::many(seed, count).map(|counts| (counts.rows(), counts.missing())))
            }
            ("host", Ok(seed), Ok(count)) => {
                told(host::many(seed, count).map(|counts| (counts.rows(), counts.missing())))
            }
            ("race", Ok(seed), Ok(count)) => {
                told(races::many(seed, count).map(|counts| (counts.rows(), counts.missing())))
            }
            ("write", Ok(seed), Ok(count)) => {
                told(writes::many(seed, count).map(|counts| (counts.rows(), counts.missing())))
            }
            _ => usage(),
        },
        _ => usage(),
    };
    process::exit(status);
}

fn usage() -> i32 {
    complain(
        "linked read SEED COUNT | run SEED COUNT | host SEED COUNT | race SEED COUNT | write SEED COUNT | corpus FILE | corpus make EDITION SEED | bench [FILE]\n",
    );
    2
}

fn failed(fault: &str) -> i32 {
    complain(&format!("{}\n", fault));
    1
}

fn measured(lua: &str) -> i32 {
    match bench::shown(CALLS, lua) {
        Ok(text) => out(text.as_bytes()),
        Err(fault) => failed(&fault),
    }
}

fn told(held: Held) -> i32 {
    match held {
        Ok((rows, missing)) => {
            let text: String = rows
                .iter()
                .map(|(name, number)| format!("{:<36}{:>10}\n", name, number))
                .collect();
            let status = out(text.as_bytes());
            if missing.is_empty() {
                return status;
            }
            complain(&format!("missing: {}\n", missing.join(", ")));
            1
        }
        Err((text, fault)) => {
            out(&text);
            failed(&fault)
        }
    }
}
