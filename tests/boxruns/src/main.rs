//! The program `boxruns`: `boxruns PATH SEED COUNT` starts the boxrun at PATH on the examples, on inputs that are written out and on COUNT
//! random ones, and holds what it prints to the second interpreter's, byte for byte, and to demand 3. `boxruns save PATH SEED COUNT` holds what
//! the box_tool at PATH prints for `save` on such inputs to what the second interpreter has; `strip`, `reach`, `check`, `draw` and `race`
//! likewise. `boxruns graphviz PATH SEED COUNT` holds what Graphviz reads of its drawings to the objects that the second interpreter has.

#![forbid(unsafe_code)]

mod asked;
mod counts;
mod demand3;
mod fixed;
mod graphviz;
mod many;
mod one;
mod printed;
mod program;

use std::env;
use std::fs;
use std::io;
use std::path::{Path, PathBuf};
use std::process;

use second::console::{complain, out};
use second::input::boxrun;

use counts::Counts;
use many::Difference;
use program::Program;

const EXAMPLES: &str = concat!(env!("CARGO_MANIFEST_DIR"), "/../../examples");

/// What many inputs came to: the rows to show; or the first difference.
type Held = Result<Vec<(String, u64)>, Difference>;

fn main() {
    let arguments: Vec<String> = env::args().skip(1).collect();
    let words: Vec<&str> = arguments.iter().map(String::as_str).collect();
    let status = match words.as_slice() {
        [path, seed, count] => started(path, seed, count, &|program, seed, count| {
            all(program, seed, count).map(|counts| counts.rows())
        }),
        ["graphviz", path, seed, count] => started(path, seed, count, &graphviz::all),
        [word, path, seed, count] => match asked::of(word) {
            Some(asked) => started(path, seed, count, &|program, seed, count| {
                asked.all(program, seed, count)
            }),
            None => usage(),
        },
        _ => usage(),
    };
    process::exit(status);
}

fn usage() -> i32 {
    complain(
        "boxruns PATH SEED COUNT | boxruns save|strip|reach|check|draw|race|graphviz PATH SEED COUNT\n",
    );
    2
}

fn started(path: &str, seed: &str, count: &str, all: &dyn Fn(&Program, u64, u64) -> Held) -> i32 {
    let program = Program {
        path: PathBuf::from(path),
        words: Vec::new(),
    };
    match (seed.parse(), count.parse()) {
        (Ok(seed), Ok(count)) => told(all(&program, seed, count)),
        _ => usage(),
    }
}

fn all(program: &Program, seed: u64, count: u64) -> Result<Counts, Difference> {
    let mut counts = Counts::default();
    written_out(program, &mut counts)?;
    examples(program, &mut counts)?;
    in_pieces(program)?;
    let one = |input: &[u8], counts: &mut Counts| one::one(program, input, counts).map(|_| ());
    for part in many::many(seed, count, many::input, one)? {
        counts.join(&part);
    }
    Ok(counts)
}

fn differs(name: &str, input: &[u8], fault: String) -> Difference {
    Difference {
        name: name.to_string(),
        input: input.to_vec(),
        fault,
    }
}

fn first_line(output: &[u8]) -> String {
    let text = String::from_utf8_lossy(output);
    text.lines().next().unwrap_or("").to_string()
}

fn written_out(program: &Program, counts: &mut Counts) -> Result<(), Difference> {
    for case in fixed::all() {
        let difference = |fault| differs(&case.name, &case.input, fault);
        one::one(program, &case.input, counts).map_err(difference)?;
        let first = first_line(&boxrun(&case.input));
        if first != case.first_line {
            return Err(difference(format!("{} and not {}", first, case.first_line)));
        }
    }
    Ok(())
}

/// The inputs of the examples, of which there are some.
fn example_files() -> Result<Vec<PathBuf>, Difference> {
    let unreadable = |fault: io::Error| differs("examples", b"", fault.to_string());
    let mut found = Vec::new();
    for entry in fs::read_dir(EXAMPLES).map_err(unreadable)? {
        let path = entry.map_err(unreadable)?.path();
        if path
            .extension()
            .map_or(false, |extension| extension == "box")
        {
            found.push(path);
        }
    }
    if found.is_empty() {
        return Err(differs("examples", b"", "there are none".to_string()));
    }
    Ok(found)
}

/// Each NAME.box prints NAME.out.
fn examples(program: &Program, counts: &mut Counts) -> Result<(), Difference> {
    for path in example_files()? {
        let unreadable = |fault: io::Error| differs(&name(&path), b"", fault.to_string());
        let input = fs::read(&path).map_err(unreadable)?;
        let expected = fs::read(path.with_extension("out")).map_err(unreadable)?;
        let difference = |fault| differs(&name(&path), &input, fault);
        one::one(program, &input, counts).map_err(difference)?;
        one::same(&boxrun(&input), &expected).map_err(difference)?;
    }
    Ok(())
}

fn name(path: &Path) -> String {
    path.display().to_string()
}

/// The first half, the rest, and the last byte.
fn in_three(input: &[u8]) -> [&[u8]; 3] {
    let (first, rest) = input.split_at(input.len() / 2);
    let (middle, last) = rest.split_at(rest.len().saturating_sub(1));
    [first, middle, last]
}

/// Standard input that comes bit by bit is the same input.
fn in_pieces(program: &Program) -> Result<(), Difference> {
    for case in fixed::all() {
        program
            .printed_in_pieces(&in_three(&case.input))
            .and_then(|ours| one::same(&ours, &boxrun(&case.input)))
            .map_err(|fault| differs(&format!("{}, in pieces", case.name), &case.input, fault))?;
    }
    Ok(())
}

fn told(held: Held) -> i32 {
    match held {
        Ok(rows) => {
            let text: String = rows
                .iter()
                .map(|(name, number)| format!("{:<28}{:>10}\n", name, number))
                .collect();
            let status = out(text.as_bytes());
            let zeros = rows.iter().filter(|(_, count)| *count == 0);
            let missing: Vec<&str> = zeros.map(|(name, _)| name.as_str()).collect();
            if missing.is_empty() {
                return status;
            }
            complain(&format!("missing: {}\n", missing.join(", ")));
            1
        }
        Err(difference) => {
            out(&difference.input);
            complain(&format!("{}: {}\n", difference.name, difference.fault));
            1
        }
    }
}
