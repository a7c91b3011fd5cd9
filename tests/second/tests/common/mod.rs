//! Short ways to read and run a script in the tests.

#![allow(dead_code)]

use second::input::{boxrun, boxrun_stripped};
use second::machine::{run, Machine, Outcome, Run};
use second::reading::read;
use second::script::Program;

/// A kind without fields or methods.
pub const PLAIN_KIND: &str = "(kind (fields 0) (does))\n";

/// Lines, each with its LF.
pub fn text(lines: &[&str]) -> String {
    lines.iter().map(|line| format!("{}\n", line)).collect()
}

/// The same script in the second edition.
pub fn edition_2(script: &str) -> String {
    format!("(script 2)\n{}", script)
}

/// Thread 0 spawns block 1, makes an object of this capability and sends it there; the lines given
/// stand between its send and its give, and `other` are the lines of block 1.
pub fn sending(cap: &str, then: &[&str], give: &str, other: &[&str]) -> String {
    let made = format!("(let (new {} 0))", cap);
    let mut lines = vec!["(kind (fields 0) (does))", "(thread)", "(let (spawn 1))"];
    lines.extend([made.as_str(), "(let (send 1 (take 2)))"]);
    lines.extend(then);
    lines.extend([give, "(thread)"]);
    lines.extend(other);
    text(&lines)
}

/// The script of case A.
pub fn case_a() -> String {
    sending(
        "iso",
        &[],
        "(give (read 1))",
        &["(let (recv 0))", "(give (take 1))"],
    )
}

/// The script of case G.
pub fn case_g() -> String {
    text(&[
        "(kind (fields 0) (does))",
        "(kind (fields 1) (does))",
        "(thread)",
        "(let (new unsafe 0))",
        "(let (new unsafe 1 (read 1)))",
        "(let (swap 2 0 (take 2)))",
        "(give (read 1))",
    ])
}

pub fn input(script: &str, turns: &str) -> String {
    let space = if turns.is_empty() { "" } else { " " };
    format!("{}(turns{}{})\n", script, space, turns)
}

/// What boxrun prints.
pub fn printed(script: &str, turns: &str) -> String {
    String::from_utf8(boxrun(input(script, turns).as_bytes())).unwrap()
}

pub fn printed_stripped(script: &str, turns: &str) -> String {
    String::from_utf8(boxrun_stripped(input(script, turns).as_bytes())).unwrap()
}

/// The first line that boxrun prints.
pub fn answer(script: &str, turns: &str) -> String {
    first_line(&printed(script, turns))
}

pub fn answer_stripped(script: &str, turns: &str) -> String {
    first_line(&printed_stripped(script, turns))
}

fn first_line(printed: &str) -> String {
    printed.lines().next().unwrap().to_string()
}

/// The line of the listing that begins with the words.
pub fn listed(script: &str, turns: &str, words: &str) -> String {
    let printed = printed(script, turns);
    let found = printed.lines().find(|line| line.starts_with(words));
    found
        .unwrap_or_else(|| panic!("no line {} in\n{}", words, printed))
        .to_string()
}

pub fn program(script: &str) -> Program {
    read(script.as_bytes()).unwrap_or_else(|refusal| panic!("{:?} of\n{}", refusal, script))
}

pub fn run_of(script: &str, turns: &[u8]) -> Run {
    run(&program(script), turns)
}

/// Number and line of a script's refusal.
pub fn refusal(script: &str) -> (u8, usize) {
    match read(script.as_bytes()) {
        Ok(_) => panic!("accepted:\n{}", script),
        Err(refusal) => (refusal.number, refusal.line),
    }
}

pub fn reads(script: &str) -> bool {
    read(script.as_bytes()).is_ok()
}

/// Gives the turns one by one; the last one's outcome.
pub fn outcome(machine: &mut Machine, turns: &[u8]) -> Outcome {
    let mut last = Outcome::Idle;
    for thread in turns {
        last = machine.turn(*thread);
    }
    last
}
