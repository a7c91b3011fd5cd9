//! The check sheet of an input, from docs/SHEET.md alone: the four conditions of the certificate for one script and one list of turns, each
//! with its tick and the lines under it, and the verdict.

use std::collections::BTreeMap;

use crate::form::{script_line, Form};
use crate::input::{last_line, parts};
use crate::layout;
use crate::lines;
use crate::listing::answer;
use crate::machine::{run, Machine, Outcome};
use crate::numbers::*;
use crate::reading::{in_the_list, read};
use crate::script::{Cap, Expr, Program};
use crate::stripped::strip;

const HEADING: &str = "Check sheet of the freezer box";
const TITLES: [&str; 4] = [
    "The script reads clean",
    "Every record carries a capability",
    "The list of turns is filed",
    "Guards change no result",
];
const UNDER: &str = "       ";
const SHOWN: usize = 100;

const CR_HINT: &str = "the line ends in CR LF; save the file with LF alone";
const NO_LF_HINT: &str = "the last line has no LF at its end; was the file cut off?";
const TURNS_HINT: &str = "the last line is to be (turns T ..), each T a number up to 255";

/// A condition of the certificate: whether its tick stands, and the lines under it.
#[derive(Clone, Debug, PartialEq, Eq)]
pub struct Condition {
    pub holds: bool,
    pub under: Vec<String>,
}

/// The four conditions, in their order.
#[derive(Clone, Debug, PartialEq, Eq)]
pub struct Sheet {
    pub conditions: [Condition; 4],
}

impl Sheet {
    /// An input over its most is refused, and nothing else of it is examined.
    pub fn of(input: &[u8]) -> Self {
        if input.len() > MOST_INPUT {
            let clean = refused(refused_at_zero(OVERLONG), b"", |_| true, hint(OVERLONG));
            let conditions = [clean, not_examined(), not_examined(), not_examined()];
            return Sheet { conditions };
        }
        let (script, last) = input.split_at(last_line(input));
        let program = read(script);
        let turns = parts(input).map(|parts| parts.turns);
        let conditions = [
            reads_clean(script, &program),
            carries_capabilities(script, &program),
            is_filed(last, &program, &turns),
            changes_nothing(&program, &turns),
        ];
        Sheet { conditions }
    }

    pub fn all_hold(&self) -> bool {
        self.conditions.iter().all(|condition| condition.holds)
    }

    pub fn text(&self) -> String {
        let mut lines = vec![HEADING.to_string(), String::new()];
        for (place, condition) in self.conditions.iter().enumerate() {
            let tick = if condition.holds { "[x]" } else { "[ ]" };
            lines.push(format!("{} {}. {}", tick, place + 1, TITLES[place]));
            lines.extend(condition.under.iter().map(|line| [UNDER, line].concat()));
        }
        let verdict = if self.all_hold() {
            "all four conditions hold"
        } else {
            "not all four conditions hold"
        };
        lines.extend([String::new(), format!("Verdict: {}", verdict)]);
        lines.iter().map(|line| format!("{}\n", line)).collect()
    }
}

/// What box check prints.
pub fn checked(input: &[u8]) -> Vec<u8> {
    Sheet::of(input).text().into_bytes()
}

fn stands(under: Vec<String>) -> Condition {
    Condition { holds: true, under }
}

fn not_examined() -> Condition {
    Condition {
        holds: false,
        under: vec!["not examined".to_string()],
    }
}

/// The refusal's number, word and line, the line as text with marks under it, and a hint.
fn refused(refusal: Refusal, line: &[u8], marked: fn(u8) -> bool, hint: &str) -> Condition {
    let shown = &line[..line.len().min(SHOWN)];
    let mut under = vec![format!(
        "refused: {} {} at line {}, in an editor line {}",
        refusal.number,
        word(refusal.number),
        refusal.line,
        refusal.line + 1
    )];
    if !shown.is_empty() {
        let mark = |byte: &u8| if marked(*byte) { '^' } else { ' ' };
        under.push(shown.iter().map(|byte| visible(*byte)).collect());
        under.push(shown.iter().map(mark).collect());
    }
    under.push(format!("hint: {}", hint));
    Condition {
        holds: false,
        under,
    }
}

fn visible(byte: u8) -> char {
    match byte {
        32..=126 => char::from(byte),
        _ => '?',
    }
}

/// The word of a refusal of a script (document 01, "Turning away").
fn word(number: u8) -> &'static str {
    match number {
        OVERLONG => "overlong",
        STRAY_BYTE => "stray byte",
        MALFORMED => "malformed",
        OVER_COUNT => "over count",
        UNBOUND => "unbound",
        SELF_TAKEN => "self taken",
        UNFINISHED => "unfinished",
        _ => "dangling",
    }
}

/// The hint for a number where nothing else is to be said of the line.
fn hint(number: u8) -> &'static str {
    match number {
        OVERLONG => "a script has at most 16384 bytes, an input 65536",
        STRAY_BYTE => "only a to z, 0 to 9, brackets, space and LF may stand in a script",
        MALFORMED => "no form of a script, or not in its place",
        OVER_COUNT => {
            "a number over 255, or more kinds, blocks, slots or lets than there is room for"
        }
        UNBOUND => "a slot is used that no line has filled yet",
        SELF_TAKEN => "a method may read its own object, slot 0, and not take it",
        UNFINISHED => "the last block has no give, or there is no block; was the file cut off?",
        _ => "no such kind or block, a block of the wrong sort, or other operands than the kind's fields",
    }
}

/// The number of the script's lines, or its refusal. The script ends where the last line begins, so that each of its lines has its LF.
fn reads_clean(script: &[u8], program: &Result<Program, Refusal>) -> Condition {
    let refusal = match program {
        Ok(_) => return stands(vec![format!("{} lines", script_lines(script).count())]),
        Err(refusal) => *refusal,
    };
    let number = refusal.number;
    if number == OVERLONG {
        return refused(refusal, b"", |_| true, hint(number));
    }
    let line = lines::line(script, refusal.line);
    if number != STRAY_BYTE {
        return refused(refusal, line, |_| true, hint(number));
    }
    let hint = if line.ends_with(b"\r") {
        CR_HINT
    } else {
        hint(number)
    };
    refused(refusal, line, |byte| !in_the_list(byte), hint)
}

/// The lines of an accepted script, each without its LF.
fn script_lines(script: &[u8]) -> impl Iterator<Item = &[u8]> {
    script
        .split_inclusive(|byte| *byte == b'\n')
        .map(|line| &line[..line.len() - 1])
}

/// How many lines make records of each capability, and the numbers of the lines that name `unsafe`.
fn carries_capabilities(script: &[u8], program: &Result<Program, Refusal>) -> Condition {
    if program.is_err() {
        return not_examined();
    }
    let mut makes = [0; Cap::ALL.len()];
    let mut named = String::new();
    for (number, line) in script_lines(script).enumerate() {
        let expr = match script_line(line).map(|parsed| parsed.form) {
            Some(Form::Let(expr)) => expr,
            _ => continue,
        };
        let (cap, made) = match expr {
            Expr::New { cap, .. } | Expr::Copy { cap, .. } => (cap, 1),
            Expr::Cast { cap, .. } => (cap, 0),
            _ => continue,
        };
        makes[cap as usize] += made;
        if cap == Cap::Unsafe {
            named.push_str(&format!(" {}", number));
        }
    }
    if named.is_empty() {
        named.push_str(" none");
    }
    let counts: Vec<String> = Cap::ALL
        .iter()
        .map(|cap| format!("{} {}", cap.word(), makes[*cap as usize]))
        .collect();
    stands(vec![
        format!("lines that make records: {}", counts.join(", ")),
        format!("lines that name unsafe:{}", named),
    ])
}

/// What became of the turns of one thread.
#[derive(Clone, Copy, Default)]
struct Played {
    moved: usize,
    waited: usize,
    idle: usize,
    stopped: usize,
    unplayed: usize,
}

/// The number of turns, and what became of each thread's; or the fault of the last line.
fn is_filed(
    last: &[u8],
    program: &Result<Program, Refusal>,
    turns: &Result<Vec<u8>, Refusal>,
) -> Condition {
    let turns = match turns {
        Ok(turns) => turns,
        Err(refusal) => return faulty(last, *refusal),
    };
    let mut under = vec![format!("{} turns", turns.len())];
    if let Ok(program) = program {
        under.extend(played(program, turns).iter().map(|(thread, played)| {
            let name = if *thread < MOST_THREADS {
                format!("thread {}", thread)
            } else {
                "no thread".to_string()
            };
            format!(
                "{}: {} moved, {} waited, {} idle, {} stopped, {} not played",
                name, played.moved, played.waited, played.idle, played.stopped, played.unplayed
            )
        }));
    }
    stands(under)
}

fn faulty(last: &[u8], refusal: Refusal) -> Condition {
    let line = lines::line(last, 0);
    let hint = if line.ends_with(b"\r") {
        CR_HINT
    } else if !line.is_empty() && line.len() == last.len() {
        NO_LF_HINT
    } else {
        TURNS_HINT
    };
    refused(refusal, line, |_| true, hint)
}

/// By rising thread, all turns of 16 and more together.
fn played(program: &Program, turns: &[u8]) -> BTreeMap<usize, Played> {
    let mut machine = Machine::fresh(program);
    let mut all: BTreeMap<usize, Played> = BTreeMap::new();
    for turn in turns {
        let played = all.entry(usize::from(*turn).min(MOST_THREADS)).or_default();
        if machine.stop.is_some() {
            played.unplayed += 1;
            continue;
        }
        match machine.turn(*turn) {
            Outcome::Moved => played.moved += 1,
            Outcome::Waited => played.waited += 1,
            Outcome::Idle => played.idle += 1,
            Outcome::Stopped(_) => played.stopped += 1,
        }
    }
    all
}

/// Of a script that is read and turns that are filed, both runs.
fn changes_nothing(
    program: &Result<Program, Refusal>,
    turns: &Result<Vec<u8>, Refusal>,
) -> Condition {
    match (program, turns) {
        (Ok(program), Ok(turns)) => compared(program, &strip(program), turns),
        _ => not_examined(),
    }
}

/// What both runs answer, and whether they hold the same words after the turns that the guarded one played; for any second program in the
/// stripped one's stead, so that tests can see it fail.
pub fn compared(guarded: &Program, stripped: &Program, turns: &[u8]) -> Condition {
    let mut machine = Machine::fresh(guarded);
    let stops = |turn: &u8| matches!(machine.turn(*turn), Outcome::Stopped(_));
    let played = turns.iter().position(stops).unwrap_or(turns.len());
    let words = layout::erased(&layout::state(&run(guarded, turns).state));
    let holds = words == layout::state(&run(stripped, &turns[..played]).state);
    let under = vec![
        format!("with guards: {}", answered(guarded, turns)),
        format!("without:     {}", answered(stripped, turns)),
        format!(
            "{} words, capabilities aside, after {} turns",
            if holds { "the same" } else { "other" },
            played
        ),
    ];
    Condition { holds, under }
}

/// The first line that is printed of a run, without its LF.
fn answered(program: &Program, turns: &[u8]) -> String {
    let run = run(program, turns);
    answer(run.end, run.moves).trim_end().to_string()
}
