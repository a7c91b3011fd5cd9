//! boxrun as a function: its input, a script and the last line `(turns T ..)`, to what it prints. And
//! box save, strip, reach, draw and race on such an input.

use crate::drawing::drawing;
use crate::form::turns_line;
use crate::listing::{listing, refused};
use crate::machine::run;
use crate::numbers::*;
use crate::races::{judge, Race};
use crate::reach::reach;
use crate::reading::read_lent;
use crate::script::Program;
use crate::stripped::{strip, strip_text};

/// The input of boxrun, taken apart: the script's text, not yet judged, and the turns.
#[derive(Clone, Debug, PartialEq, Eq)]
pub struct Parts<'a> {
    pub script: &'a [u8],
    pub turns: Vec<u8>,
}

/// What boxrun prints.
pub fn boxrun(input: &[u8]) -> Vec<u8> {
    match accepted(input) {
        Ok((program, turns)) => listing(&run(&program, &turns)).into_bytes(),
        Err(refusal) => refused(refusal).into_bytes(),
    }
}

/// What boxrun would print if the script were stripped after reading.
pub fn boxrun_stripped(input: &[u8]) -> Vec<u8> {
    match accepted(input) {
        Ok((program, turns)) => listing(&run(&strip(&program), &turns)).into_bytes(),
        Err(refusal) => refused(refusal).into_bytes(),
    }
}

/// What box save prints: the input itself, for every script that is accepted comes back byte for byte.
pub fn saved(input: &[u8]) -> Vec<u8> {
    or_refused(accepted(input).map(|_| input.to_vec()))
}

/// What box strip prints: the input with its script stripped. A script that grows past the most is no text, and an input that does is
/// overlong.
pub fn stripped(input: &[u8]) -> Vec<u8> {
    or_refused(accepted(input).and_then(|_| {
        let script = parts(input)?.script;
        let text = strip_text(script);
        if text.len() > MOST_TEXT {
            return Err(refused_at_zero(NO_SCRIPT));
        }
        let whole = [&text[..], &input[script.len()..]].concat();
        if whole.len() > MOST_INPUT {
            return Err(refused_at_zero(OVERLONG));
        }
        Ok(whole)
    }))
}

/// What box reach prints: the objects that a thread reaches after the run, by rising number.
pub fn reached(input: &[u8], thread: usize) -> Vec<u8> {
    or_refused(accepted(input).and_then(|(program, turns)| {
        let objects = reach(&run(&program, &turns).state, thread)?;
        let words: String = objects.iter().map(|n| format!(" {}", n)).collect();
        Ok(format!("(reached{})\n", words).into_bytes())
    }))
}

/// What box draw prints: the objects of the run as a graph.
pub fn drawn(input: &[u8]) -> Vec<u8> {
    or_refused(
        accepted(input).map(|(program, turns)| drawing(&run(&program, &turns).state).into_bytes()),
    )
}

/// What box race prints: the race that is named, or that there is none. More turns than can be asked come after the faults of the line of
/// turns and before those of the script.
pub fn raced(input: &[u8]) -> Vec<u8> {
    or_refused(parts(input).and_then(|parts| {
        let judged = judge(parts.script, &parts.turns, TABLE_WORDS, TABLE_WORDS)?;
        Ok(race_line(judged.race).into_bytes())
    }))
}

fn race_line(race: Option<Race>) -> String {
    match race {
        Some(race) => format!(
            "(race {} {} {} {})\n",
            race.first, race.second, race.object, race.field
        ),
        None => "(norace)\n".to_string(),
    }
}

fn or_refused(text: Result<Vec<u8>, Refusal>) -> Vec<u8> {
    text.unwrap_or_else(|refusal| refused(refusal).into_bytes())
}

/// The program and the turns. Faults go in the order: long input, the turns line, the script.
pub fn accepted(input: &[u8]) -> Result<(Program, Vec<u8>), Refusal> {
    let parts = parts(input)?;
    let program = read_lent(parts.script, parts.turns.len(), TABLE_WORDS, TABLE_WORDS)?;
    Ok((program, parts.turns))
}

/// Long input is 1. A fault of the turns line is 3, also for a stray byte or empty input, then 4
/// for a number over 255, with its line in the input.
pub fn parts(input: &[u8]) -> Result<Parts<'_>, Refusal> {
    if input.len() > MOST_INPUT {
        return Err(refused_at_zero(OVERLONG));
    }
    let (script, last) = input.split_at(last_line(input));
    let line = script.iter().filter(|byte| **byte == b'\n').count();
    let parsed = last
        .strip_suffix(b"\n")
        .and_then(turns_line)
        .ok_or(Refusal {
            number: MALFORMED,
            line,
        })?;
    if parsed.over {
        return Err(Refusal {
            number: OVER_COUNT,
            line,
        });
    }
    Ok(Parts {
        script,
        turns: parsed.form,
    })
}

/// Where the last line begins: "what follows the last LF that is not the input's final byte, or all
/// of the input if there is none".
pub fn last_line(input: &[u8]) -> usize {
    let before_final = &input[..input.len().saturating_sub(1)];
    match before_final.iter().rposition(|byte| *byte == b'\n') {
        Some(place) => place + 1,
        None => 0,
    }
}
