//! One input: boxrun prints what the second interpreter prints, and demand 3 holds of what it prints for the stripped script.

use second::generate::turns_text;
use second::input::{boxrun, parts};
use second::machine::{Machine, Outcome};
use second::numbers::{MOST_INPUT, MOST_TEXT};
use second::reading::read;
use second::stripped::strip_text;

use crate::counts::Counts;
use crate::demand3::{by_guard, matches, stopped_alone};
use crate::printed::{taken_apart, Answer, Printed};
use crate::program::Program;

/// Runs one input and its stripped script; the difference is told in words.
pub fn one(program: &Program, input: &[u8], counts: &mut Counts) -> Result<Answer, String> {
    let guarded = agreed(program, input)?;
    counts.add(&guarded.answer);
    if !matches!(guarded.answer, Answer::Refused { .. }) {
        stripped(program, input, &guarded, counts)?;
    }
    Ok(guarded.answer)
}

/// What both print.
fn agreed(program: &Program, input: &[u8]) -> Result<Printed, String> {
    same(&program.printed(input)?, &boxrun(input))
}

pub fn same(ours: &[u8], theirs: &[u8]) -> Result<Printed, String> {
    if ours != theirs {
        return Err(format!(
            "boxrun prints\n{}and the second interpreter\n{}",
            String::from_utf8_lossy(ours),
            String::from_utf8_lossy(theirs)
        ));
    }
    taken_apart(ours)
}

fn stripped(
    program: &Program,
    input: &[u8],
    guarded: &Printed,
    counts: &mut Counts,
) -> Result<(), String> {
    let parts = parts(input).map_err(|refusal| format!("{:?}", refusal))?;
    let script = strip_text(parts.script);
    let whole = [&script[..], &turns_text(&parts.turns)].concat();
    if script.len() > MOST_TEXT || whole.len() > MOST_INPUT {
        return Ok(());
    }
    let stripped = agreed(program, &whole)?;
    counts.stripped += 1;
    if !by_guard(&guarded.answer) {
        return matches(guarded, &stripped);
    }
    let place = stop_place(parts.script, &parts.turns);
    let cut = [&script[..], &turns_text(&parts.turns[..place])].concat();
    counts.stopped_alone += 1;
    stopped_alone(guarded, &agreed(program, &cut)?, &stripped)
}

/// The place in the list of the turn that stops, or the list's length.
fn stop_place(script: &[u8], turns: &[u8]) -> usize {
    let program = match read(script) {
        Ok(program) => program,
        Err(_) => return turns.len(),
    };
    let mut machine = Machine::fresh(&program);
    let stops = |thread: &u8| matches!(machine.turn(*thread), Outcome::Stopped(_));
    turns.iter().position(stops).unwrap_or(turns.len())
}
