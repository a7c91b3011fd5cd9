//! The reach report: every object reached from a thread's slots, in all frames, and from the message
//! that it put and that is not yet taken, and on through fields, each once, by rising number.

use std::collections::BTreeSet;

use crate::machine::{run, Run};
use crate::numbers::*;
use crate::reading::{lengths, read_lines};
use crate::state::{State, Thread, Value};

/// A report on a run that was made: the run, and how many objects the list then holds, or 17.
#[derive(Clone, Debug, PartialEq, Eq)]
pub struct Report {
    pub run: Run,
    pub reached: Result<usize, Refusal>,
}

/// Takes a run's inputs (the tables by their lengths), a thread and a list of 256 words. With a
/// refusal, 17 included, the list keeps its words; words past the 256 always do.
pub fn reach_report(
    text: &[u8],
    turns: &[u8],
    program_table: usize,
    state_table: usize,
    thread: usize,
    list: &mut [u16],
) -> Result<Report, Refusal> {
    let lent = [
        (program_table, TABLE_WORDS),
        (state_table, TABLE_WORDS),
        (list.len(), LIST_WORDS),
    ];
    lengths(text.len(), turns.len(), &lent)?;
    let program = read_lines(text)?;
    let run = run(&program, turns);
    let reached = reach(&run.state, thread).map(|objects| {
        write_list(&mut list[..LIST_WORDS], &objects);
        objects.len()
    });
    Ok(Report { run, reached })
}

/// The objects reached, by rising number, or 17 for a thread never started. A finished thread
/// reaches nothing.
pub fn reach(state: &State, thread: usize) -> Result<Vec<u16>, Refusal> {
    let thread = state
        .threads
        .get(thread)
        .ok_or(refused_at_zero(NO_THREAD))?;
    let mut walk = Walk {
        state,
        met: BTreeSet::new(),
    };
    for frame in &thread.frames {
        for value in &frame.slots {
            walk.visit(*value);
        }
    }
    walk.visit(in_flight(state, thread));
    Ok(walk.met.into_iter().collect())
}

/// "The report for a waiting sender also starts from the message that it put, as long as the channel
/// still holds that message": its number decides, since another may have taken its place. Once it is
/// received the channel is empty.
fn in_flight(state: &State, thread: &Thread) -> Value {
    let sending = match thread.sending {
        Some(sending) => sending,
        None => return Value::Absent,
    };
    let channel = state.channel(sending.channel);
    if channel.number == sending.number {
        channel.message
    } else {
        Value::Absent
    }
}

/// The objects, then zeros.
fn write_list(list: &mut [u16], objects: &[u16]) {
    for (place, word) in list.iter_mut().enumerate() {
        *word = objects.get(place).copied().unwrap_or(0);
    }
}

struct Walk<'a> {
    state: &'a State,
    met: BTreeSet<u16>,
}

impl<'a> Walk<'a> {
    /// Recurs into each field; the objects not yet met fall at each step.
    fn visit(&mut self, value: Value) {
        let number = match value {
            Value::Obj(number) => number,
            Value::Absent | Value::Chan(_) => return,
        };
        if !self.met.insert(number) {
            return;
        }
        let state = self.state;
        for field in &state.object(number).fields {
            self.visit(*field);
        }
    }
}
