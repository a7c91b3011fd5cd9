//! Races (document 02, L9), found by trying every pair of turns by the request's own words.

use std::collections::BTreeSet;

use crate::checks::{decide, Action, Decision};
use crate::copying::met;
use crate::machine::{run, Machine, Run};
use crate::numbers::*;
use crate::reading::read_lent;
use crate::script::{Expr, Program};
use crate::state::{State, Value};

/// An object, and the number of one of its fields.
pub type Place = (u16, u8);

/// Two turns that race, by their places in the list, and what they race on.
#[derive(Clone, Copy, Debug, PartialEq, Eq)]
pub struct Race {
    pub first: usize,
    pub second: usize,
    pub object: u16,
    pub field: u8,
}

/// A run that was made, and the race that is named, if it has one.
#[derive(Clone, Debug, PartialEq, Eq)]
pub struct Judged {
    pub run: Run,
    pub race: Option<Race>,
}

/// Takes a run's inputs (the tables by their lengths). "More turns are 1 there."
pub fn judge(
    text: &[u8],
    turns: &[u8],
    program_table: usize,
    state_table: usize,
) -> Result<Judged, Refusal> {
    if turns.len() > MOST_RACE_TURNS {
        return Err(refused_at_zero(OVERLONG));
    }
    let program = read_lent(text, turns.len(), program_table, state_table)?;
    let race = races(&deeds(&program, turns)).next();
    let run = run(&program, turns);
    Ok(Judged { run, race })
}

/// What a turn did, if it moved. The objects of a message are those reached from it.
#[derive(Clone, Debug, Default, PartialEq, Eq)]
pub struct Deed {
    pub thread: u8,
    pub reads: BTreeSet<Place>,
    pub swaps: Option<Place>,
    pub put: BTreeSet<u16>,
    pub received: BTreeSet<u16>,
}

impl Deed {
    pub fn touches(&self, place: Place) -> bool {
        self.reads.contains(&place) || self.swaps == Some(place)
    }
}

/// One for each turn of the list.
pub fn deeds(program: &Program, turns: &[u8]) -> Vec<Deed> {
    let mut machine = Machine::fresh(program);
    turns
        .iter()
        .map(|thread| {
            let deed = match machine.stop {
                None => deed(program, &machine.state, *thread),
                Some(_) => nothing(*thread),
            };
            machine.turn(*thread);
            deed
        })
        .collect()
}

fn nothing(thread: u8) -> Deed {
    Deed {
        thread,
        ..Deed::default()
    }
}

/// By the state before the turn.
fn deed(program: &Program, state: &State, thread: u8) -> Deed {
    let mut deed = nothing(thread);
    let action = match decide(program, state, thread) {
        Decision::Move(step) => step.action,
        Decision::Idle | Decision::Wait | Decision::Stop(_) => return deed,
    };
    match action {
        Action::Fill(_) => deed.reads = field_read(program, state, thread),
        Action::Store { object, field, .. } => deed.swaps = Some((object, field)),
        Action::Put { value, .. } => deed.put = reached(state, value),
        Action::Receive { channel } => {
            deed.received = reached(state, state.channel(channel).message)
        }
        Action::Copy { met, .. } => deed.reads = met.into_iter().flat_map(fields(state)).collect(),
        Action::Enter { .. }
        | Action::Make { .. }
        | Action::Start { .. }
        | Action::MoveOn { .. }
        | Action::Give(_) => {}
    }
    deed
}

/// Every field of an object.
fn fields(state: &State) -> impl Fn(u16) -> Vec<Place> + '_ {
    |object| {
        let count = state.object(object).fields.len() as u8;
        (0..count).map(|field| (object, field)).collect()
    }
}

/// The field that a line `(field S F)` reads; any other that only fills a slot reads none.
fn field_read(program: &Program, state: &State, thread: u8) -> BTreeSet<Place> {
    let frame = state.threads[usize::from(thread)].frames.last();
    let read = frame.and_then(|frame| {
        let lets = &program.blocks[usize::from(frame.block)].lets;
        match lets.get(usize::from(frame.line))? {
            Expr::Field { target, field } => match frame.slots.get(usize::from(*target))? {
                Value::Obj(object) => Some((*object, *field)),
                Value::Absent | Value::Chan(_) => None,
            },
            _ => None,
        }
    });
    read.into_iter().collect()
}

fn reached(state: &State, message: Value) -> BTreeSet<u16> {
    match message {
        Value::Obj(object) => met(state, object).into_iter().collect(),
        Value::Absent | Value::Chan(_) => BTreeSet::new(),
    }
}

/// All races: by rising second turn, and of each by falling first turn. "The earliest turn that races with one before it, the last turn
/// before it that it races with" stand first.
pub fn races(deeds: &[Deed]) -> impl Iterator<Item = Race> + '_ {
    let pairs =
        (0..deeds.len()).flat_map(|second| (0..second).rev().map(move |first| (first, second)));
    pairs.filter_map(move |(first, second)| race(deeds, first, second))
}

/// "Two turns that move race when different threads made them, each reads or swaps the same field of
/// the same object, and at least one swaps. They do not race if .."
fn race(deeds: &[Deed], first: usize, second: usize) -> Option<Race> {
    let (earlier, later) = (&deeds[first], &deeds[second]);
    if earlier.thread == later.thread {
        return None;
    }
    let swapped = [earlier.swaps, later.swaps].into_iter().flatten();
    let (object, field) = swapped
        .filter(|place| earlier.touches(*place) && later.touches(*place))
        .find(|(object, _)| !handed_over(deeds, first, second, *object))?;
    Some(Race {
        first,
        second,
        object,
        field,
    })
}

/// ".. between them, the first thread put a message from which the object was reached and the second
/// afterwards received one from which it was reached."
fn handed_over(deeds: &[Deed], first: usize, second: usize, object: u16) -> bool {
    let put = |turn: &usize| {
        deeds[*turn].thread == deeds[first].thread && deeds[*turn].put.contains(&object)
    };
    let received = |turn: usize| {
        deeds[turn].thread == deeds[second].thread && deeds[turn].received.contains(&object)
    };
    let mut puts = (first + 1..second).filter(put);
    puts.any(|put| (put + 1..second).any(received))
}

/// "A script in which the word unsafe does not occur" has no such bytes anywhere in its text.
pub fn has_the_word(text: &[u8]) -> bool {
    text.windows(b"unsafe".len())
        .any(|bytes| bytes == b"unsafe")
}
