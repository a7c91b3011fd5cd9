//! The holder count: in how many places an object is held. A place is a slot of any frame of any
//! thread, a field of any object, or the message of any channel. It is always counted afresh here.

use crate::machine::{run, Run};
use crate::numbers::*;
use crate::reading::read_lent;
use crate::script::{Program, Sort};
use crate::state::{Frame, State, Value};

/// A run that was made, and how many places hold the object then, or 21.
#[derive(Clone, Debug, PartialEq, Eq)]
pub struct Counted {
    pub run: Run,
    pub holders: Result<usize, Refusal>,
}

/// Takes a run's inputs (the tables by their lengths) and an object. 21 comes after the refusals of
/// the run itself.
pub fn holder_count(
    text: &[u8],
    turns: &[u8],
    program_table: usize,
    state_table: usize,
    object: usize,
) -> Result<Counted, Refusal> {
    let program = read_lent(text, turns.len(), program_table, state_table)?;
    let run = run(&program, turns);
    let holders = holders_of(&run.state, object);
    Ok(Counted { run, holders })
}

/// How many places hold an object, or 21 for one never made, whatever its number.
pub fn holders_of(state: &State, object: usize) -> Result<usize, Refusal> {
    if object >= state.objects.len() {
        return Err(refused_at_zero(NO_OBJECT));
    }
    Ok(holders(state, object as u16))
}

/// How many places hold an object, self slots among them.
pub fn holders(state: &State, object: u16) -> usize {
    let slots = frames(state).flat_map(|frame| &frame.slots);
    let fields = state.objects.iter().flat_map(|object| &object.fields);
    let messages = state.channels.iter().map(|channel| &channel.message);
    let places = slots.chain(fields).chain(messages);
    places.filter(|value| **value == Value::Obj(object)).count()
}

/// The same when self slots are left out: slot 0 of each frame of a method.
pub fn holders_but_self(program: &Program, state: &State, object: u16) -> usize {
    let of_methods =
        frames(state).filter(|frame| program.blocks[usize::from(frame.block)].sort == Sort::Method);
    let selves = of_methods.filter(|frame| frame.slots[0] == Value::Obj(object));
    holders(state, object) - selves.count()
}

fn frames(state: &State) -> impl Iterator<Item = &Frame> {
    state.threads.iter().flat_map(|thread| &thread.frames)
}
