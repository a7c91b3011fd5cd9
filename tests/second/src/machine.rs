//! Turns, runs and ends. A turn is decided first and written afterwards, so that a stop or a wait
//! leaves the state as it was.

use crate::checks::{decide, Action, Decision, Move};
use crate::copying::add_copies;
use crate::script::Program;
use crate::state::{Channel, Frame, Object, Sending, State, Thread, Value};

/// "A stop has thread, block and line"; the line counts in its block, of the innermost frame.
#[derive(Clone, Copy, Debug, PartialEq, Eq)]
pub struct Stop {
    pub number: u8,
    pub thread: u8,
    pub block: u8,
    pub line: u8,
}

/// What one turn does.
#[derive(Clone, Copy, Debug, PartialEq, Eq)]
pub enum Outcome {
    Moved,
    Waited,
    Idle,
    Stopped(Stop),
}

#[derive(Clone, Copy, Debug, PartialEq, Eq)]
pub enum End {
    Finished,
    Stuck,
    Open,
    Stopped(Stop),
}

/// What a run answers, with the state that it leaves.
#[derive(Clone, Debug, PartialEq, Eq)]
pub struct Run {
    pub end: End,
    pub moves: u32,
    pub state: State,
}

/// A run under way.
#[derive(Clone, Debug)]
pub struct Machine<'a> {
    pub program: &'a Program,
    pub state: State,
    pub moves: u32,
    pub stop: Option<Stop>,
}

impl<'a> Machine<'a> {
    pub fn fresh(program: &'a Program) -> Self {
        Machine {
            program,
            state: State::fresh(),
            moves: 0,
            stop: None,
        }
    }

    /// Gives one turn to a thread. After a stop every turn is idle.
    pub fn turn(&mut self, thread: u8) -> Outcome {
        if self.stop.is_some() {
            return Outcome::Idle;
        }
        let outcome = turn(self.program, &mut self.state, thread);
        match outcome {
            Outcome::Moved => self.moves += 1,
            Outcome::Stopped(stop) => self.stop = Some(stop),
            Outcome::Waited | Outcome::Idle => {}
        }
        outcome
    }

    pub fn end(&self) -> End {
        match self.stop {
            Some(stop) => End::Stopped(stop),
            None => end(self.program, &self.state),
        }
    }
}

/// Runs a program on a list of turns from a fresh start.
pub fn run(program: &Program, turns: &[u8]) -> Run {
    let mut machine = Machine::fresh(program);
    for thread in turns {
        if let Outcome::Stopped(_) = machine.turn(*thread) {
            break;
        }
    }
    Run {
        end: machine.end(),
        moves: machine.moves,
        state: machine.state,
    }
}

/// One turn on a state. Only a turn that moves changes it.
pub fn turn(program: &Program, state: &mut State, thread: u8) -> Outcome {
    match decide(program, state, thread) {
        Decision::Idle => Outcome::Idle,
        Decision::Wait => Outcome::Waited,
        Decision::Stop(number) => Outcome::Stopped(stop_at(state, thread, number)),
        Decision::Move(step) => {
            perform(state, thread, step);
            Outcome::Moved
        }
    }
}

/// `finished` (all threads finished), `stuck` (some unfinished, and each of these would wait), else
/// `open`. It is about the state alone, whatever turns were made.
pub fn end(program: &Program, state: &State) -> End {
    if state.threads.iter().all(Thread::finished) {
        return End::Finished;
    }
    let waits = |thread: usize| decide(program, state, thread as u8) == Decision::Wait;
    let mut unfinished = (0..state.threads.len()).filter(|n| !state.threads[*n].finished());
    if unfinished.all(waits) {
        End::Stuck
    } else {
        End::Open
    }
}

fn stop_at(state: &State, thread: u8, number: u8) -> Stop {
    let frame = state.threads[usize::from(thread)].frames.last();
    let (block, line) = frame.map_or((0, 0), |frame| (frame.block, frame.line));
    Stop {
        number,
        thread,
        block,
        line,
    }
}

/// Writes what was decided. All checks are behind.
fn perform(state: &mut State, thread: u8, step: Move) {
    let own = usize::from(thread);
    empty_slots(&mut state.threads[own], step.taken);
    match step.action {
        Action::Fill(value) => fill(&mut state.threads[own], value),
        Action::Store {
            object,
            field,
            value,
        } => {
            let place = &mut state.objects[usize::from(object)].fields[usize::from(field)];
            let old = std::mem::replace(place, value);
            fill(&mut state.threads[own], old);
        }
        Action::Enter {
            block,
            target,
            value,
        } => {
            state.threads[own]
                .frames
                .push(Frame::new(block, &[target, value]));
        }
        Action::Make { cap, kind, values } => {
            let number = state.objects.len() as u16;
            let fields = values.as_slice().to_vec();
            state.objects.push(Object {
                cap,
                kind,
                creator: thread,
                fields,
            });
            fill(&mut state.threads[own], Value::Obj(number));
        }
        Action::Start { block } => {
            let channel = start(state, block);
            fill(&mut state.threads[own], channel);
        }
        Action::Put { channel, value } => put(state, own, channel, value),
        Action::MoveOn { channel } => {
            state.threads[own].sending = None;
            fill(&mut state.threads[own], Value::Chan(channel));
        }
        Action::Receive { channel } => {
            let place = &mut state.channel_mut(channel).message;
            let message = std::mem::replace(place, Value::Absent);
            fill(&mut state.threads[own], message);
        }
        Action::Copy { cap, met } => {
            let copy = add_copies(state, &met, cap, thread);
            fill(&mut state.threads[own], copy);
        }
        Action::Give(value) => give(&mut state.threads[own], value),
    }
}

/// Makes the slots absent that the operands took.
fn empty_slots(thread: &mut Thread, taken: u16) {
    if let Some(frame) = thread.frames.last_mut() {
        let mut left = taken;
        while left != 0 {
            frame.slots[left.trailing_zeros() as usize] = Value::Absent;
            left &= left - 1;
        }
    }
}

/// "Each let fills the next slot"; the thread goes on to the next line of its innermost frame.
fn fill(thread: &mut Thread, value: Value) {
    if let Some(frame) = thread.frames.last_mut() {
        frame.slots.push(value);
        frame.line += 1;
    }
}

/// "A spawn makes the next thread, with an empty channel of the same number."
fn start(state: &mut State, block: u8) -> Value {
    let channel = Value::Chan(state.threads.len() as u16);
    state.channels.push(Channel {
        message: Value::Absent,
        number: 0,
    });
    state.threads.push(Thread::new(block, channel));
    channel
}

/// "The channel's message number rises by one, it holds the value, and the thread stays on this
/// line as a waiting sender."
fn put(state: &mut State, own: usize, number: u16, value: Value) {
    let channel = state.channel_mut(number);
    channel.number += 1;
    channel.message = value;
    let sending = Sending {
        channel: number,
        number: channel.number,
    };
    state.threads[own].sending = Some(sending);
}

/// "A give ends the frame and fills the caller's slot. From the outermost frame it finishes the
/// thread."
fn give(thread: &mut Thread, value: Value) {
    thread.frames.pop();
    fill(thread, value);
}
