//! What a turn would do, decided without writing anything: idle, wait, stop, or move with one
//! action. The checks of each line form stand in the order of document 01, "Machine", with 19 and
//! 20 where document 02, L5, puts them, and copy's as L6 has them.

use crate::copying::met;
use crate::numbers::*;
use crate::script::{Cap, Expr, Mode, Operand, Program};
use crate::state::{Frame, Object, Sending, State, Value};

#[derive(Clone, Debug, PartialEq, Eq)]
pub enum Decision {
    Idle,
    Wait,
    Stop(u8),
    Move(Move),
}

/// The slots that the operands took, one bit each, and what is written besides.
#[derive(Clone, Debug, PartialEq, Eq)]
pub struct Move {
    pub taken: u16,
    pub action: Action,
}

#[derive(Clone, Debug, PartialEq, Eq)]
pub enum Action {
    Fill(Value),
    Store {
        object: u16,
        field: u8,
        value: Value,
    },
    Enter {
        block: u8,
        target: Value,
        value: Value,
    },
    Make {
        cap: Cap,
        kind: u8,
        values: Values,
    },
    Start {
        block: u8,
    },
    Put {
        channel: u16,
        value: Value,
    },
    MoveOn {
        channel: u16,
    },
    Receive {
        channel: u16,
    },
    /// The objects met, in the order of their copies.
    Copy {
        cap: Cap,
        met: Vec<u16>,
    },
    Give(Value),
}

/// The values of a new, left to right.
#[derive(Clone, Copy, Debug, PartialEq, Eq)]
pub struct Values {
    all: [Value; MOST_OPERANDS],
    count: usize,
}

impl Values {
    pub fn as_slice(&self) -> &[Value] {
        &self.all[..self.count]
    }
}

/// Why a line does not move.
enum Halt {
    Wait,
    Stop(u8),
}

fn stop<T>(number: u8) -> Result<T, Halt> {
    Err(Halt::Stop(number))
}

fn stop_if(holds: bool, number: u8) -> Result<(), Halt> {
    if holds {
        stop(number)
    } else {
        Ok(())
    }
}

pub fn decide(program: &Program, state: &State, thread: u8) -> Decision {
    let started = state.threads.get(usize::from(thread));
    let frame = match started.and_then(|thread| thread.frames.last()) {
        Some(frame) => frame,
        None => return Decision::Idle,
    };
    let mut turn = Turn {
        program,
        state,
        thread,
        frame,
        taken: 0,
    };
    match turn.line() {
        Ok(action) => Decision::Move(Move {
            taken: turn.taken,
            action,
        }),
        Err(Halt::Wait) => Decision::Wait,
        Err(Halt::Stop(number)) => Decision::Stop(number),
    }
}

/// A turn under way: the state it found, and the slots that its operands have taken so far.
struct Turn<'a> {
    program: &'a Program,
    state: &'a State,
    thread: u8,
    frame: &'a Frame,
    taken: u16,
}

impl<'a> Turn<'a> {
    fn line(&mut self) -> Result<Action, Halt> {
        let block = &self.program.blocks[usize::from(self.frame.block)];
        match block.lets.get(usize::from(self.frame.line)) {
            Some(expr) => self.expr(expr),
            None => Ok(Action::Give(self.operand(&block.give)?)),
        }
    }

    fn expr(&mut self, expr: &Expr) -> Result<Action, Halt> {
        match expr {
            Expr::Value(value) => Ok(Action::Fill(self.operand(value)?)),
            Expr::Field { target, field } => self.field(*target, *field),
            Expr::Swap {
                target,
                field,
                value,
            } => self.swap(*target, *field, value),
            Expr::Call {
                target,
                method,
                value,
            } => self.call(*target, *method, value),
            Expr::New { cap, kind, values } => self.new_object(*cap, *kind, values),
            Expr::Cast { cap, value } => self.cast(*cap, value),
            Expr::Spawn { block } => self.spawn(*block),
            Expr::Send { target, value } => self.send(*target, value),
            Expr::Recv { target } => self.recv(*target),
            Expr::Copy { cap, target } => self.copy(*cap, *target),
        }
    }

    /// The slot's value, with what earlier operands of this line took already gone.
    fn slot(&self, slot: u8) -> Value {
        match self.frame.slots.get(usize::from(slot)) {
            Some(value) if self.taken & (1 << slot) == 0 => *value,
            _ => Value::Absent,
        }
    }

    /// operand: absent 10; a read of an iso object 19.
    fn operand(&mut self, operand: &Operand) -> Result<Value, Halt> {
        let value = self.slot(operand.slot);
        stop_if(value == Value::Absent, ABSENT)?;
        match operand.mode {
            Mode::Read => stop_if(self.is_iso(value), ALIAS)?,
            Mode::Take => self.taken |= 1 << operand.slot,
        }
        Ok(value)
    }

    fn is_iso(&self, value: Value) -> bool {
        match value {
            Value::Obj(number) => self.state.object(number).cap == Cap::Iso,
            Value::Absent | Value::Chan(_) => false,
        }
    }

    /// Local to another thread.
    fn is_foreign(&self, object: &Object) -> bool {
        object.cap == Cap::Local && object.creator != self.thread
    }

    /// The object in a target slot: absent 10; a channel 13.
    fn target_object(&self, slot: u8) -> Result<(u16, &'a Object), Halt> {
        self.object(self.slot(slot))
    }

    /// The channel in a target slot: absent 10; an object 13.
    fn target_channel(&self, slot: u8) -> Result<u16, Halt> {
        match self.slot(slot) {
            Value::Absent => stop(ABSENT),
            Value::Obj(_) => stop(WRONG_THING),
            Value::Chan(number) => Ok(number),
        }
    }

    fn object(&self, value: Value) -> Result<(u16, &'a Object), Halt> {
        match value {
            Value::Absent => stop(ABSENT),
            Value::Chan(_) => stop(WRONG_THING),
            Value::Obj(number) => Ok((number, self.state.object(number))),
        }
    }

    /// field: target slot absent 10; a channel 13; no such field 11; target local to another thread
    /// 20; field holds an iso 19.
    fn field(&self, target: u8, field: u8) -> Result<Action, Halt> {
        let (_, object) = self.target_object(target)?;
        let value = match object.fields.get(usize::from(field)) {
            Some(value) => *value,
            None => return stop(NO_FIELD),
        };
        stop_if(self.is_foreign(object), FOREIGN)?;
        stop_if(self.is_iso(value), ALIAS)?;
        Ok(Action::Fill(value))
    }

    /// swap: target absent 10; target a channel 13; value a channel 13; no such field 11; target
    /// local to another thread, or both local with other creators, 20; target imm, or value above
    /// the target, 14.
    fn swap(&mut self, target: u8, field: u8, operand: &Operand) -> Result<Action, Halt> {
        let value = self.operand(operand)?;
        let (number, holder) = self.target_object(target)?;
        let (_, held) = self.object(value)?;
        stop_if(usize::from(field) >= holder.fields.len(), NO_FIELD)?;
        let both_local = held.cap == Cap::Local && holder.cap == Cap::Local;
        let apart = both_local && held.creator != holder.creator;
        stop_if(self.is_foreign(holder) || apart, FOREIGN)?;
        let above = held.cap.above(holder.cap);
        stop_if(holder.cap == Cap::Imm || above, PERMISSION)?;
        Ok(Action::Store {
            object: number,
            field,
            value,
        })
    }

    /// call: target absent 10; a channel 13; no such method 12; target local to another thread 20;
    /// frames used up 16.
    fn call(&mut self, target: u8, method: u8, operand: &Operand) -> Result<Action, Halt> {
        let value = self.operand(operand)?;
        let (number, object) = self.target_object(target)?;
        let does = &self.program.kinds[usize::from(object.kind)].does;
        let block = match does.get(usize::from(method)) {
            Some(block) => *block,
            None => return stop(NO_METHOD),
        };
        stop_if(self.is_foreign(object), FOREIGN)?;
        let frames = self.state.threads[usize::from(self.thread)].frames.len();
        stop_if(frames >= MOST_FRAMES, USED_UP)?;
        Ok(Action::Enter {
            block,
            target: Value::Obj(number),
            value,
        })
    }

    /// new: any value a channel 13; any value local with another creator 20; any value above K 14;
    /// objects used up 16.
    fn new_object(&mut self, cap: Cap, kind: u8, operands: &[Operand]) -> Result<Action, Halt> {
        let mut values = Values {
            all: [Value::Absent; MOST_OPERANDS],
            count: 0,
        };
        for (place, operand) in values.all.iter_mut().zip(operands) {
            *place = self.operand(operand)?;
            values.count += 1;
        }
        for value in values.as_slice() {
            self.object(*value)?;
        }
        for value in values.as_slice() {
            let (_, held) = self.object(*value)?;
            stop_if(self.is_foreign(held), FOREIGN)?;
        }
        for value in values.as_slice() {
            let (_, held) = self.object(*value)?;
            stop_if(held.cap.above(cap), PERMISSION)?;
        }
        stop_if(self.state.objects.len() >= MOST_OBJECTS, USED_UP)?;
        Ok(Action::Make { cap, kind, values })
    }

    /// cast: a channel 13; capability not K 15; else gives the value.
    fn cast(&mut self, cap: Cap, operand: &Operand) -> Result<Action, Halt> {
        let value = self.operand(operand)?;
        let (_, object) = self.object(value)?;
        stop_if(object.cap != cap, CAST)?;
        Ok(Action::Fill(value))
    }

    /// spawn: threads used up 16.
    fn spawn(&self, block: u8) -> Result<Action, Halt> {
        stop_if(self.state.threads.len() >= MOST_THREADS, USED_UP)?;
        Ok(Action::Start { block })
    }

    /// send: target absent 10; an object 13; value a channel 13; value local 14; channel full:
    /// waits. A waiting sender takes no operand again.
    fn send(&mut self, target: u8, operand: &Operand) -> Result<Action, Halt> {
        if let Some(sending) = self.state.threads[usize::from(self.thread)].sending {
            return self.waiting_sender(sending);
        }
        let value = self.operand(operand)?;
        let channel = self.target_channel(target)?;
        let (_, object) = self.object(value)?;
        stop_if(object.cap == Cap::Local, PERMISSION)?;
        if self.state.channel(channel).message != Value::Absent {
            return Err(Halt::Wait);
        }
        Ok(Action::Put { channel, value })
    }

    /// "Waits while the channel still holds the message with that number; else it moves on."
    fn waiting_sender(&self, sending: Sending) -> Result<Action, Halt> {
        let channel = self.state.channel(sending.channel);
        if channel.message != Value::Absent && channel.number == sending.number {
            return Err(Halt::Wait);
        }
        Ok(Action::MoveOn {
            channel: sending.channel,
        })
    }

    /// recv: target absent 10; an object 13; empty: waits.
    fn recv(&self, target: u8) -> Result<Action, Halt> {
        let channel = self.target_channel(target)?;
        if self.state.channel(channel).message == Value::Absent {
            return Err(Halt::Wait);
        }
        Ok(Action::Receive { channel })
    }

    /// copy: slot absent 10; a channel 13; any object met local to another thread 20; too few objects
    /// left for all copies 16.
    fn copy(&self, cap: Cap, target: u8) -> Result<Action, Halt> {
        let (number, _) = self.target_object(target)?;
        let met = met(self.state, number);
        let foreign = |number: &u16| self.is_foreign(self.state.object(*number));
        stop_if(met.iter().any(foreign), FOREIGN)?;
        let left = MOST_OBJECTS - self.state.objects.len();
        stop_if(met.len() > left, USED_UP)?;
        Ok(Action::Copy { cap, met })
    }
}
