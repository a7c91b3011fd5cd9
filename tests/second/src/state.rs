//! What a run holds between two turns: objects, channels, threads, frames and slots (document 01,
//! "Machine"). The moves are counted beside it.

use crate::numbers::MOST_SLOTS;
use crate::script::Cap;

/// "A value is absent, an object number or a channel number."
#[derive(Clone, Copy, Debug, PartialEq, Eq)]
pub enum Value {
    Absent,
    Obj(u16),
    Chan(u16),
}

#[derive(Clone, Debug, PartialEq, Eq)]
pub struct Object {
    pub cap: Cap,
    pub kind: u8,
    pub creator: u8,
    pub fields: Vec<Value>,
}

/// A channel is empty when its message is absent. Its number is that of its latest message, and 0
/// before the first.
#[derive(Clone, Copy, Debug, PartialEq, Eq)]
pub struct Channel {
    pub message: Value,
    pub number: u32,
}

/// A line at or past the block's last let is its give. The slots are those filled so far.
#[derive(Clone, Debug, PartialEq, Eq)]
pub struct Frame {
    pub block: u8,
    pub line: u8,
    pub slots: Vec<Value>,
}

impl Frame {
    pub fn new(block: u8, first: &[Value]) -> Self {
        let mut slots = Vec::with_capacity(MOST_SLOTS);
        slots.extend_from_slice(first);
        Frame {
            block,
            line: 0,
            slots,
        }
    }
}

/// The message that a waiting sender put, by its channel and number.
#[derive(Clone, Copy, Debug, PartialEq, Eq)]
pub struct Sending {
    pub channel: u16,
    pub number: u32,
}

/// The outermost frame comes first; a finished thread has none.
#[derive(Clone, Debug, PartialEq, Eq)]
pub struct Thread {
    pub frames: Vec<Frame>,
    pub sending: Option<Sending>,
}

impl Thread {
    pub fn new(block: u8, slot_0: Value) -> Self {
        Thread {
            frames: vec![Frame::new(block, &[slot_0])],
            sending: None,
        }
    }

    pub fn finished(&self) -> bool {
        self.frames.is_empty()
    }
}

/// Objects and threads by number; channel n at place n - 1, since thread 0 has none.
#[derive(Clone, Debug, PartialEq, Eq)]
pub struct State {
    pub objects: Vec<Object>,
    pub channels: Vec<Channel>,
    pub threads: Vec<Thread>,
}

impl State {
    /// "No object, no channel, no move, and thread 0 alone, before the first line of block 0, its
    /// slot 0 absent."
    pub fn fresh() -> Self {
        let threads = vec![Thread::new(0, Value::Absent)];
        State {
            objects: Vec::new(),
            channels: Vec::new(),
            threads,
        }
    }

    pub fn object(&self, number: u16) -> &Object {
        &self.objects[usize::from(number)]
    }

    pub fn channel(&self, number: u16) -> &Channel {
        &self.channels[usize::from(number) - 1]
    }

    pub fn channel_mut(&mut self, number: u16) -> &mut Channel {
        &mut self.channels[usize::from(number) - 1]
    }
}
