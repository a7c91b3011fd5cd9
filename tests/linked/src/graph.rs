//! What a report is tried on: whether the objects that a thread reaches need all that a walk must do.

use second::reach::reach;
use second::rings::{has_ring, held, shares};
use second::state::{State, Value};

/// A state, and what a thread of it reaches.
pub struct Graph<'a> {
    pub state: &'a State,
    pub objects: &'a [u16],
}

impl Graph<'_> {
    pub fn has_ring(&self) -> bool {
        has_ring(self.state, self.objects)
    }

    /// Fields hold one object twice.
    pub fn shares(&self) -> bool {
        shares(self.state, self.objects)
    }

    /// The innermost frame alone reaches fewer.
    pub fn needs_outer_frames(&self, thread: usize) -> bool {
        let frames = &self.state.threads[thread].frames;
        if frames.len() < 2 {
            return false;
        }
        let mut state = self.state.clone();
        state.threads[thread].frames.drain(..frames.len() - 1);
        reach(&state, thread).map_or(false, |inner| inner.len() < self.objects.len())
    }

    /// A walk of the slots, and of fields as they are met, meets an object after one of a greater number.
    pub fn is_met_out_of_order(&self, thread: usize) -> bool {
        let mut met = Vec::new();
        for frame in &self.state.threads[thread].frames {
            frame
                .slots
                .iter()
                .for_each(|value| self.meet(*value, &mut met));
        }
        met.windows(2).any(|pair| pair[0] > pair[1])
    }

    fn meet(&self, value: Value, met: &mut Vec<u16>) {
        match value {
            Value::Obj(number) if !met.contains(&number) => {
                met.push(number);
                held(self.state, number).for_each(|other| self.meet(Value::Obj(other), met));
            }
            _ => (),
        }
    }

    /// Without the message that the thread put, and that its channel still holds, there are fewer.
    pub fn needs_message(&self, thread: usize) -> bool {
        let mut state = self.state.clone();
        state.threads[thread].sending = None;
        reach(&state, thread).map_or(false, |others| others.len() < self.objects.len())
    }

    /// A slot holds a channel whose message is none of the objects.
    pub fn leaves_message(&self, thread: usize) -> bool {
        let slots = self.state.threads[thread]
            .frames
            .iter()
            .flat_map(|frame| &frame.slots);
        let mut messages = slots.filter_map(|value| match value {
            Value::Chan(number) => Some(self.state.channel(*number).message),
            Value::Absent | Value::Obj(_) => None,
        });
        messages.any(|value| self.is_left(value))
    }

    /// The channel of a waiting sender holds another message than its own, none of the objects.
    pub fn leaves_answer(&self, thread: usize) -> bool {
        self.state.threads[thread].sending.map_or(false, |sending| {
            let channel = self.state.channel(sending.channel);
            channel.number != sending.number && self.is_left(channel.message)
        })
    }

    fn is_left(&self, value: Value) -> bool {
        matches!(value, Value::Obj(number) if !self.objects.contains(&number))
    }
}
