//! The printed run: the answer, then objects, channels and started threads, each by rising number
//! (document 01, "The printed run").

use crate::machine::{End, Run};
use crate::numbers::Refusal;
use crate::state::{Channel, Object, Thread, Value};

pub fn refused(refusal: Refusal) -> String {
    format!("(refused {} {})\n", refusal.number, refusal.line)
}

pub fn listing(run: &Run) -> String {
    let mut out = answer(run.end, run.moves);
    for (number, object) in run.state.objects.iter().enumerate() {
        out.push_str(&object_line(number, object));
    }
    for (place, channel) in run.state.channels.iter().enumerate() {
        out.push_str(&channel_line(place + 1, channel));
    }
    for (number, thread) in run.state.threads.iter().enumerate() {
        out.push_str(&thread_line(number, thread));
    }
    out
}

/// The first line, which says what the run came to.
pub fn answer(end: End, moves: u32) -> String {
    match end {
        End::Finished => format!("(end finished {})\n", moves),
        End::Stuck => format!("(end stuck {})\n", moves),
        End::Open => format!("(end open {})\n", moves),
        End::Stopped(stop) => format!(
            "(stopped {} {} {} {} {})\n",
            stop.number, stop.thread, stop.block, stop.line, moves
        ),
    }
}

/// A slot, a field and a message print alike.
fn value_word(value: Value) -> String {
    match value {
        Value::Absent => "absent".to_string(),
        Value::Obj(number) => format!("(obj {})", number),
        Value::Chan(number) => format!("(chan {})", number),
    }
}

/// Each value after its space.
fn value_words(values: &[Value]) -> String {
    values
        .iter()
        .map(|value| format!(" {}", value_word(*value)))
        .collect()
}

/// Number, capability, kind, creator, fields.
fn object_line(number: usize, object: &Object) -> String {
    format!(
        "(object {} {} {} {}{})\n",
        number,
        object.cap.word(),
        object.kind,
        object.creator,
        value_words(&object.fields)
    )
}

fn channel_line(number: usize, channel: &Channel) -> String {
    match channel.message {
        Value::Absent => format!("(channel {} empty)\n", number),
        message => format!("(channel {} {})\n", number, value_word(message)),
    }
}

/// "An unfinished thread adds its innermost block, line and filled slots."
fn thread_line(number: usize, thread: &Thread) -> String {
    let frame = match thread.frames.last() {
        Some(frame) => frame,
        None => return format!("(thread {} finished)\n", number),
    };
    let word = if thread.sending.is_some() {
        "waiting"
    } else {
        "ready"
    };
    let slots = value_words(&frame.slots);
    format!(
        "(thread {} {} {} {}{})\n",
        number, word, frame.block, frame.line, slots
    )
}
