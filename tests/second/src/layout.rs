//! The words of both tables, once more, from docs/LAYOUT.md alone.

use crate::holders::holders;
use crate::numbers::TABLE_WORDS;
use crate::script::{Block, Cap, Edition, Expr, Kind, Mode, Operand, Program, Sort};
use crate::state::{Channel, Frame, Object, State, Thread, Value};

pub const KIND_COUNT: usize = 0;
pub const BLOCK_COUNT: usize = 1;
pub const LINE_COUNT: usize = 2;
pub const EDITION: usize = 3;
pub const FIRST_LINES: usize = 8;
pub const LINES: usize = 72;
pub const LINE: usize = 8;

const OBJECTS: usize = 8;
const OBJECT: usize = 8;
const THREADS: usize = 2056;
const THREAD: usize = 306;
const FRAME: usize = 19;
const CHANNELS: usize = 6952;
const CHANNEL: usize = 2;

fn operand(value: &Operand) -> u16 {
    u16::from(value.slot) * 2 + u16::from(value.mode == Mode::Take)
}

fn cap(value: Cap) -> u16 {
    match value {
        Cap::Imm => 0,
        Cap::Iso => 1,
        Cap::Local => 2,
        Cap::Unsafe => 3,
    }
}

fn kind(value: &Kind) -> Vec<u16> {
    let mut words = vec![1, u16::from(value.fields)];
    words.extend(value.does.iter().map(|block| u16::from(*block) + 1));
    words
}

fn expression(value: &Expr) -> Vec<u16> {
    match value {
        Expr::Value(w) => vec![5, operand(w)],
        Expr::Field { target, field } => vec![6, u16::from(*target), u16::from(*field)],
        Expr::Swap {
            target,
            field,
            value,
        } => vec![7, u16::from(*target), u16::from(*field), operand(value)],
        Expr::Call {
            target,
            method,
            value,
        } => vec![8, u16::from(*target), u16::from(*method), operand(value)],
        Expr::New {
            cap: k,
            kind,
            values,
        } => {
            let mut words = vec![9, cap(*k), u16::from(*kind)];
            words.extend(values.iter().map(|w| operand(w) + 1));
            words
        }
        Expr::Cast { cap: k, value } => vec![10, cap(*k), operand(value)],
        Expr::Spawn { block } => vec![11, u16::from(*block)],
        Expr::Send { target, value } => vec![12, u16::from(*target), operand(value)],
        Expr::Recv { target } => vec![13, u16::from(*target)],
        Expr::Copy { cap: k, target } => vec![14, cap(*k), u16::from(*target)],
    }
}

fn block(value: &Block) -> Vec<Vec<u16>> {
    let opener = match value.sort {
        Sort::Thread => 2,
        Sort::Method => 3,
    };
    let mut lines = vec![vec![opener]];
    lines.extend(value.lets.iter().map(expression));
    lines.push(vec![4, operand(&value.give)]);
    lines
}

/// The word of an edition; the line that says it has no row.
pub fn edition(value: Edition) -> u16 {
    match value {
        Edition::One => 0,
        Edition::Two => 2,
    }
}

/// The 8,192 words of a program.
pub fn program(value: &Program) -> Vec<u16> {
    let mut words = vec![0; TABLE_WORDS];
    let mut lines: Vec<Vec<u16>> = value.kinds.iter().map(kind).collect();
    for (number, opened) in value.blocks.iter().enumerate() {
        words[FIRST_LINES + number] = lines.len() as u16 + 1;
        lines.extend(block(opened));
    }
    words[KIND_COUNT] = value.kinds.len() as u16;
    words[BLOCK_COUNT] = value.blocks.len() as u16;
    words[LINE_COUNT] = lines.len() as u16;
    words[EDITION] = edition(value.edition);
    for (number, line) in lines.iter().enumerate() {
        let place = LINES + number * LINE;
        words[place..place + line.len()].copy_from_slice(line);
    }
    words
}

fn value(value: &Value) -> u16 {
    match value {
        Value::Absent => 0,
        Value::Obj(number) => 1 + number,
        Value::Chan(number) => 257 + number,
    }
}

fn object(value: &Object, holders: usize) -> Vec<u16> {
    let mut words = vec![
        cap(value.cap),
        u16::from(value.kind),
        u16::from(value.creator),
        holders as u16,
    ];
    words.extend(value.fields.iter().map(self::value));
    words
}

fn frame(value: &Frame) -> Vec<u16> {
    let mut words = vec![
        u16::from(value.block),
        u16::from(value.line),
        value.slots.len() as u16,
    ];
    words.extend(value.slots.iter().map(self::value));
    words.resize(FRAME, 0);
    words
}

fn thread(value: &Thread) -> Vec<u16> {
    let sending = value.sending.map_or(0, |sending| sending.number as u16 + 1);
    let mut words = vec![value.frames.len() as u16, sending];
    words.extend(value.frames.iter().flat_map(frame));
    words
}

fn channel(value: &Channel) -> Vec<u16> {
    vec![self::value(&value.message), value.number as u16]
}

/// The 8,192 words of a state.
pub fn state(value: &State) -> Vec<u16> {
    let mut words = vec![0; TABLE_WORDS];
    let mut place = |at: usize, record: Vec<u16>| {
        words[at..at + record.len()].copy_from_slice(&record);
    };
    place(0, vec![value.objects.len() as u16]);
    place(1, vec![value.threads.len() as u16]);
    for (number, made) in value.objects.iter().enumerate() {
        let held = holders(value, number as u16);
        place(OBJECTS + number * OBJECT, object(made, held));
    }
    for (number, started) in value.threads.iter().enumerate() {
        place(THREADS + number * THREAD, thread(started));
    }
    for (place_of, opened) in value.channels.iter().enumerate() {
        place(CHANNELS + (place_of + 1) * CHANNEL, channel(opened));
    }
    words
}

/// The state's words with every object made unsafe.
pub fn erased(words: &[u16]) -> Vec<u16> {
    let mut words = words.to_vec();
    for number in 0..usize::from(words[0]) {
        words[OBJECTS + number * OBJECT] = cap(Cap::Unsafe);
    }
    words
}
