//! The drawing: the objects of a run as a directed graph in the DOT language of Graphviz, from
//! docs/DRAWING.md (document 02, L8).

use crate::machine::{run, Run};
use crate::numbers::*;
use crate::reading::{lengths, read_lines};
use crate::script::Cap;
use crate::state::{Object, State, Value};

/// A run that was made, and the text that draws its objects.
#[derive(Clone, Debug, PartialEq, Eq)]
pub struct Drawn {
    pub run: Run,
    pub text: String,
}

/// Takes a run's inputs and a buffer (the tables by their words, the buffer by its bytes). A short
/// buffer is refused with a short table.
pub fn draw(
    text: &[u8],
    turns: &[u8],
    program_table: usize,
    state_table: usize,
    buffer: usize,
) -> Result<Drawn, Refusal> {
    let lent = [
        (program_table, TABLE_WORDS),
        (state_table, TABLE_WORDS),
        (buffer, DRAWING_BYTES),
    ];
    lengths(text.len(), turns.len(), &lent)?;
    let run = run(&read_lines(text)?, turns);
    let text = drawing(&run.state);
    Ok(Drawn { run, text })
}

/// Every object that was made, held or not; then the fields that hold objects.
pub fn drawing(state: &State) -> String {
    let mut lines = vec![
        "digraph objects {".to_string(),
        "  node [style=filled];".to_string(),
    ];
    let objects = || state.objects.iter().enumerate();
    lines.extend(objects().map(|(number, object)| node(number, object.cap)));
    lines.extend(objects().flat_map(|(number, object)| edges(number, object)));
    lines.push("}".to_string());
    lines.iter().map(|line| format!("{}\n", line)).collect()
}

/// Its label is number and capability.
fn node(number: usize, cap: Cap) -> String {
    let (shape, fill) = look(cap);
    format!(
        "  {} [label=\"{} {}\", shape={}, fillcolor={}];",
        number,
        number,
        cap.word(),
        shape,
        fill
    )
}

/// What tells a capability at a glance: the shape and the fill.
pub fn look(cap: Cap) -> (&'static str, &'static str) {
    match cap {
        Cap::Imm => ("box", "lightblue"),
        Cap::Iso => ("ellipse", "palegreen"),
        Cap::Local => ("house", "khaki"),
        Cap::Unsafe => ("octagon", "salmon"),
    }
}

/// An edge's label is the number of the field.
fn edges(from: usize, object: &Object) -> Vec<String> {
    let fields = object.fields.iter().enumerate();
    fields
        .filter_map(|(field, value)| match value {
            Value::Obj(to) => Some(format!("  {} -> {} [label=\"{}\"];", from, to, field)),
            Value::Absent | Value::Chan(_) => None,
        })
        .collect()
}
