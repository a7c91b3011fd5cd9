//! A copy (document 02, L6): the objects that it meets, and their duplicates.

use crate::numbers::MOST_OBJECTS;
use crate::script::Cap;
use crate::state::{Object, State, Value};

/// The objects reached from one through fields, each once, "as first met, depth first, fields in
/// order": an object comes before what its fields hold.
pub fn met(state: &State, from: u16) -> Vec<u16> {
    let mut walk = Walk {
        state,
        is_met: [false; MOST_OBJECTS],
        met: Vec::new(),
    };
    walk.visit(from);
    walk.met
}

struct Walk<'a> {
    state: &'a State,
    is_met: [bool; MOST_OBJECTS],
    met: Vec<u16>,
}

impl<'a> Walk<'a> {
    fn visit(&mut self, number: u16) {
        if self.is_met[usize::from(number)] {
            return;
        }
        self.is_met[usize::from(number)] = true;
        self.met.push(number);
        let state = self.state;
        for field in &state.object(number).fields {
            if let Value::Obj(held) = field {
                self.visit(*held);
            }
        }
    }
}

/// Adds the duplicates of the objects met under the next numbers, in their order; what held one of
/// them holds its duplicate. "All copies have capability K and this thread as creator." Gives the
/// first.
pub fn add_copies(state: &mut State, met: &[u16], cap: Cap, creator: u8) -> Value {
    let first = state.objects.len() as u16;
    let mut copy_of = [Value::Absent; MOST_OBJECTS];
    for (number, original) in (first..).zip(met) {
        copy_of[usize::from(*original)] = Value::Obj(number);
    }
    for original in met {
        let Object { kind, fields, .. } = state.object(*original);
        let copied = |value: &Value| match value {
            Value::Obj(held) => copy_of[usize::from(*held)],
            Value::Absent | Value::Chan(_) => *value,
        };
        let copy = Object {
            cap,
            kind: *kind,
            creator,
            fields: fields.iter().map(copied).collect(),
        };
        state.objects.push(copy);
    }
    Value::Obj(first)
}
