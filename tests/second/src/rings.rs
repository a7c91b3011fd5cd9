//! What makes a walk over objects hard: rings, and objects that are held twice.

use crate::numbers::MOST_OBJECTS;
use crate::state::{State, Value};

/// The objects that an object's fields hold.
pub fn held(state: &State, number: u16) -> impl Iterator<Item = u16> + '_ {
    let fields = &state.object(number).fields;
    fields.iter().filter_map(|value| match value {
        Value::Obj(number) => Some(*number),
        Value::Absent | Value::Chan(_) => None,
    })
}

/// Objects that hold none of those left are dropped, until all are or a ring is left.
pub fn has_ring(state: &State, objects: &[u16]) -> bool {
    let mut left = objects.to_vec();
    loop {
        let mut is_left = [false; MOST_OBJECTS];
        left.iter()
            .for_each(|number| is_left[usize::from(*number)] = true);
        let before = left.len();
        left.retain(|number| held(state, *number).any(|other| is_left[usize::from(other)]));
        if left.len() == before {
            return before > 0;
        }
    }
}

/// Fields of the objects hold one object twice.
pub fn shares(state: &State, objects: &[u16]) -> bool {
    let fields = objects.iter().flat_map(|number| held(state, *number));
    let mut held: Vec<u16> = fields.collect();
    let all = held.len();
    held.sort_unstable();
    held.dedup();
    held.len() < all
}
