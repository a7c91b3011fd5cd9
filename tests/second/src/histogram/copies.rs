//! What the copies of a run reach, and the refusals that the second edition brings.

use crate::copying::met;
use crate::lines::line;
use crate::machine::Outcome;
use crate::numbers::*;
use crate::reading::edition;
use crate::rings::{has_ring, shares};
use crate::script::{Cap, Edition, Program, Sort};
use crate::state::{Frame, State, Value};

pub const ROWS: &[&str] = &[
    "copied imm",
    "copied iso",
    "copied local",
    "copied unsafe",
    "copied to imm",
    "copied to local",
    "copied to unsafe",
    "copied 1",
    "copied 2 to 9",
    "copied 10 to 99",
    "copied 100 or more",
    "copied a ring",
    "copied an object held twice",
    "copied an iso in a field",
    "copied self in a method",
    "copied a copy",
    "copied up to 256 objects",
    "copy stopped 10",
    "copy stopped 13",
    "copy stopped 16",
    "copy stopped 16 by one",
    "copy stopped 20 slot",
    "copy stopped 20 field",
    "copy stopped 20 and 16",
    "refused 3 copy in edition 1",
    "refused 3 copy to iso",
    "refused 3 script 2 elsewhere",
    "refused 3 other first line",
];

/// A copy's line in the state that its turn left: a stop changes nothing, and a copy no object or
/// slot that was there.
pub struct Copying<'a> {
    pub program: &'a Program,
    pub state: &'a State,
    pub thread: u8,
    pub cap: Cap,
    pub target: u8,
}

impl<'a> Copying<'a> {
    /// What the turn reaches. `copies` are the objects that copies have made, and these are added.
    pub fn rows(&self, outcome: Outcome, copies: &mut Vec<u16>) -> Vec<&'static str> {
        match (outcome, self.object()) {
            (Outcome::Moved, Some(number)) => {
                let met = met(self.state, number);
                let rows = self.moved(number, &met, copies);
                let made = self.state.objects.len();
                copies.extend((made - met.len()..made).map(|number| number as u16));
                rows
            }
            (Outcome::Stopped(stop), Some(number)) => self.stopped(stop.number, number),
            (Outcome::Stopped(stop), None) if stop.number == ABSENT => vec!["copy stopped 10"],
            (Outcome::Stopped(_), None) => vec!["copy stopped 13"],
            _ => Vec::new(),
        }
    }

    fn frame(&self) -> Option<&'a Frame> {
        self.state.threads[usize::from(self.thread)].frames.last()
    }

    /// The object in the slot.
    fn object(&self) -> Option<u16> {
        match self.frame()?.slots.get(usize::from(self.target))? {
            Value::Obj(number) => Some(*number),
            Value::Absent | Value::Chan(_) => None,
        }
    }

    fn of_self(&self) -> bool {
        let sort = |frame: &Frame| self.program.blocks[usize::from(frame.block)].sort;
        self.target == 0 && self.frame().map(sort) == Some(Sort::Method)
    }

    fn moved(&self, number: u16, met: &[u16], copies: &[u16]) -> Vec<&'static str> {
        let cap = |number: &u16| self.state.object(*number).cap;
        let from = ["copied imm", "copied iso", "copied local", "copied unsafe"];
        let to = match self.cap {
            Cap::Imm => "copied to imm",
            Cap::Local => "copied to local",
            Cap::Iso | Cap::Unsafe => "copied to unsafe",
        };
        let size = match met.len() {
            0 | 1 => "copied 1",
            2..=9 => "copied 2 to 9",
            10..=99 => "copied 10 to 99",
            _ => "copied 100 or more",
        };
        let mut rows = vec![from[cap(&number) as usize], to, size];
        let holding = [
            (has_ring(self.state, met), "copied a ring"),
            (shares(self.state, met), "copied an object held twice"),
            (
                met[1..].iter().any(|number| cap(number) == Cap::Iso),
                "copied an iso in a field",
            ),
            (self.of_self(), "copied self in a method"),
            (copies.contains(&number), "copied a copy"),
            (
                self.state.objects.len() == MOST_OBJECTS,
                "copied up to 256 objects",
            ),
        ];
        let held = holding.iter().filter(|(holds, _)| *holds);
        rows.extend(held.map(|(_, row)| row));
        rows
    }

    fn stopped(&self, stop: u8, number: u16) -> Vec<&'static str> {
        let met = met(self.state, number);
        let left = MOST_OBJECTS - self.state.objects.len();
        let slot = self.state.object(number);
        let slot_is_foreign = slot.cap == Cap::Local && slot.creator != self.thread;
        match stop {
            USED_UP if met.len() == left + 1 => vec!["copy stopped 16", "copy stopped 16 by one"],
            USED_UP => vec!["copy stopped 16"],
            FOREIGN if met.len() > left => vec!["copy stopped 20 and 16"],
            FOREIGN if slot_is_foreign => vec!["copy stopped 20 slot"],
            _ => vec!["copy stopped 20 field"],
        }
    }
}

/// The row of a line that is malformed for what the second edition says.
pub fn malformed(script: &[u8], number: usize) -> Option<&'static str> {
    let text = String::from_utf8_lossy(line(script, number));
    if text == "(script 2)" {
        Some("refused 3 script 2 elsewhere")
    } else if number == 0 && text.starts_with("(script ") {
        Some("refused 3 other first line")
    } else if text.contains("(copy ") && edition(script) == Edition::One {
        Some("refused 3 copy in edition 1")
    } else if text.contains("(copy iso ") {
        Some("refused 3 copy to iso")
    } else {
        None
    }
}
