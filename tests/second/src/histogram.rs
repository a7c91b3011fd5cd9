//! What random inputs reach: every line form read and performed, every refusal, stop and end that
//! boxrun can show, and the ways of copies. A row of 0 means that the inputs are too poor.

mod copies;

use crate::generate;
use crate::input::parts;
use crate::machine::{End, Machine, Outcome, Stop};
use crate::numbers::*;
use crate::reading::read_lent;
use crate::script::{Edition, Expr, Program};
use crate::state::State;

use copies::{malformed, Copying};

const ROWS: &[&str] = &[
    "edition 1",
    "edition 2",
    "read value",
    "read field",
    "read swap",
    "read call",
    "read new",
    "read cast",
    "read spawn",
    "read send",
    "read recv",
    "read copy",
    "read give",
    "moved value",
    "moved field",
    "moved swap",
    "moved call",
    "moved new",
    "moved cast",
    "moved spawn",
    "moved send put",
    "moved send moved on",
    "moved recv",
    "moved copy",
    "moved give to a caller",
    "moved give that finishes",
    "waited send full",
    "waited send put",
    "waited recv",
    "idle",
    "script refused 1",
    "script refused 2",
    "script refused 3",
    "script refused 4",
    "script refused 5",
    "script refused 6",
    "script refused 7",
    "script refused 8",
    "turns line refused 3",
    "turns line refused 4",
    "input refused 1",
    "stopped 10",
    "stopped 11",
    "stopped 12",
    "stopped 13",
    "stopped 14",
    "stopped 15",
    "stopped 16 objects",
    "stopped 16 copies",
    "stopped 16 threads",
    "stopped 16 frames",
    "stopped 19",
    "stopped 20",
    "end finished",
    "end stuck",
    "end open",
];

#[derive(Clone, Debug, PartialEq, Eq)]
pub struct Histogram {
    counts: Vec<u64>,
}

impl Histogram {
    pub fn empty() -> Self {
        Histogram {
            counts: vec![0; names().count()],
        }
    }

    /// The histogram over the first `count` inputs of a seed.
    pub fn of(seed: u64, count: u64) -> Self {
        let mut histogram = Histogram::empty();
        for n in 0..count {
            histogram.add(&generate::input(seed, n));
        }
        histogram
    }

    pub fn rows(&self) -> Vec<(&'static str, u64)> {
        names().zip(self.counts.iter().copied()).collect()
    }

    pub fn count(&self, name: &str) -> u64 {
        names()
            .position(|row| row == name)
            .map_or(0, |place| self.counts[place])
    }

    /// The rows that nothing has reached.
    pub fn missing(&self) -> Vec<&'static str> {
        self.rows()
            .into_iter()
            .filter(|(_, count)| *count == 0)
            .map(|(name, _)| name)
            .collect()
    }

    /// Takes one input in, as boxrun would.
    pub fn add(&mut self, input: &[u8]) {
        let parts = match parts(input) {
            Ok(parts) => parts,
            Err(refusal) if refusal.number == OVERLONG => return self.one("input refused 1"),
            Err(refusal) => return self.one(&format!("turns line refused {}", refusal.number)),
        };
        match read_lent(parts.script, parts.turns.len(), TABLE_WORDS, TABLE_WORDS) {
            Ok(program) => {
                self.forms(&program);
                self.turns(&program, &parts.turns);
            }
            Err(refusal) => {
                self.one(&format!("script refused {}", refusal.number));
                if refusal.number == MALFORMED {
                    self.all(malformed(parts.script, refusal.line));
                }
            }
        }
    }

    /// Counts one in a row. Every name given here is a row.
    fn one(&mut self, name: &str) {
        if let Some(place) = names().position(|row| row == name) {
            self.counts[place] += 1;
        }
    }

    fn all(&mut self, names: impl IntoIterator<Item = &'static str>) {
        names.into_iter().for_each(|name| self.one(name));
    }

    fn forms(&mut self, program: &Program) {
        self.one(match program.edition {
            Edition::One => "edition 1",
            Edition::Two => "edition 2",
        });
        for block in &program.blocks {
            for expr in &block.lets {
                self.one(&format!("read {}", form_word(expr)));
            }
            self.one("read give");
        }
    }

    fn turns(&mut self, program: &Program, turns: &[u8]) {
        let mut machine = Machine::fresh(program);
        let mut copies = Vec::new();
        for thread in turns {
            let line = line_of(program, &machine.state, *thread);
            let outcome = machine.turn(*thread);
            self.one(outcome_row(outcome, line));
            if let Some(copying) = copying(&machine, *thread, line) {
                self.all(copying.rows(outcome, &mut copies));
            }
            if machine.stop.is_some() {
                return;
            }
        }
        self.one(end_row(machine.end()));
    }
}

fn names() -> impl Iterator<Item = &'static str> {
    ROWS.iter().chain(copies::ROWS).copied()
}

/// The line that a thread stood on, if it is a copy.
fn copying<'a>(machine: &'a Machine, thread: u8, line: Line) -> Option<Copying<'a>> {
    match line {
        Line::Let {
            expr: Expr::Copy { cap, target },
            ..
        } => Some(Copying {
            program: machine.program,
            state: &machine.state,
            thread,
            cap: *cap,
            target: *target,
        }),
        _ => None,
    }
}

/// The line that a thread stands on, with what tells its rows apart.
#[derive(Clone, Copy)]
enum Line<'a> {
    None,
    Let { expr: &'a Expr, sending: bool },
    Give { outermost: bool },
}

fn line_of<'a>(program: &'a Program, state: &State, thread: u8) -> Line<'a> {
    let thread = match state.threads.get(usize::from(thread)) {
        Some(thread) => thread,
        None => return Line::None,
    };
    let frame = match thread.frames.last() {
        Some(frame) => frame,
        None => return Line::None,
    };
    match program.blocks[usize::from(frame.block)]
        .lets
        .get(usize::from(frame.line))
    {
        Some(expr) => Line::Let {
            expr,
            sending: thread.sending.is_some(),
        },
        None => Line::Give {
            outermost: thread.frames.len() == 1,
        },
    }
}

fn form_word(expr: &Expr) -> &'static str {
    match expr {
        Expr::Value(_) => "value",
        Expr::Field { .. } => "field",
        Expr::Swap { .. } => "swap",
        Expr::Call { .. } => "call",
        Expr::New { .. } => "new",
        Expr::Cast { .. } => "cast",
        Expr::Spawn { .. } => "spawn",
        Expr::Send { .. } => "send",
        Expr::Recv { .. } => "recv",
        Expr::Copy { .. } => "copy",
    }
}

fn outcome_row(outcome: Outcome, line: Line) -> &'static str {
    match outcome {
        Outcome::Moved => moved_row(line),
        Outcome::Waited => waited_row(line),
        Outcome::Idle => "idle",
        Outcome::Stopped(stop) => stopped_row(stop, line),
    }
}

fn moved_row(line: Line) -> &'static str {
    match line {
        Line::None => "idle",
        Line::Give { outermost: true } => "moved give that finishes",
        Line::Give { outermost: false } => "moved give to a caller",
        Line::Let { expr, sending } => match expr {
            Expr::Value(_) => "moved value",
            Expr::Field { .. } => "moved field",
            Expr::Swap { .. } => "moved swap",
            Expr::Call { .. } => "moved call",
            Expr::New { .. } => "moved new",
            Expr::Cast { .. } => "moved cast",
            Expr::Spawn { .. } => "moved spawn",
            Expr::Send { .. } if sending => "moved send moved on",
            Expr::Send { .. } => "moved send put",
            Expr::Recv { .. } => "moved recv",
            Expr::Copy { .. } => "moved copy",
        },
    }
}

fn waited_row(line: Line) -> &'static str {
    match line {
        Line::Let {
            expr: Expr::Recv { .. },
            ..
        } => "waited recv",
        Line::Let { sending: true, .. } => "waited send put",
        _ => "waited send full",
    }
}

fn stopped_row(stop: Stop, line: Line) -> &'static str {
    match stop.number {
        ABSENT => "stopped 10",
        NO_FIELD => "stopped 11",
        NO_METHOD => "stopped 12",
        WRONG_THING => "stopped 13",
        PERMISSION => "stopped 14",
        CAST => "stopped 15",
        ALIAS => "stopped 19",
        FOREIGN => "stopped 20",
        _ => match line {
            Line::Let {
                expr: Expr::New { .. },
                ..
            } => "stopped 16 objects",
            Line::Let {
                expr: Expr::Copy { .. },
                ..
            } => "stopped 16 copies",
            Line::Let {
                expr: Expr::Spawn { .. },
                ..
            } => "stopped 16 threads",
            _ => "stopped 16 frames",
        },
    }
}

fn end_row(end: End) -> &'static str {
    match end {
        End::Finished => "end finished",
        End::Stuck => "end stuck",
        End::Open | End::Stopped(_) => "end open",
    }
}
