//! A script's text to its program, or the refusal with its line. Order: 1, 9, then line by line 2
//! to 6 (lowest within a line), then 7, then 8 in line order.

use crate::form::{script_line, Form};
use crate::numbers::*;
use crate::script::{Block, Edition, Expr, Kind, Mode, Operand, Program, Sort};

/// Reads a script when no table is lent.
pub fn read(text: &[u8]) -> Result<Program, Refusal> {
    lengths(text.len(), 0, &[])?;
    read_lines(text)
}

/// Reads a script as the run does, with the lengths of the list of turns and of both lent tables.
pub fn read_lent(
    text: &[u8],
    turns: usize,
    program_table: usize,
    state_table: usize,
) -> Result<Program, Refusal> {
    let lent = [(program_table, TABLE_WORDS), (state_table, TABLE_WORDS)];
    lengths(text.len(), turns, &lent)?;
    read_lines(text)
}

/// 1, then 9. Each lent table or list stands with the length that it must have.
pub fn lengths(text: usize, turns: usize, lent: &[(usize, usize)]) -> Result<(), Refusal> {
    if text > MOST_TEXT || turns > MOST_TURNS {
        return Err(refused_at_zero(OVERLONG));
    }
    if lent.iter().any(|(length, least)| length < least) {
        return Err(refused_at_zero(SHORT_TABLE));
    }
    Ok(())
}

/// The edition that a text's first line says.
pub fn edition(text: &[u8]) -> Edition {
    if text.starts_with(Edition::Two.first_line().as_bytes()) {
        Edition::Two
    } else {
        Edition::One
    }
}

/// 2 to 8, of a text whose length is already judged.
pub fn read_lines(text: &[u8]) -> Result<Program, Refusal> {
    let edition = edition(text);
    let first_line = edition.first_line();
    let mut reader = Reader::new(edition);
    let first = first_line.lines().count();
    let mut lines = first;
    for line in text[first_line.len()..].split_inclusive(|byte| *byte == b'\n') {
        reader.line(line).map_err(|number| Refusal {
            number,
            line: lines,
        })?;
        lines += 1;
    }
    if reader.open.is_some() || reader.program.blocks.is_empty() {
        return Err(Refusal {
            number: UNFINISHED,
            line: lines,
        });
    }
    match dangling_line(&reader.program) {
        Some(line) => Err(Refusal {
            number: DANGLING,
            line: first + line,
        }),
        None => Ok(reader.program),
    }
}

/// "Bytes are a to z, 0 to 9, brackets, space and LF."
pub fn in_the_list(byte: u8) -> bool {
    matches!(byte, b'a'..=b'z' | b'0'..=b'9' | b'(' | b')' | b' ' | b'\n')
}

/// A block that is not closed yet.
struct OpenBlock {
    sort: Sort,
    lets: Vec<Expr>,
}

impl OpenBlock {
    /// The slots filled so far, which is also the number of the next slot.
    fn filled(&self) -> usize {
        self.sort.first_slots() + self.lets.len()
    }

    fn takes_self(&self, operand: &Operand) -> bool {
        self.sort == Sort::Method && operand.mode == Mode::Take && operand.slot == 0
    }
}

struct Reader {
    program: Program,
    open: Option<OpenBlock>,
    lets: usize,
}

impl Reader {
    fn new(edition: Edition) -> Self {
        let program = Program {
            edition,
            kinds: Vec::new(),
            blocks: Vec::new(),
        };
        Reader {
            program,
            open: None,
            lets: 0,
        }
    }

    /// Takes in one line with its LF, or gives the lowest of 2 to 6 that holds for it.
    fn line(&mut self, line: &[u8]) -> Result<(), u8> {
        if !line.iter().all(|byte| in_the_list(*byte)) {
            return Err(STRAY_BYTE);
        }
        let body = line.strip_suffix(b"\n").ok_or(MALFORMED)?;
        let parsed = script_line(body).ok_or(MALFORMED)?;
        if !self.in_its_place(&parsed.form) {
            return Err(MALFORMED);
        }
        if parsed.over || self.over_a_most(&parsed.form) {
            return Err(OVER_COUNT);
        }
        self.slots(&parsed.form)?;
        self.add(parsed.form);
        Ok(())
    }

    /// Kinds come before all blocks; lets and a give stand in an open block, openers outside; a copy
    /// stands in a script of the second edition.
    fn in_its_place(&self, form: &Form) -> bool {
        match form {
            Form::Kind { .. } => self.open.is_none() && self.program.blocks.is_empty(),
            Form::Open(_) => self.open.is_none(),
            Form::Let(Expr::Copy { .. }) => {
                self.open.is_some() && self.program.edition == Edition::Two
            }
            Form::Let(_) | Form::Give(_) => self.open.is_some(),
        }
    }

    fn over_a_most(&self, form: &Form) -> bool {
        match form {
            Form::Kind { fields, does } => {
                usize::from(*fields) > MOST_FIELDS
                    || does.len() > MOST_METHODS
                    || self.program.kinds.len() == MOST_KINDS
            }
            Form::Open(_) => self.program.blocks.len() == MOST_BLOCKS,
            Form::Let(expr) => {
                let filled = self.open.as_ref().map_or(0, OpenBlock::filled);
                filled == MOST_SLOTS
                    || self.lets == MOST_LETS
                    || expr.operands().len() > MOST_OPERANDS
            }
            Form::Give(_) => false,
        }
    }

    /// 5 for a slot not yet filled in its block, then 6 for a take of slot 0 in a method.
    fn slots(&self, form: &Form) -> Result<(), u8> {
        let open = match &self.open {
            Some(open) => open,
            None => return Ok(()),
        };
        let (operands, target) = match form {
            Form::Let(expr) => (expr.operands(), expr.target()),
            Form::Give(value) => (std::slice::from_ref(value), None),
            Form::Kind { .. } | Form::Open(_) => return Ok(()),
        };
        let named = operands.iter().map(|operand| operand.slot).chain(target);
        if named
            .into_iter()
            .any(|slot| usize::from(slot) >= open.filled())
        {
            return Err(UNBOUND);
        }
        if operands.iter().any(|operand| open.takes_self(operand)) {
            return Err(SELF_TAKEN);
        }
        Ok(())
    }

    fn add(&mut self, form: Form) {
        match form {
            Form::Kind { fields, does } => self.program.kinds.push(Kind { fields, does }),
            Form::Open(sort) => {
                self.open = Some(OpenBlock {
                    sort,
                    lets: Vec::new(),
                })
            }
            Form::Let(expr) => {
                if let Some(open) = &mut self.open {
                    open.lets.push(expr);
                    self.lets += 1;
                }
            }
            Form::Give(give) => {
                if let Some(open) = self.open.take() {
                    self.program.blocks.push(Block {
                        sort: open.sort,
                        lets: open.lets,
                        give,
                    });
                }
            }
        }
    }
}

/// The first line that names what is not there or is unlike what is there, counted from the first
/// kind or opener. Every line holds one form, so kind n stands at line n and a block's opener after
/// all kinds and earlier blocks.
fn dangling_line(program: &Program) -> Option<usize> {
    let kind_line = program
        .kinds
        .iter()
        .position(|kind| dangling_kind(program, kind));
    if kind_line.is_some() {
        return kind_line;
    }
    let mut opener = program.kinds.len();
    if program.blocks.first().map(|block| block.sort) != Some(Sort::Thread) {
        return Some(opener);
    }
    for block in &program.blocks {
        if let Some(place) = block
            .lets
            .iter()
            .position(|expr| dangling_let(program, expr))
        {
            return Some(opener + 1 + place);
        }
        opener += block.lets.len() + 2;
    }
    None
}

fn dangling_kind(program: &Program, kind: &Kind) -> bool {
    kind.does
        .iter()
        .any(|block| !is_block(program, *block, Sort::Method))
}

fn dangling_let(program: &Program, expr: &Expr) -> bool {
    match expr {
        Expr::New { kind, values, .. } => match program.kinds.get(usize::from(*kind)) {
            Some(kind) => values.len() != usize::from(kind.fields),
            None => true,
        },
        Expr::Spawn { block } => !is_block(program, *block, Sort::Thread),
        _ => false,
    }
}

fn is_block(program: &Program, block: u8, sort: Sort) -> bool {
    program
        .blocks
        .get(usize::from(block))
        .map(|block| block.sort)
        == Some(sort)
}
