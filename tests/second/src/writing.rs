//! A program table back to the text that reads to it, from docs/LAYOUT.md and document 01's written
//! form. The edition and a line's row tell their text, so no text but the one of all rows can read to
//! a table: that one is read again, and it is the answer if it is accepted and gives the very same
//! words.

use crate::form::Form;
use crate::layout;
use crate::numbers::*;
use crate::reading;
use crate::script::{Cap, Edition, Expr, Mode, Operand, Sort};

/// Why a table is turned away; all but the first are 18.
#[derive(Clone, Copy, Debug, PartialEq, Eq)]
pub enum Unwritten {
    /// The table or the buffer is under its length.
    Short,
    /// A row is no form, or there are more than a script can have.
    NoForm,
    /// The text of all rows is refused, with this number.
    Refused(u8),
    /// The text of all rows is accepted and reads to other words.
    OtherWords,
}

impl Unwritten {
    pub fn number(self) -> u8 {
        match self {
            Unwritten::Short => SHORT_TABLE,
            Unwritten::NoForm | Unwritten::Refused(_) | Unwritten::OtherWords => NO_SCRIPT,
        }
    }
}

/// The text of a lent table, for a lent buffer of that many bytes: 9, then 18. Words past the 8,192
/// are not looked at.
pub fn write(table: &[u16], buffer: usize) -> Result<Vec<u8>, Unwritten> {
    let lent = [(table.len(), TABLE_WORDS), (buffer, MOST_TEXT)];
    reading::lengths(0, 0, &lent).map_err(|_| Unwritten::Short)?;
    let words = &table[..TABLE_WORDS];
    let text = text(words).ok_or(Unwritten::NoForm)?;
    let program = reading::read(&text).map_err(|refusal| Unwritten::Refused(refusal.number))?;
    if layout::program(&program) != words {
        return Err(Unwritten::OtherWords);
    }
    Ok(text)
}

/// The text of as many rows as the table says it has, in the edition that it says.
fn text(words: &[u16]) -> Option<Vec<u8>> {
    let lines = usize::from(words[layout::LINE_COUNT]);
    if lines > MOST_LINES {
        return None;
    }
    let mut pen = Pen {
        text: String::new(),
    };
    if words[layout::EDITION] == layout::edition(Edition::Two) {
        pen.word(Edition::Two.first_line());
    }
    for row in words[layout::LINES..].chunks(layout::LINE).take(lines) {
        pen.line(&form(row)?);
    }
    Some(pen.text.into_bytes())
}

fn number(word: u16) -> Option<u8> {
    u8::try_from(word).ok()
}

/// Twice the slot, and one more for a take.
fn operand(word: u16) -> Option<Operand> {
    let mode = if word % 2 == 0 {
        Mode::Read
    } else {
        Mode::Take
    };
    let slot = number(word / 2)?;
    Some(Operand { mode, slot })
}

fn cap(word: u16) -> Option<Cap> {
    Cap::ALL.get(usize::from(word)).copied()
}

/// One more than each part, and 0 after the last.
fn parts<T>(words: &[u16], part: fn(u16) -> Option<T>) -> Option<Vec<T>> {
    let filled = words.iter().take_while(|word| **word > 0);
    filled.map(|word| part(word - 1)).collect()
}

/// The form of a row's eight words; words after its last part are not looked at here.
fn form(row: &[u16]) -> Option<Form> {
    match row[0] {
        1 => Some(Form::Kind {
            fields: number(row[1])?,
            does: parts(&row[2..], number)?,
        }),
        2 => Some(Form::Open(Sort::Thread)),
        3 => Some(Form::Open(Sort::Method)),
        4 => operand(row[1]).map(Form::Give),
        _ => expression(row).map(Form::Let),
    }
}

fn expression(row: &[u16]) -> Option<Expr> {
    let expression = match row[0] {
        5 => Expr::Value(operand(row[1])?),
        6 => Expr::Field {
            target: number(row[1])?,
            field: number(row[2])?,
        },
        7 => Expr::Swap {
            target: number(row[1])?,
            field: number(row[2])?,
            value: operand(row[3])?,
        },
        8 => Expr::Call {
            target: number(row[1])?,
            method: number(row[2])?,
            value: operand(row[3])?,
        },
        9 => Expr::New {
            cap: cap(row[1])?,
            kind: number(row[2])?,
            values: parts(&row[3..], operand)?,
        },
        10 => Expr::Cast {
            cap: cap(row[1])?,
            value: operand(row[2])?,
        },
        11 => Expr::Spawn {
            block: number(row[1])?,
        },
        12 => Expr::Send {
            target: number(row[1])?,
            value: operand(row[2])?,
        },
        13 => Expr::Recv {
            target: number(row[1])?,
        },
        14 => Expr::Copy {
            cap: cap(row[1])?,
            target: number(row[2])?,
        },
        _ => return None,
    };
    Some(expression)
}

/// Writes forms, part by part.
struct Pen {
    text: String,
}

impl Pen {
    fn word(&mut self, word: &str) {
        self.text.push_str(word);
    }

    /// Numbers, each after its space.
    fn numbers(&mut self, numbers: &[u8]) {
        for number in numbers {
            self.word(" ");
            self.word(&number.to_string());
        }
    }

    fn operand(&mut self, value: &Operand) {
        self.word(match value.mode {
            Mode::Read => "(read",
            Mode::Take => "(take",
        });
        self.numbers(&[value.slot]);
        self.word(")");
    }

    fn line(&mut self, form: &Form) {
        match form {
            Form::Kind { fields, does } => {
                self.word("(kind (fields");
                self.numbers(&[*fields]);
                self.word(") (does");
                self.numbers(does);
                self.word("))\n");
            }
            Form::Open(Sort::Thread) => self.word("(thread)\n"),
            Form::Open(Sort::Method) => self.word("(method)\n"),
            Form::Let(expr) => {
                self.word("(let ");
                self.expr(expr);
                self.word(")\n");
            }
            Form::Give(value) => {
                self.word("(give ");
                self.operand(value);
                self.word(")\n");
            }
        }
    }

    /// The word, the capability if there is one, the numbers and the operands.
    fn expr(&mut self, expr: &Expr) {
        let (word, numbers) = match expr {
            Expr::Value(value) => return self.operand(value),
            Expr::Field { target, field } => ("(field", vec![*target, *field]),
            Expr::Swap { target, field, .. } => ("(swap", vec![*target, *field]),
            Expr::Call { target, method, .. } => ("(call", vec![*target, *method]),
            Expr::New { kind, .. } => ("(new", vec![*kind]),
            Expr::Cast { .. } => ("(cast", vec![]),
            Expr::Spawn { block } => ("(spawn", vec![*block]),
            Expr::Send { target, .. } => ("(send", vec![*target]),
            Expr::Recv { target } => ("(recv", vec![*target]),
            Expr::Copy { target, .. } => ("(copy", vec![*target]),
        };
        self.word(word);
        if let Expr::New { cap, .. } | Expr::Cast { cap, .. } | Expr::Copy { cap, .. } = expr {
            self.word(" ");
            self.word(cap.word());
        }
        self.numbers(&numbers);
        for value in expr.operands() {
            self.word(" ");
            self.operand(value);
        }
        self.word(")");
    }
}
