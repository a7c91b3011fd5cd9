//! One line of text, without its LF, to the form that it holds. Nothing here knows the lines before
//! it: place, mosts and slots are for the reading of the whole script.

use crate::numbers::{MOST_DIGITS, MOST_NUMBER};
use crate::script::{Cap, Expr, Mode, Operand, Sort};

#[derive(Clone, Debug, PartialEq, Eq)]
pub enum Form {
    Kind { fields: u8, does: Vec<u8> },
    Open(Sort),
    Let(Expr),
    Give(Operand),
}

/// What a line holds, and whether one of its numbers is over 255. Such a number is kept as 255, so
/// that the rest of the line is still judged ("lowest within a line").
#[derive(Clone, Debug, PartialEq, Eq)]
pub struct Parsed<T> {
    pub form: T,
    pub over: bool,
}

/// The form of a script line; none if the line is malformed.
pub fn script_line(line: &[u8]) -> Option<Parsed<Form>> {
    let mut cursor = Cursor::new(line);
    let form = cursor.form()?;
    cursor.close(form)
}

/// `(turns T ..)`, the last line of the input of boxrun.
pub fn turns_line(line: &[u8]) -> Option<Parsed<Vec<u8>>> {
    let mut cursor = Cursor::new(line);
    cursor.need("(turns")?;
    let turns = cursor.numbers()?;
    cursor.need(")")?;
    cursor.close(turns)
}

struct Cursor<'a> {
    rest: &'a [u8],
    over: bool,
}

impl<'a> Cursor<'a> {
    fn new(line: &'a [u8]) -> Self {
        Cursor {
            rest: line,
            over: false,
        }
    }

    fn close<T>(self, form: T) -> Option<Parsed<T>> {
        if self.rest.is_empty() {
            Some(Parsed {
                form,
                over: self.over,
            })
        } else {
            None
        }
    }

    /// Goes past the word if it stands here.
    fn skip(&mut self, word: &str) -> bool {
        match self.rest.strip_prefix(word.as_bytes()) {
            Some(rest) => {
                self.rest = rest;
                true
            }
            None => false,
        }
    }

    fn need(&mut self, word: &str) -> Option<()> {
        if self.skip(word) {
            Some(())
        } else {
            None
        }
    }

    /// "Decimal, one to three digits, no needless leading zero."
    fn number(&mut self) -> Option<u8> {
        let count = self
            .rest
            .iter()
            .take_while(|byte| byte.is_ascii_digit())
            .count();
        if count == 0 || count > MOST_DIGITS {
            return None;
        }
        let (digits, rest) = self.rest.split_at(count);
        if count > 1 && digits[0] == b'0' {
            return None;
        }
        self.rest = rest;
        let value = digits
            .iter()
            .fold(0u16, |sum, digit| sum * 10 + u16::from(digit - b'0'));
        if value > MOST_NUMBER {
            self.over = true;
        }
        Some(value.min(MOST_NUMBER) as u8)
    }

    /// Numbers, none or more, each after its space.
    fn numbers(&mut self) -> Option<Vec<u8>> {
        let mut numbers = Vec::new();
        while self.skip(" ") {
            numbers.push(self.number()?);
        }
        Some(numbers)
    }

    /// A space and a number.
    fn next_number(&mut self) -> Option<u8> {
        self.need(" ")?;
        self.number()
    }

    fn operand(&mut self) -> Option<Operand> {
        let mode = if self.skip("(read") {
            Mode::Read
        } else {
            self.need("(take")?;
            Mode::Take
        };
        let slot = self.next_number()?;
        self.need(")")?;
        Some(Operand { mode, slot })
    }

    /// A space and an operand.
    fn next_operand(&mut self) -> Option<Operand> {
        self.need(" ")?;
        self.operand()
    }

    fn operands(&mut self) -> Option<Vec<Operand>> {
        let mut operands = Vec::new();
        while self.skip(" ") {
            operands.push(self.operand()?);
        }
        Some(operands)
    }

    /// A space and one of the words of K.
    fn next_cap(&mut self) -> Option<Cap> {
        self.need(" ")?;
        Cap::ALL.into_iter().find(|cap| self.skip(cap.word()))
    }

    fn form(&mut self) -> Option<Form> {
        if self.skip("(kind") {
            self.kind()
        } else if self.skip("(thread)") {
            Some(Form::Open(Sort::Thread))
        } else if self.skip("(method)") {
            Some(Form::Open(Sort::Method))
        } else if self.skip("(let ") {
            let expr = self.expr()?;
            self.need(")")?;
            Some(Form::Let(expr))
        } else {
            self.need("(give")?;
            let value = self.next_operand()?;
            self.need(")")?;
            Some(Form::Give(value))
        }
    }

    fn kind(&mut self) -> Option<Form> {
        self.need(" (fields")?;
        let fields = self.next_number()?;
        self.need(") (does")?;
        let does = self.numbers()?;
        self.need("))")?;
        Some(Form::Kind { fields, does })
    }

    fn expr(&mut self) -> Option<Expr> {
        let expr = if self.skip("(field") {
            Expr::Field {
                target: self.next_number()?,
                field: self.next_number()?,
            }
        } else if self.skip("(swap") {
            let (target, field) = (self.next_number()?, self.next_number()?);
            Expr::Swap {
                target,
                field,
                value: self.next_operand()?,
            }
        } else if self.skip("(call") {
            let (target, method) = (self.next_number()?, self.next_number()?);
            Expr::Call {
                target,
                method,
                value: self.next_operand()?,
            }
        } else if self.skip("(new") {
            let (cap, kind) = (self.next_cap()?, self.next_number()?);
            Expr::New {
                cap,
                kind,
                values: self.operands()?,
            }
        } else if self.skip("(cast") {
            Expr::Cast {
                cap: self.next_cap()?,
                value: self.next_operand()?,
            }
        } else if self.skip("(spawn") {
            Expr::Spawn {
                block: self.next_number()?,
            }
        } else if self.skip("(send") {
            Expr::Send {
                target: self.next_number()?,
                value: self.next_operand()?,
            }
        } else if self.skip("(recv") {
            Expr::Recv {
                target: self.next_number()?,
            }
        } else if self.skip("(copy") {
            Expr::Copy {
                cap: self.next_cap().filter(|cap| *cap != Cap::Iso)?,
                target: self.next_number()?,
            }
        } else {
            return self.operand().map(Expr::Value);
        };
        self.need(")")?;
        Some(expr)
    }
}
