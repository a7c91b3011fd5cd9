//! What a script says once it is read: kinds, blocks, lines and operands, with the words and the
//! order of document 01, "Written form"; and its edition (document 02, L6).

/// Ordered imm < iso < local < unsafe.
#[derive(Clone, Copy, Debug, PartialEq, Eq, PartialOrd, Ord)]
pub enum Cap {
    Imm,
    Iso,
    Local,
    Unsafe,
}

impl Cap {
    pub const ALL: [Cap; 4] = [Cap::Imm, Cap::Iso, Cap::Local, Cap::Unsafe];

    pub fn word(self) -> &'static str {
        match self {
            Cap::Imm => "imm",
            Cap::Iso => "iso",
            Cap::Local => "local",
            Cap::Unsafe => "unsafe",
        }
    }

    /// "A holder may hold a value of its own or a lesser capability."
    pub fn above(self, holder: Cap) -> bool {
        self > holder
    }
}

#[derive(Clone, Copy, Debug, PartialEq, Eq)]
pub enum Mode {
    Read,
    Take,
}

/// W: `(read S)` or `(take S)`.
#[derive(Clone, Copy, Debug, PartialEq, Eq)]
pub struct Operand {
    pub mode: Mode,
    pub slot: u8,
}

/// E, the right side of a let.
#[derive(Clone, Debug, PartialEq, Eq)]
pub enum Expr {
    Value(Operand),
    Field {
        target: u8,
        field: u8,
    },
    Swap {
        target: u8,
        field: u8,
        value: Operand,
    },
    Call {
        target: u8,
        method: u8,
        value: Operand,
    },
    New {
        cap: Cap,
        kind: u8,
        values: Vec<Operand>,
    },
    Cast {
        cap: Cap,
        value: Operand,
    },
    Spawn {
        block: u8,
    },
    Send {
        target: u8,
        value: Operand,
    },
    Recv {
        target: u8,
    },
    Copy {
        cap: Cap,
        target: u8,
    },
}

impl Expr {
    /// The operands, left to right.
    pub fn operands(&self) -> &[Operand] {
        match self {
            Expr::Value(value) => std::slice::from_ref(value),
            Expr::Swap { value, .. } => std::slice::from_ref(value),
            Expr::Call { value, .. } => std::slice::from_ref(value),
            Expr::Cast { value, .. } => std::slice::from_ref(value),
            Expr::Send { value, .. } => std::slice::from_ref(value),
            Expr::New { values, .. } => values,
            Expr::Field { .. } | Expr::Spawn { .. } | Expr::Recv { .. } | Expr::Copy { .. } => &[],
        }
    }

    /// The slot whose object or channel the line works on.
    pub fn target(&self) -> Option<u8> {
        match self {
            Expr::Field { target, .. } => Some(*target),
            Expr::Swap { target, .. } => Some(*target),
            Expr::Call { target, .. } => Some(*target),
            Expr::Send { target, .. } => Some(*target),
            Expr::Recv { target } => Some(*target),
            Expr::Copy { target, .. } => Some(*target),
            Expr::Value(_) | Expr::New { .. } | Expr::Cast { .. } | Expr::Spawn { .. } => None,
        }
    }
}

#[derive(Clone, Copy, Debug, PartialEq, Eq)]
pub enum Sort {
    Thread,
    Method,
}

impl Sort {
    /// The slots filled before the first line: the channel, or self and the argument.
    pub fn first_slots(self) -> usize {
        match self {
            Sort::Thread => 1,
            Sort::Method => 2,
        }
    }
}

#[derive(Clone, Debug, PartialEq, Eq)]
pub struct Block {
    pub sort: Sort,
    pub lets: Vec<Expr>,
    pub give: Operand,
}

#[derive(Clone, Debug, PartialEq, Eq)]
pub struct Kind {
    pub fields: u8,
    pub does: Vec<u8>,
}

/// The second edition has `copy`.
#[derive(Clone, Copy, Debug, PartialEq, Eq)]
pub enum Edition {
    One,
    Two,
}

impl Edition {
    /// The line that a text of the edition begins with, and its LF; the first edition has none.
    pub fn first_line(self) -> &'static str {
        match self {
            Edition::One => "",
            Edition::Two => "(script 2)\n",
        }
    }
}

#[derive(Clone, Debug, PartialEq, Eq)]
pub struct Program {
    pub edition: Edition,
    pub kinds: Vec<Kind>,
    pub blocks: Vec<Block>,
}
