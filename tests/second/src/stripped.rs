//! The stripped script and the erased state (document 01, "Guarded and stripped"): capabilities
//! aside, a guarded run and a stripped run are compared on these.

use crate::script::{Cap, Expr, Program};
use crate::state::State;

/// The same script when, once it is read, every K in it is changed to `unsafe`, a copy's too.
pub fn strip(program: &Program) -> Program {
    let mut stripped = program.clone();
    for block in &mut stripped.blocks {
        for expr in &mut block.lets {
            if let Expr::New { cap, .. } | Expr::Cast { cap, .. } | Expr::Copy { cap, .. } = expr {
                *cap = Cap::Unsafe;
            }
        }
    }
    stripped
}

/// The same text with every K in it changed to `unsafe`: reading it is reading and then stripping.
pub fn strip_text(text: &[u8]) -> Vec<u8> {
    let mut text = String::from_utf8_lossy(text).into_owned();
    for cap in Cap::ALL {
        for form in ["new", "cast", "copy"] {
            let from = format!("({} {} ", form, cap.word());
            text = text.replace(&from, &format!("({} unsafe ", form));
        }
    }
    text.into_bytes()
}

/// The same state with every object made unsafe.
pub fn erase(state: &State) -> State {
    let mut erased = state.clone();
    for object in &mut erased.objects {
        object.cap = Cap::Unsafe;
    }
    erased
}
