//! What the tests' programs write: output, and complaints.

use std::io::{self, Write};

/// Writes to standard output; a closed one is no reason to panic.
pub fn out(bytes: &[u8]) -> i32 {
    match io::stdout().write_all(bytes) {
        Ok(()) => 0,
        Err(_) => 1,
    }
}

pub fn complain(text: &str) {
    let _ = io::stderr().write_all(text.as_bytes());
}
