//! The program under test, started once for each input.

use std::io::Write;
use std::path::PathBuf;
use std::process::{Child, Command, Output, Stdio};
use std::thread;
use std::time::Duration;

pub struct Program {
    pub path: PathBuf,
    /// Its arguments.
    pub words: Vec<String>,
}

impl Program {
    fn start(&self) -> Result<Child, String> {
        Command::new(&self.path)
            .args(&self.words)
            .stdin(Stdio::piped())
            .stdout(Stdio::piped())
            .stderr(Stdio::piped())
            .spawn()
            .map_err(|fault| format!("{}: {}", self.path.display(), fault))
    }

    /// What it prints on an input.
    pub fn printed(&self, input: &[u8]) -> Result<Vec<u8>, String> {
        self.printed_in_pieces(&[input])
    }

    /// The same when the input comes in pieces, with a pause between them. A program that has read
    /// enough of a long input may close it.
    pub fn printed_in_pieces(&self, pieces: &[&[u8]]) -> Result<Vec<u8>, String> {
        let mut child = self.start()?;
        if let Some(mut stdin) = child.stdin.take() {
            for (place, piece) in pieces.iter().enumerate() {
                if place > 0 {
                    thread::sleep(Duration::from_millis(5));
                }
                let _ = stdin.write_all(piece);
            }
        }
        let output = child
            .wait_with_output()
            .map_err(|fault| fault.to_string())?;
        quiet(output)
    }
}

/// The exit status is 0 whatever the run came to, and nothing is said but the printed run.
fn quiet(output: Output) -> Result<Vec<u8>, String> {
    if !output.status.success() || !output.stderr.is_empty() {
        return Err(format!(
            "{}, and on standard error: {}",
            output.status,
            String::from_utf8_lossy(&output.stderr)
        ));
    }
    Ok(output.stdout)
}
