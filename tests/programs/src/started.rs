//! A program, started: with arguments, an input, what the shell redirects, and faults of its reads and writes.

use std::ffi::{OsStr, OsString};
use std::fmt;
use std::io::Write;
use std::os::unix::process::ExitStatusExt;
use std::process::{Child, Command, Stdio};

/// What came of it.
#[derive(Clone, Debug, PartialEq, Eq)]
pub struct Ended {
    /// The exit status, or the signal that ended the program.
    pub status: Result<i32, i32>,
    pub out: String,
    pub err: String,
}

impl fmt::Display for Ended {
    fn fmt(&self, to: &mut fmt::Formatter<'_>) -> fmt::Result {
        match self.status {
            Ok(status) => write!(to, "status {}", status)?,
            Err(signal) => write!(to, "signal {}", signal)?,
        }
        write!(to, ", output {:?}, error {:?}", self.out, self.err)
    }
}

pub fn ended(status: i32, out: &str, err: &str) -> Ended {
    Ended {
        status: Ok(status),
        out: out.to_string(),
        err: err.to_string(),
    }
}

/// How a program is started.
#[derive(Clone, Debug)]
pub struct Start {
    words: Vec<OsString>,
    input: Vec<u8>,
    redirected: String,
    environment: Vec<(OsString, OsString)>,
}

impl Start {
    pub fn of<W: AsRef<OsStr>>(words: &[W]) -> Start {
        Start {
            words: words.iter().map(|word| word.as_ref().into()).collect(),
            input: Vec::new(),
            redirected: String::new(),
            environment: Vec::new(),
        }
    }

    pub fn input(mut self, input: &[u8]) -> Start {
        self.input = input.to_vec();
        self
    }

    /// What the shell does before the program takes its place, as `>&-` or `</`.
    pub fn redirected(mut self, redirected: &str) -> Start {
        self.redirected = redirected.to_string();
        self
    }

    pub fn set<V: AsRef<OsStr>>(mut self, name: &str, value: V) -> Start {
        self.environment.push((name.into(), value.as_ref().into()));
        self
    }

    fn spawned(&self) -> Child {
        let line = format!("exec \"$@\" {}", self.redirected);
        self.spawned_by(&line)
    }

    fn spawned_by(&self, line: &str) -> Child {
        let mut command = Command::new("sh");
        command.args(["-c", line, "sh"]).args(&self.words);
        command.envs(self.environment.iter().map(|(name, value)| (name, value)));
        command.stdin(Stdio::piped()).stdout(Stdio::piped());
        command.stderr(Stdio::piped()).spawn().expect("sh starts")
    }

    /// Runs it to its end. A program that does not read its input may close it.
    pub fn ended(&self) -> Ended {
        self.fed(self.spawned())
    }

    /// The same where nobody reads its output any more: the reader goes before the input comes. A shell's trap may go first.
    pub fn unread(&self, trap: &str) -> Ended {
        let mut child = self.spawned_by(&format!("{} exec \"$@\"", trap));
        drop(child.stdout.take());
        self.fed(child)
    }

    fn fed(&self, mut child: Child) -> Ended {
        if let Some(mut input) = child.stdin.take() {
            let _ = input.write_all(&self.input);
        }
        let output = child.wait_with_output().expect("the program ends");
        let text = |bytes: &[u8]| String::from_utf8_lossy(bytes).into_owned();
        Ended {
            status: match (output.status.code(), output.status.signal()) {
                (Some(status), _) => Ok(status),
                (None, signal) => Err(signal.unwrap_or(0)),
            },
            out: text(&output.stdout),
            err: text(&output.stderr),
        }
    }
}
