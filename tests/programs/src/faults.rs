//! Reads and writes that fail, come short or are interrupted: a fault is told by the system's own words, and of what could not be read whole
//! nothing is printed.

use std::fs;
use std::path::{Path, PathBuf};
use std::process::Command;

use crate::started::{ended, Ended, Start};
use crate::tally::Tally;

const EIO: i32 = 5;
const ENOSPC: i32 = 28;

/// A way to start a program on an input.
pub struct Subject {
    pub name: String,
    /// The program and its arguments.
    pub words: Vec<String>,
    /// The program that reads and writes.
    pub program: String,
    /// What it prints of the input.
    pub prints: String,
    /// What its complaints of input and output begin with.
    pub reads: String,
    pub writes: String,
    /// Its exit status where all is well, and where it is not.
    pub well: i32,
    pub fault: i32,
    /// What it reads: standard input, or a file that its arguments name.
    pub from_file: bool,
}

/// The faults, built, and a place for what they leave.
pub struct Faults {
    library: PathBuf,
    tally: PathBuf,
}

impl Faults {
    pub fn built(room: &Path) -> Faults {
        let source = Path::new(env!("CARGO_MANIFEST_DIR")).join("faults.c");
        let library = room.join("faults.so");
        let flags = [
            "-shared", "-fPIC", "-O2", "-Wall", "-Wextra", "-Werror", "-o",
        ];
        let built = Command::new("cc")
            .args(flags)
            .arg(&library)
            .arg(&source)
            .status();
        assert!(built.expect("cc starts").success(), "faults.c builds");
        Faults {
            library,
            tally: room.join("tally"),
        }
    }

    fn start(&self, subject: &Subject, input: &[u8]) -> Start {
        let _ = fs::remove_file(&self.tally);
        Start::of(&subject.words)
            .input(input)
            .set("LD_PRELOAD", &self.library)
            .set("FAULT_PROGRAM", &subject.program)
            .set("FAULT_TALLY", &self.tally)
    }

    /// How many calls the last program made, and how many of them were interrupted.
    fn calls(&self) -> (u64, u64) {
        let text = fs::read_to_string(&self.tally).unwrap_or_default();
        let mut words = text
            .split_whitespace()
            .map(|word| word.parse().unwrap_or(0));
        (words.next().unwrap_or(0), words.next().unwrap_or(0))
    }
}

impl Subject {
    fn well(&self) -> Ended {
        ended(self.well, &self.prints, "")
    }

    fn unread(&self, why: &str) -> Ended {
        ended(self.fault, "", &format!("{}: {}\n", self.reads, why))
    }

    fn unwritten(&self, out: &str, why: &str) -> Ended {
        ended(self.fault, out, &format!("{}: {}\n", self.writes, why))
    }
}

/// A read that fails after each number of bytes, the last where the end of the input would be told.
fn failing_reads(tally: &mut Tally, faults: &Faults, subject: &Subject, input: &[u8]) {
    for bytes in 0..=input.len() {
        let start = faults.start(subject, input);
        let got = start
            .set("FAULT_READ", format!("{}:{}", bytes, EIO))
            .ended();
        let name = format!("{}: a read fails after {} bytes", subject.name, bytes);
        tally.same(&name, &got, &subject.unread("Input/output error"));
    }
}

/// A write that fails after each number of bytes: what was written before it is out.
fn failing_writes(tally: &mut Tally, faults: &Faults, subject: &Subject, input: &[u8]) {
    for bytes in 0..subject.prints.len() {
        let start = faults.start(subject, input);
        let fault = format!("{}:{}", bytes, ENOSPC);
        let got = start.set("FAULT_WRITE", fault).ended();
        let name = format!("{}: a write fails after {} bytes", subject.name, bytes);
        let wanted = subject.unwritten(&subject.prints[..bytes], "No space left on device");
        tally.same(&name, &got, &wanted);
    }
}

/// Calls that move a byte each, or are interrupted now and then, change nothing; that they were so is seen by their number.
fn slow_calls(tally: &mut Tally, faults: &Faults, subject: &Subject, input: &[u8]) {
    let least = input.len() as u64 + subject.prints.len() as u64 + 1;
    for (short, interrupts) in [("1", "0"), ("1", "1"), ("7", "2"), ("100000", "3")] {
        let start = faults.start(subject, input);
        let start = start.set("FAULT_SHORT", short);
        let got = start.set("FAULT_INTERRUPT", interrupts).ended();
        let name = format!(
            "{}: {} bytes a call, interrupted {} times",
            subject.name, short, interrupts
        );
        tally.same(&name, &got, &subject.well());
        let (calls, interrupted) = faults.calls();
        let slow = match (short, interrupts) {
            ("1", "0") => calls == least && interrupted == 0,
            ("1", _) => calls == 2 * least && interrupted == least,
            (_, _) => interrupted >= 6 && calls > interrupted,
        };
        tally.holds(slow, || {
            format!("{}: {} calls, {} interrupted", name, calls, interrupted)
        });
    }
}

/// A call that is always interrupted is given up in the end.
fn given_up(tally: &mut Tally, faults: &Faults, subject: &Subject, input: &[u8]) {
    let start = faults
        .start(subject, input)
        .set("FAULT_INTERRUPT", "1000000000");
    let name = format!("{}: always interrupted", subject.name);
    tally.same(
        &name,
        &start.ended(),
        &subject.unread("Interrupted system call"),
    );
    let (calls, interrupted) = faults.calls();
    tally.holds(calls > 1000 && calls == interrupted, || {
        format!("{}: {} calls", name, calls)
    });
}

/// What the shell can do to standard input and output. A program that is never asked to read its standard input does not mind it.
fn streams(tally: &mut Tally, subject: &Subject, input: &[u8]) {
    let start = Start::of(&subject.words).input(input);
    let unread = |why: &str| match subject.from_file {
        true => subject.well(),
        false => subject.unread(why),
    };
    let cases = [
        ("", subject.well()),
        (
            ">/dev/full",
            subject.unwritten("", "No space left on device"),
        ),
        (">&-", subject.unwritten("", "Bad file descriptor")),
        ("<&-", unread("Bad file descriptor")),
        ("</", unread("Is a directory")),
        ("<&- >&-", unread("Bad file descriptor")),
        ("2>&-", subject.well()),
    ];
    for (redirected, mut wanted) in cases {
        if redirected == "<&- >&-" && subject.from_file {
            wanted = subject.unwritten("", "Bad file descriptor");
        }
        let name = format!("{}: {:?}", subject.name, redirected);
        tally.same(
            &name,
            &start.clone().redirected(redirected).ended(),
            &wanted,
        );
    }
}

/// A pipe that nobody reads is told as any other failed write, whether or not whoever starts the program ignores the signal that is meant for it:
/// the program itself ignores that.
fn closed_pipe(tally: &mut Tally, subject: &Subject, input: &[u8]) {
    let start = Start::of(&subject.words).input(input);
    let told = subject.unwritten("", "Broken pipe");
    let name = format!("{}: a closed pipe", subject.name);
    tally.same(&name, &start.unread(""), &told);
    let name = format!("{}, its signal ignored", name);
    tally.same(&name, &start.unread("trap '' PIPE;"), &told);
}

pub fn all(tally: &mut Tally, faults: &Faults, subject: &Subject, input: &[u8]) {
    failing_reads(tally, faults, subject, input);
    failing_writes(tally, faults, subject, input);
    slow_calls(tally, faults, subject, input);
    given_up(tally, faults, subject, input);
    streams(tally, subject, input);
    if !subject.from_file {
        closed_pipe(tally, subject, input);
    }
}
