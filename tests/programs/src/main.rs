//! The program `programs`: `programs FOLDER BOX` starts the programs of FOLDER, and the wrapper BOX, as people and systems do: on files and
//! pipes, and on reads and writes that fail; and holds what they print, tell and exit with to their manual pages. The last line is
//! 'N passed, M failed'.

#![forbid(unsafe_code)]

mod commands;
mod faults;
mod pages;
mod started;
mod tally;

use std::env;
use std::fs;
use std::path::{Path, PathBuf};
use std::process;

use second::input::{boxrun, drawn, saved, stripped};
use second::sheet::checked;

use faults::{Faults, Subject};
use tally::Tally;

/// An input that is accepted, and one that is not.
const INPUT: &str = "(thread)\n(let (spawn 0))\n(give (read 1))\n(turns 0 0 1 1)\n";
const REFUSED: &str = "(thread)\n(let (spawn 0))\n(turns 0)\n";

fn main() {
    let arguments: Vec<String> = env::args().skip(1).collect();
    let status = match arguments.as_slice() {
        [folder, wrapper] => tried(folder, wrapper),
        _ => {
            eprintln!("programs FOLDER BOX");
            2
        }
    };
    process::exit(status);
}

/// A folder of our own, for what the tests write.
fn room() -> PathBuf {
    let room = env::temp_dir().join(format!("programs-{}", process::id()));
    fs::create_dir(&room).expect("a folder of our own");
    room
}

/// A file of our own.
fn file(room: &Path, name: &str, text: &str) -> String {
    let path = room.join(name);
    fs::write(&path, text).expect("a file of our own");
    path.display().to_string()
}

fn tried(folder: &str, wrapper: &str) -> i32 {
    let room = room();
    let mut tally = Tally::default();
    let faults = Faults::built(&room);
    for input in [INPUT, REFUSED] {
        for subject in subjects(folder, wrapper, &file(&room, "input", input), input) {
            faults::all(&mut tally, &faults, &subject, input.as_bytes());
        }
    }
    commands::all(&mut tally, &room, folder, wrapper);
    pages::all(&mut tally, wrapper);
    let _ = fs::remove_dir_all(&room);
    println!("{} passed, {} failed", tally.passed, tally.failed);
    i32::from(tally.failed > 0 || tally.passed == 0)
}

/// What boxrun prints.
fn printed(input: &str) -> String {
    prints("run", input)
}

/// What a command of box prints.
fn prints(command: &str, input: &str) -> String {
    let print = match command {
        "save" => saved,
        "strip" => stripped,
        "check" => checked,
        "draw" => drawn,
        _ => boxrun,
    };
    String::from_utf8_lossy(&print(input.as_bytes())).into_owned()
}

/// The ways to start a program on an input, which stands in a file too.
fn subjects(folder: &str, wrapper: &str, path: &str, input: &str) -> Vec<Subject> {
    let refused = printed(input).starts_with("(refused");
    let mut all = vec![Subject {
        name: "boxrun".to_string(),
        words: vec![format!("{}/boxrun", folder)],
        program: "boxrun".to_string(),
        prints: printed(input),
        reads: "boxrun: standard input".to_string(),
        writes: "boxrun: standard output".to_string(),
        well: 0,
        fault: 0,
        from_file: false,
    }];
    for (command, file) in [
        ("run", None),
        ("run", Some(path)),
        ("save", Some("-")),
        ("strip", None),
        ("check", None),
        ("draw", Some(path)),
        ("draw", Some("-")),
    ] {
        let mut words = vec![wrapper.to_string(), command.to_string()];
        words.extend(file.map(str::to_string));
        let from_file = file.map_or(false, |file| file != "-");
        all.push(Subject {
            name: format!("box {}", words[1..].join(" ")),
            words,
            program: "box_tool".to_string(),
            prints: prints(command, input),
            reads: match file {
                Some(file) if from_file => format!("box: {}", file),
                _ => "box: standard input".to_string(),
            },
            writes: "box: standard output".to_string(),
            well: i32::from(refused),
            fault: 2,
            from_file,
        });
    }
    all
}
