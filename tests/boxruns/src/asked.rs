//! What box prints when it is asked to save, strip, check, report on or draw an input, or for its races: what the second interpreter has, byte
//! for byte.

use std::fs;

use second::input::{accepted, drawn, parts, raced, reached, saved, stripped};
use second::numbers::*;
use second::random::Random;
use second::script::Edition;
use second::sheet::checked;

use crate::fixed;
use crate::many::{self, Difference};
use crate::program::Program;
use crate::{differs, example_files, in_three, Held};

/// A command, what it must print of an input, and what some of the inputs must make it show.
pub struct Asked {
    words: fn(&[u8]) -> Vec<String>,
    prints: fn(&[u8]) -> Vec<u8>,
    shows: Vec<String>,
}

/// A thread to report on: some that scripts often start, some that few do, and some that none does.
fn thread(input: &[u8]) -> usize {
    [0, 1, 0, 2, 0, 1, 0, 3, 0, 1, 0, 2, 1, 15, 16, 999][input.len() % 16]
}

fn words(all: &[&str]) -> Vec<String> {
    all.iter().map(|word| word.to_string()).collect()
}

/// The refusals of scripts, and more.
fn refusals(more: Option<u8>) -> impl Iterator<Item = String> {
    let numbers = (OVERLONG..=DANGLING).chain(more);
    numbers.map(|number| format!("(refused {} ", number))
}

pub fn of(word: &str) -> Option<Asked> {
    match word {
        "save" => Some(Asked {
            words: |_| words(&["save"]),
            prints: saved,
            shows: refusals(None).collect(),
        }),
        "strip" => Some(Asked {
            words: |_| words(&["strip", "-"]),
            prints: stripped,
            shows: refusals(Some(NO_SCRIPT))
                .chain(words(&["(new unsafe ", "(cast unsafe ", "(copy unsafe "]))
                .collect(),
        }),
        "reach" => Some(Asked {
            words: |input| words(&["reach", "-", &thread(input).to_string()]),
            prints: |input| reached(input, thread(input)),
            shows: refusals(Some(NO_THREAD))
                .chain(words(&["(reached)", "(reached 0 1", "(reached 1"]))
                .collect(),
        }),
        "draw" => Some(Asked {
            words: |_| words(&["draw", "-"]),
            prints: drawn,
            shows: drawing_shows(),
        }),
        "race" => Some(Asked {
            words: |_| words(&["race", "-"]),
            prints: raced,
            shows: refusals(None).chain(race_shows()).collect(),
        }),
        "check" => Some(Asked {
            words: |_| words(&["check"]),
            prints: checked,
            shows: sheet_shows(),
        }),
        _ => None,
    }
}

/// What some of the drawings show: no object, one of each capability, the last that there can be; edges of each field.
fn drawing_shows() -> Vec<String> {
    let shown = words(&[
        "filled];\n}",
        " imm\", shape=box, fillcolor=lightblue];",
        " iso\", shape=ellipse, fillcolor=palegreen];",
        " local\", shape=house, fillcolor=khaki];",
        " unsafe\", shape=octagon, fillcolor=salmon];",
        "  255 [",
        "  255 -> ",
        " -> 255 [",
        " [label=\"0\"];",
        " [label=\"1\"];",
        " [label=\"2\"];",
        " [label=\"3\"];",
    ]);
    refusals(None).chain(shown).collect()
}

/// What some of the answers are: those of the races that are written out, and none.
fn race_shows() -> Vec<String> {
    words(&[
        "(norace)\n",
        "(race 6 7 1 0)\n",
        "(race 6 7 1 1)\n",
        "(race 6 7 1 2)\n",
        "(race 6 7 1 3)\n",
        "(race 6 1023 1 0)\n",
        "(race 22 23 255 1)\n",
    ])
}

/// What some of the sheets show: every refusal, hint and stop, both runs where they differ, and turns of every outcome.
fn sheet_shows() -> Vec<String> {
    let refused = (OVERLONG..=DANGLING).map(|number| format!("refused: {} ", number));
    let stops = STOPS
        .iter()
        .map(|number| format!("with guards: (stopped {} ", number));
    let others = words(&[
        "[ ] 1. ",
        "[ ] 2. ",
        "[ ] 3. ",
        "[ ] 4. ",
        "[x] 1. ",
        "[x] 3. ",
        "Verdict: all four",
        "Verdict: not all",
        "hint: a script has",
        "hint: only a to z",
        "hint: the line ends in CR LF",
        "hint: no form",
        "hint: a number over",
        "hint: a slot",
        "hint: a method",
        "hint: the last block",
        "hint: no such",
        "hint: the last line has no LF",
        "hint: the last line is to be",
        "^ ",
        "        ^",
        "?",
        "unsafe: none",
        "unsafe: 4 5",
        "       0 turns",
        "thread 0: 0 moved, 0 waited, 0 idle, 1 stopped",
        " 0 moved, 1 waited",
        " 0 moved, 0 waited, 1 idle",
        ", 0 stopped, 1 not played",
        ", 1 stopped, 1 not played",
        "no thread: 0 moved, 0 waited, 0 idle, 0 stopped, ",
        "no thread: 0 moved, 0 waited, 1 idle",
        "without:     (end finished",
        "without:     (end stuck",
        "without:     (end open",
        "without:     (stopped",
        "aside, after 0 turns",
    ]);
    refused.chain(stops).chain(others).collect()
}

/// What the inputs came to.
#[derive(Clone, Debug, Default)]
struct Counts {
    accepted: u64,
    edition_2: u64,
    longest_script: u64,
    longest: u64,
    shown: Vec<u64>,
}

impl Counts {
    fn rows(&self, shows: &[String]) -> Vec<(String, u64)> {
        let rows = [
            ("accepted", self.accepted),
            ("of edition 2", self.edition_2),
            ("16,384 bytes of script", self.longest_script),
            ("65,536 bytes", self.longest),
        ];
        let rows = rows.map(|(name, count)| (name.to_string(), count));
        let shown = shows.iter().map(|words| words.replace('\n', "\\n"));
        let shown = shown.zip(self.shown.iter().copied());
        rows.into_iter().chain(shown).collect()
    }

    fn add(&mut self, shows: &[String], input: &[u8], printed: &[u8]) {
        if let Ok((program, _)) = accepted(input) {
            let script = parts(input).map_or(0, |parts| parts.script.len());
            self.accepted += 1;
            self.edition_2 += u64::from(program.edition == Edition::Two);
            self.longest_script += u64::from(script == MOST_TEXT);
            self.longest += u64::from(input.len() == MOST_INPUT);
        }
        let text = String::from_utf8_lossy(printed);
        self.shown.resize(shows.len(), 0);
        for (count, words) in self.shown.iter_mut().zip(shows) {
            *count += u64::from(text.contains(words.as_str()));
        }
    }

    fn join(&mut self, other: &Counts) {
        self.accepted += other.accepted;
        self.edition_2 += other.edition_2;
        self.longest_script += other.longest_script;
        self.longest += other.longest;
        for (count, more) in self.shown.iter_mut().zip(&other.shown) {
            *count += more;
        }
    }
}

fn same(ours: &[u8], theirs: &[u8]) -> Result<(), String> {
    if ours == theirs {
        return Ok(());
    }
    Err(format!(
        "box prints\n{}and not\n{}",
        String::from_utf8_lossy(ours),
        String::from_utf8_lossy(theirs)
    ))
}

/// The n-th input of a seed, now and then worn: cut at any byte, its lines from one on with CR LF, or one of its lines too long to be shown.
fn worn(seed: u64, n: u64) -> Vec<u8> {
    let mut random = Random::of(seed ^ 0x7361_7665, n);
    let mut input = many::input(seed, n);
    let place = random.between(0, input.len());
    match random.weighted(&[90, 5, 3, 2]) {
        0 => {}
        1 => input.truncate(place),
        2 => {
            let rest = String::from_utf8_lossy(&input[place..]).replace('\n', "\r\n");
            input.splice(place.., rest.into_bytes());
        }
        _ => {
            let byte = random.pick(b"x0( A\r\xff").unwrap_or(b'x');
            let long = vec![byte; random.between(60, 120)];
            input.splice(place..place, long);
        }
    }
    input
}

impl Asked {
    fn program(&self, program: &Program, input: &[u8]) -> Program {
        Program {
            path: program.path.clone(),
            words: (self.words)(input),
        }
    }

    fn one(&self, program: &Program, input: &[u8], counts: &mut Counts) -> Result<(), String> {
        let printed = self.program(program, input).printed(input)?;
        same(&printed, &(self.prints)(input))?;
        counts.add(&self.shows, input, &printed);
        Ok(())
    }

    /// Inputs that are written out, whole and in pieces, and the examples.
    fn written_out(&self, program: &Program, counts: &mut Counts) -> Result<(), Difference> {
        for case in fixed::saves().into_iter().chain(fixed::all()) {
            let difference = |fault| differs(&case.name, &case.input, fault);
            self.one(program, &case.input, counts).map_err(difference)?;
        }
        for case in fixed::saves() {
            let pieces = in_three(&case.input);
            self.program(program, &case.input)
                .printed_in_pieces(&pieces)
                .and_then(|ours| same(&ours, &(self.prints)(&case.input)))
                .map_err(|fault| {
                    differs(&format!("{}, in pieces", case.name), &case.input, fault)
                })?;
        }
        for path in example_files()? {
            let name = path.display().to_string();
            let input = fs::read(&path).map_err(|fault| differs(&name, b"", fault.to_string()))?;
            self.one(program, &input, counts)
                .map_err(|fault| differs(&name, &input, fault))?;
        }
        Ok(())
    }

    pub fn all(&self, program: &Program, seed: u64, count: u64) -> Held {
        let mut counts = Counts::default();
        settled()?;
        self.written_out(program, &mut counts)?;
        let one = |input: &[u8], counts: &mut Counts| self.one(program, input, counts);
        for part in many::many(seed, count, worn, one)? {
            counts.join(&part);
        }
        Ok(counts.rows(&self.shows))
    }
}

/// What is settled for the written inputs, of the second interpreter: they come back, or are refused with this line.
fn settled() -> Result<(), Difference> {
    for case in fixed::saves() {
        let expected = match &case.first_line[..] {
            "" => case.input.clone(),
            line => format!("{}\n", line).into_bytes(),
        };
        same(&saved(&case.input), &expected)
            .map_err(|fault| differs(&case.name, &case.input, fault))?;
    }
    Ok(())
}

#[cfg(test)]
mod tests {
    use super::*;
    use std::path::PathBuf;

    /// Held to `cat`, which prints its input.
    fn held(prints: fn(&[u8]) -> Vec<u8>) -> Result<(), String> {
        let cat = Program {
            path: PathBuf::from("cat"),
            words: Vec::new(),
        };
        let asked = Asked {
            words: |_| Vec::new(),
            prints,
            shows: Vec::new(),
        };
        asked.one(&cat, b"(turns 0)\n", &mut Counts::default())
    }

    #[test]
    fn every_byte_is_compared() {
        assert_eq!(held(|input| input.to_vec()), Ok(()));
        for prints in [
            |_: &[u8]| b"(turns 1)\n".to_vec(),
            |_: &[u8]| b"(turns 0)".to_vec(),
            |_: &[u8]| b"(turns 0)\n\n".to_vec(),
            |_: &[u8]| Vec::new(),
        ] {
            assert!(held(prints).is_err());
        }
    }

    /// What no input showed is missing.
    #[test]
    fn what_is_shown_is_counted() {
        let shows = words(&["(refused 3 ", "(reached"]);
        let mut counts = Counts::default();
        counts.add(&shows, b"", b"(refused 3 0)\n");
        counts.add(&shows, b"", b"(refused 3 0)\n");
        let rows = counts.rows(&shows);
        assert_eq!(
            rows[4..],
            [("(refused 3 ".to_string(), 2), ("(reached".to_string(), 0)]
        );
    }
}
