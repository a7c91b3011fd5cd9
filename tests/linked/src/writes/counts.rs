//! What the tables that were lent to the writer held, and what came of them.

use second::numbers::*;
use second::reading;
use second::script::Edition;
use second::writing::{self, Unwritten};

use super::Lent;
use crate::runs;

/// What a lent table holds.
#[derive(Clone, Copy, Debug, PartialEq, Eq)]
pub enum Held {
    Script,
    OneWord,
    SomeWords,
    EachWord,
    Mixed,
    State,
    Any,
}

/// By the places of `Held`: the name, and whether such a table is written now and then, and 18.
const HELD: [(&str, [bool; 2]); 7] = [
    ("a script", [true, false]),
    ("one word changed", [true, true]),
    ("some words changed", [true, true]),
    ("each word changed in turn", [true, true]),
    ("two scripts mixed", [false, true]),
    ("a state", [false, true]),
    ("any words", [false, true]),
];

/// What the calls came to.
#[derive(Clone, Debug, Default)]
pub struct Counts {
    /// Written, or 18, by what the table holds.
    held: [[u64; 2]; HELD.len()],
    edition_2: u64,
    longest: u64,
    longer_table: u64,
    longer_buffer: u64,
    short_table: u64,
    short_buffer: u64,
    both_short: u64,
    short_and_no_script: u64,
    no_form: u64,
    refused: [u64; DANGLING as usize + 1],
    other_words: u64,
}

impl Counts {
    /// No text that is written from rows has a stray byte.
    pub fn rows(&self) -> Vec<(String, u64)> {
        let mut rows = Vec::new();
        for ((name, comes), counts) in HELD.iter().zip(self.held) {
            let answers = ["written", "18"].iter().zip(counts).zip(comes);
            let expected = answers.filter(|(_, comes)| **comes);
            rows.extend(
                expected.map(|((answer, count), _)| (format!("{}: {}", name, answer), count)),
            );
        }
        let others = [
            ("written: edition 2", self.edition_2),
            ("written: 16,384 bytes", self.longest),
            ("written: from a longer table", self.longer_table),
            ("written: to a longer buffer", self.longer_buffer),
            ("9: table", self.short_table),
            ("9: buffer", self.short_buffer),
            ("9: both", self.both_short),
            ("9: buffer, and no script", self.short_and_no_script),
            ("18: no form", self.no_form),
            ("18: other words", self.other_words),
        ];
        rows.extend(others.map(|(name, count)| (name.to_string(), count)));
        for number in (OVERLONG..=DANGLING).filter(|number| *number != STRAY_BYTE) {
            let name = format!("18: its text is refused {}", number);
            rows.push((name, self.refused[usize::from(number)]));
        }
        rows
    }

    pub fn missing(&self) -> Vec<String> {
        runs::zeros(self.rows())
    }

    pub(super) fn add(&mut self, held: Held, lent: &Lent, answer: &Result<Vec<u8>, Unwritten>) {
        match answer {
            Ok(text) => {
                self.edition_2 += u64::from(reading::edition(text) == Edition::Two);
                self.longest += u64::from(text.len() == MOST_TEXT);
                self.longer_table += u64::from(lent.program.bytes().len() > 2 * TABLE_WORDS);
                self.longer_buffer += u64::from(lent.script.bytes().len() > MOST_TEXT);
            }
            Err(Unwritten::Short) => return self.add_short(lent),
            Err(Unwritten::NoForm) => self.no_form += 1,
            Err(Unwritten::Refused(number)) => self.refused[usize::from(*number)] += 1,
            Err(Unwritten::OtherWords) => self.other_words += 1,
        }
        self.held[held as usize][usize::from(answer.is_err())] += 1;
    }

    fn add_short(&mut self, lent: &Lent) {
        let table = lent.program.words() < TABLE_WORDS;
        let buffer = lent.script.bytes().len() < MOST_TEXT;
        self.short_table += u64::from(table && !buffer);
        self.short_buffer += u64::from(buffer && !table);
        self.both_short += u64::from(table && buffer);
        let no_script = !table && writing::write(&lent.words, MOST_TEXT).is_err();
        self.short_and_no_script += u64::from(no_script);
    }
}
