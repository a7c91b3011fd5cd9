//! Random and damaged texts, read by the compiled reader and by the second interpreter: the same answer, the table's words by
//! docs/LAYOUT.md, and every other lent word as it was.

use second::damage::damage;
use second::generate;
use second::layout;
use second::numbers::*;
use second::random::Random;
use second::reading;
use second::script::{Edition, Program};

use crate::{full, lent, library};

/// What a run of texts came to: how many were read, in which edition, and how many had each refusal, at line 0 and at later lines.
#[derive(Clone, Debug, Default, PartialEq, Eq)]
pub struct Counts {
    pub read: [u64; EDITIONS.len()],
    pub refused: [[u64; 2]; SHORT_TABLE as usize + 1],
}

const EDITIONS: [&str; 2] = ["read, edition 1", "read, edition 2"];

impl Counts {
    /// Editions and refusals that no text had; 1 and 9 stand at line 0 alone, and 5 and 6 never do.
    pub fn missing(&self) -> Vec<String> {
        let at_zero = |number: u8| number != UNBOUND && number != SELF_TAKEN;
        let later = |number: u8| number != OVERLONG && number != SHORT_TABLE;
        let unread = EDITIONS.iter().zip(self.read);
        let unread = unread.filter(|(_, count)| *count == 0);
        let mut missing: Vec<String> = unread.map(|(name, _)| name.to_string()).collect();
        for number in OVERLONG..=SHORT_TABLE {
            let [first, others] = self.refused[usize::from(number)];
            if at_zero(number) && first == 0 {
                missing.push(format!("refused {} at line 0", number));
            }
            if later(number) && others == 0 {
                missing.push(format!("refused {} at a later line", number));
            }
        }
        missing
    }

    pub fn rows(&self) -> Vec<(String, u64)> {
        let editions = EDITIONS.iter().map(|name| name.to_string());
        let mut rows: Vec<(String, u64)> = editions.zip(self.read).collect();
        for number in OVERLONG..=SHORT_TABLE {
            let [first, others] = self.refused[usize::from(number)];
            rows.push((format!("refused {} at line 0", number), first));
            rows.push((format!("refused {} at a later line", number), others));
        }
        rows
    }

    pub fn add(&mut self, text: &[u8], answer: &Result<(), Refusal>) {
        match answer {
            Ok(()) => self.read[reading::edition(text) as usize] += 1,
            Err(refusal) => {
                self.refused[usize::from(refusal.number)][usize::from(refusal.line > 0)] += 1
            }
        }
    }
}

/// The longest script of a seed, in either edition.
fn full(random: &mut Random, seed: u64) -> Vec<u8> {
    full::script([Edition::One, Edition::Two][random.below(2)], seed)
}

pub fn text(random: &mut Random, seed: u64, n: u64) -> Vec<u8> {
    let input = generate::input(seed, n);
    let last = input[..input.len().saturating_sub(1)]
        .iter()
        .rposition(|byte| *byte == b'\n')
        .map_or(0, |place| place + 1);
    let mut text = match random.weighted(&[900, 40, 10, 50]) {
        0 => input[..last].to_vec(),
        1 => full(random, seed.wrapping_add(n)),
        2 => [full(random, seed.wrapping_add(n)), b"\n".to_vec()].concat(),
        _ => input[..last.min(random.below(24))].to_vec(),
    };
    if random.chance(40) {
        damage(random, &mut text);
    }
    text
}

/// What the second interpreter says of a text and a table of that many words.
pub fn by_second(text: &[u8], words: usize) -> Result<Program, Refusal> {
    reading::lengths(text.len(), 0, &[(words, TABLE_WORDS)])?;
    reading::read_lines(text)
}

/// One text: the answer of both, or how they differ.
pub fn one(text: &[u8], table: &[u16]) -> Result<Result<(), Refusal>, String> {
    let mut lent = table.to_vec();
    let ours = library::read(text, &mut lent);
    let theirs = by_second(text, table.len());
    let expected = match &theirs {
        Ok(program) => [&layout::program(program), &table[TABLE_WORDS..]].concat(),
        Err(_) => table.to_vec(),
    };
    let theirs = theirs.map(|_| ());
    if ours != theirs {
        return Err(format!(
            "the reader says {:?}, the second interpreter {:?}",
            ours, theirs
        ));
    }
    same_words("the program table", &lent, &expected)?;
    Ok(ours)
}

/// The first word that differs, told in words.
pub fn same_words(name: &str, lent: &[u16], expected: &[u16]) -> Result<(), String> {
    match lent.iter().zip(expected).position(|(a, b)| a != b) {
        Some(place) => Err(format!(
            "word {} of {} is {} and not {}",
            place, name, lent[place], expected[place]
        )),
        None => Ok(()),
    }
}

/// Many texts of a seed; the first difference, with its text.
pub fn many(seed: u64, count: u64) -> Result<Counts, (Vec<u8>, String)> {
    let mut counts = Counts::default();
    for n in 0..count {
        let mut random = Random::of(seed ^ 0x5eed, n);
        let text = text(&mut random, seed, n);
        let table = lent::table(&mut random);
        match one(&text, &table) {
            Ok(answer) => counts.add(&text, &answer),
            Err(fault) => return Err((text, fault)),
        }
    }
    Ok(counts)
}
