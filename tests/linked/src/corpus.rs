//! Texts with the answers and tables that a box once gave for them, and whether the box gives them still. Two lines for each text: its bytes,
//! printable ones but the backslash as they stand, LF as `\n`, any other as `\xNN`; then `refused NUMBER LINE`, or `read` and the place and
//! the word, as `PLACE:WORD`, of each word that is not zero.

use second::numbers::*;
use second::random::Random;
use second::script::Edition;

use crate::agree::{self, same_words, Counts};
use crate::{full, library, runs};

/// So many texts of a corpus of that edition are read, and so many meet each refusal that a text alone can meet.
fn most(edition: Edition) -> (usize, usize) {
    match edition {
        Edition::One => (100, 30),
        Edition::Two => (24, 8),
    }
}

/// What the second edition brings to reading, text by text.
const OF_EDITION_2: [&str; 14] = [
    "(script 2)\n",
    "(script 2)",
    "(script 2]\n(thread)\n(give (read 0))\n",
    "(script 1)\n(thread)\n(give (read 0))\n",
    "(script 2)\n(script 2)\n(thread)\n(give (read 0))\n",
    "(thread)\n(give (read 0))\n(script 2)\n",
    "(script 2)\n(thread)\n(give (read 0))\n",
    "(script 2)\n(thread)\n(let (copy imm 0))\n(let (copy local 1))\n(let (copy unsafe 0))\n(give (take 3))\n",
    "(thread)\n(let (copy imm 0))\n(give (read 0))\n",
    "(script 2)\n(thread)\n(let (copy iso 256))\n(give (read 0))\n",
    "(script 2)\n(thread)\n(let (copy imm 256))\n(give (read 0))\n",
    "(script 2)\n(thread)\n(let (copy imm 1))\n(give (read 0))\n",
    "(script 2)\n(thread)\n(give (read 0))\n(method)\n(let (copy local 0))\n(give (take 0))\n",
    "(script 2)\n(method)\n(let (copy unsafe 0))\n(give (read 2))\n",
];

/// But for the longest, no text has more bytes.
const SHORT: usize = 500;

/// A text in which a word of the second edition's occurs belongs to it, also if it is no text of that edition for a fault.
fn edition(text: &[u8]) -> Edition {
    let occurs = |word: &str| text.windows(word.len()).any(|part| part == word.as_bytes());
    if occurs("(script") || occurs("(copy") {
        Edition::Two
    } else {
        Edition::One
    }
}

fn escaped(text: &[u8]) -> String {
    text.iter()
        .map(|byte| match byte {
            b'\n' => "\\n".to_string(),
            b' '..=b'~' if *byte != b'\\' => char::from(*byte).to_string(),
            _ => format!("\\x{:02x}", byte),
        })
        .collect()
}

fn unescaped(line: &str) -> Option<Vec<u8>> {
    let mut text = Vec::new();
    let mut left = line;
    while let Some(first) = left.bytes().next() {
        let (byte, length) = match (first, left.get(1..2)) {
            (b'\\', Some("n")) => (b'\n', 2),
            (b'\\', Some("x")) => (u8::from_str_radix(left.get(2..4)?, 16).ok()?, 4),
            (b' '..=b'~', _) if first != b'\\' => (first, 1),
            _ => return None,
        };
        text.push(byte);
        left = &left[length..];
    }
    Some(text)
}

fn told(answer: &Result<(), Refusal>, words: &[u16]) -> String {
    match answer {
        Err(refusal) => format!("refused {} {}", refusal.number, refusal.line),
        Ok(()) => {
            let places = words.iter().enumerate().filter(|(_, word)| **word != 0);
            let pairs = places.map(|(place, word)| format!(" {}:{}", place, word));
            format!("read{}", pairs.collect::<String>())
        }
    }
}

/// An answer as it was told, and the words that a table with these words then has.
fn understood(line: &str, table: &[u16]) -> Option<(Result<(), Refusal>, Vec<u16>)> {
    let (word, rest) = line.split_once(' ')?;
    if word == "refused" {
        let (number, line) = rest.split_once(' ')?;
        let refusal = Refusal {
            number: number.parse().ok()?,
            line: line.parse().ok()?,
        };
        return Some((Err(refusal), table.to_vec()));
    }
    let mut words = table.to_vec();
    words[..TABLE_WORDS].fill(0);
    for pair in rest.split(' ') {
        let (place, word) = pair.split_once(':')?;
        *words.get_mut(place.parse::<usize>().ok()?)? = word.parse().ok()?;
    }
    (word == "read").then_some((Ok(()), words))
}

/// Some words more than a table has, none of them zero.
fn old_table() -> Vec<u16> {
    (0..TABLE_WORDS as u16 + 5).map(|n| n | 0x8001).collect()
}

/// Texts with their answers, and how many there are of each: at place 0 those that were read, then by the refusal's number.
struct Made {
    edition: Edition,
    lines: String,
    counts: [usize; SHORT_TABLE as usize],
}

impl Made {
    fn room(&self, number: usize) -> bool {
        let (read, refused) = most(self.edition);
        self.counts[number] < if number == 0 { read } else { refused }
    }

    /// 1 takes a text that is too long: there is one.
    fn full(&self) -> bool {
        (0..self.counts.len()).all(|number| number == usize::from(OVERLONG) || !self.room(number))
    }

    fn add(&mut self, text: &[u8]) {
        let mut table = old_table();
        let answer = library::read(text, &mut table);
        let number = answer.map_or_else(|refusal| usize::from(refusal.number), |_| 0);
        if self.room(number) {
            self.counts[number] += 1;
            let answer = told(&answer, &table[..TABLE_WORDS]);
            self.lines
                .push_str(&format!("{}\n{}\n", escaped(text), answer));
        }
    }
}

/// Two longest texts, one that is a byte too long, what is written out, and some of each answer of a seed, all of one edition, with what the
/// linked box says of them now.
pub fn made(of: Edition, seed: u64) -> String {
    let mut made = Made {
        edition: of,
        lines: String::new(),
        counts: [0; SHORT_TABLE as usize],
    };
    made.add(&full::script(of, seed));
    made.add(&full::script(of, seed + 1));
    made.add(&[full::script(of, seed + 2), b"\n".to_vec()].concat());
    if of == Edition::Two {
        OF_EDITION_2
            .iter()
            .for_each(|text| made.add(text.as_bytes()));
    }
    let mut n = 0;
    while !made.full() {
        let mut random = Random::of(seed ^ 0xc0, n);
        let text = agree::text(&mut random, seed, n);
        if text.len() <= SHORT && edition(&text) == of {
            made.add(&text);
        }
        n += 1;
    }
    made.lines
}

/// One text and its answer: what the linked box says of it, if that is what the line tells and what the second interpreter computes.
fn one(text: &[u8], answer: &str) -> Result<Result<(), Refusal>, String> {
    let old = old_table();
    let (expected, words) = understood(answer, &old).ok_or("no answer")?;
    let mut table = old.clone();
    let now = library::read(text, &mut table);
    if now != expected {
        return Err(format!("the reader says {:?}", now));
    }
    same_words("the program table", &table, &words)?;
    agree::one(text, &old)
}

/// The same, and once more with a table that is too short.
fn twice(line: &str, answer: &str, counts: &mut Counts) -> Result<(), String> {
    let text = unescaped(line).ok_or("no text")?;
    counts.add(&text, &one(&text, answer)?);
    let short = &old_table()[..TABLE_WORDS - 1];
    counts.add(&text, &agree::one(&text, short)?);
    Ok(())
}

/// Every text of a corpus; the first that is not answered as it was, with its answer.
pub fn held(corpus: &str) -> Result<Counts, (Vec<u8>, String)> {
    let mut counts = Counts::default();
    let lines: Vec<&str> = corpus.lines().collect();
    for pair in lines.chunks(2) {
        let [text, answer] = [pair[0], pair.get(1).copied().unwrap_or("")];
        twice(text, answer, &mut counts)
            .map_err(|fault| (format!("{}\n{}\n", text, answer).into_bytes(), fault))?;
    }
    Ok(counts)
}

/// What no text of a corpus has: to be read, or a refusal, at any line.
pub fn missing(counts: &Counts) -> Vec<String> {
    let mut rows = vec![("read".to_string(), counts.read.iter().sum())];
    for (number, lines) in (0..).zip(&counts.refused).skip(1) {
        rows.push((format!("refused {}", number), lines.iter().sum()));
    }
    runs::zeros(rows)
}

#[cfg(test)]
mod tests {
    use super::*;

    const C: &[u8] = b"(thread)\n(give (read 0))\n";
    const WORDS: &str = "read 1:1 2:2 8:1 72:2 80:4";

    #[test]
    fn a_text_comes_back_from_its_line() {
        let text: Vec<u8> = (0..=255).collect();
        assert_eq!(unescaped(&escaped(&text)), Some(text));
        assert_eq!(unescaped("\\q"), None);
    }

    #[test]
    fn another_answer_or_word_is_found() {
        assert_eq!(one(C, WORDS), Ok(Ok(())));
        for wrong in [
            "",
            "refused 3 0",
            "read 1:1 2:2 8:1 72:2 80:5",
            "read 1:1 2:2 8:1 72:2",
            "read 1:1 2:2 8:1 72:2 80:4 8191:1",
            "read 1:1 2:2 8:1 72:2 80:4 8192:0",
        ] {
            assert!(one(C, wrong).is_err(), "{}", wrong);
        }
        let text = b"(give (read 0))\n";
        let refusal = Refusal { number: 3, line: 0 };
        assert_eq!(one(text, "refused 3 0"), Ok(Err(refusal)));
        for wrong in ["refused 3 1", "refused 2 0", WORDS] {
            assert!(one(text, wrong).is_err(), "{}", wrong);
        }
    }

    #[test]
    fn what_is_made_holds() {
        for edition in [Edition::One, Edition::Two] {
            let counts = held(&made(edition, 7)).unwrap();
            assert_eq!(missing(&counts), Vec::<String>::new());
            let others = [Edition::Two, Edition::One][edition as usize];
            assert_eq!(counts.read[others as usize], 0);
        }
        let corpus = made(Edition::One, 7);
        let (text, fault) = held(&corpus.replacen("refused 5 ", "refused 6 ", 1)).unwrap_err();
        assert!(
            text.ends_with(b"\n") && fault.contains("number: 5"),
            "{}",
            fault
        );
    }
}
