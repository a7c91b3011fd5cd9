//! Lines of random texts, of any bytes, found by the compiled box and by the second interpreter: the very same part of the text.

use second::lines;
use second::random::Random;

use crate::host::same;
use crate::library::bytes;

/// What the lines were.
#[derive(Clone, Debug, Default)]
pub struct Counts {
    pub ended: u64,
    pub last: u64,
    pub empty: u64,
    pub past: u64,
    pub of_nothing: u64,
}

impl Counts {
    pub fn rows(&self) -> Vec<(String, u64)> {
        let rows = [
            ("with its LF", self.ended),
            ("last, without LF", self.last),
            ("empty", self.empty),
            ("past the last", self.past),
            ("of an empty text", self.of_nothing),
        ];
        rows.map(|(name, count)| (name.to_string(), count)).to_vec()
    }

    fn add(&mut self, text: &[u8], start: usize, length: usize) {
        let end = start + length;
        let row = if text.is_empty() {
            &mut self.of_nothing
        } else if start == text.len() {
            &mut self.past
        } else if end == text.len() {
            &mut self.last
        } else if length == 0 {
            &mut self.empty
        } else {
            &mut self.ended
        };
        *row += 1;
    }
}

fn text(random: &mut Random) -> Vec<u8> {
    let most = [0, 3, 40, 400, 20_000][random.weighted(&[10, 30, 30, 28, 2])];
    let feeds = [1, 10, 50][random.below(3)];
    let length = random.between(0, most);
    let mut text: Vec<u8> = (0..length).map(|_| random.below(256) as u8).collect();
    for byte in &mut text {
        if random.chance(feeds) {
            *byte = b'\n';
        }
    }
    if random.chance(40) {
        text.push(b'\n');
    }
    text
}

/// Mostly a line of the text or just past the last, else a number far past it, some of them 0 in fewer bits.
fn number(random: &mut Random, text: &[u8]) -> usize {
    let feeds = text.iter().filter(|byte| **byte == b'\n').count();
    match random.weighted(&[70, 20, 10]) {
        0 => random.below(feeds + 1),
        1 => feeds + random.below(3),
        _ => [256, 65_536, 1 << 32, usize::MAX][random.below(4)],
    }
}

fn one(text: &[u8], n: usize, counts: &mut Counts) -> Result<(), String> {
    let ours = bytes::line(text, n);
    let part = lines::line(text, n);
    let theirs = (part.as_ptr() as usize - text.as_ptr() as usize, part.len());
    same(&ours, &theirs)
        .map_err(|fault| format!("box_line {} on \"{}\": {}", n, text.escape_ascii(), fault))?;
    counts.add(text, theirs.0, theirs.1);
    Ok(())
}

/// Some lines of a script and of a random text.
pub fn lines(random: &mut Random, script: &[u8], counts: &mut Counts) -> Result<(), String> {
    let other = text(random);
    for _ in 0..4 {
        one(script, number(random, script), counts)?;
        one(&other, number(random, &other), counts)?;
    }
    Ok(())
}
