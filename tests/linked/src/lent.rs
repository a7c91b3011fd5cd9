//! What is lent to the box: tables and lists of the right length, longer or too short, and full of old words or bytes.

use second::numbers::TABLE_WORDS;
use second::random::Random;

/// Mostly the least length that is taken, else a longer or a shorter one.
fn length(random: &mut Random, least: usize) -> usize {
    match random.weighted(&[80, 15, 4, 1]) {
        0 => least,
        1 => least + random.between(1, 40),
        2 => least - random.between(1, 40),
        _ => random.below(least),
    }
}

fn old_words(random: &mut Random) -> impl Iterator<Item = u16> {
    let mut word = random.word();
    std::iter::repeat_with(move || {
        word = word
            .wrapping_mul(6_364_136_223_846_793_005)
            .wrapping_add(1_442_695_040_888_963_407);
        (word >> 48) as u16
    })
}

/// A table of words.
pub fn table(random: &mut Random) -> Vec<u16> {
    let length = length(random, TABLE_WORDS);
    old_words(random).take(length).collect()
}

/// Bytes that are lent from the midst of others, at any address, so that a byte written past either end shows.
#[derive(Clone, Debug, PartialEq, Eq)]
pub struct Part {
    all: Vec<u8>,
    from: usize,
    length: usize,
}

const MARGIN: usize = 64;

impl Part {
    /// A table or a list for at least so many words; now and then too short.
    pub fn old(random: &mut Random, words: usize) -> Part {
        let length = length(random, 2 * words);
        Part::of(random, length)
    }

    /// Of so many bytes.
    pub fn of(random: &mut Random, length: usize) -> Part {
        let from = MARGIN + random.below(8);
        let all = old_words(random).flat_map(u16::to_le_bytes);
        Part {
            all: all.take(from + length + MARGIN).collect(),
            from,
            length,
        }
    }

    pub fn lend(&mut self) -> &mut [u8] {
        &mut self.all[self.from..self.from + self.length]
    }

    pub fn bytes(&self) -> &[u8] {
        &self.all[self.from..self.from + self.length]
    }

    /// How many words there is room for.
    pub fn words(&self) -> usize {
        self.length / 2
    }

    /// The same with other words at its front, as far as it goes; every other byte as it was.
    pub fn with(&self, words: &[u16]) -> Part {
        let bytes: Vec<u8> = words.iter().flat_map(|word| word.to_le_bytes()).collect();
        self.with_bytes(&bytes[..bytes.len().min(self.length)])
    }

    /// The same with other bytes at its front.
    pub fn with_bytes(&self, bytes: &[u8]) -> Part {
        let mut part = self.clone();
        part.lend()[..bytes.len()].copy_from_slice(bytes);
        part
    }

    /// The first byte that differs, told in words.
    pub fn same(&self, name: &str, expected: &Part) -> Result<(), String> {
        if self == expected {
            return Ok(());
        }
        let pairs = self.all.iter().zip(&expected.all);
        let place = pairs.take_while(|(a, b)| a == b).count();
        Err(format!(
            "byte {} of {} is {} and not {}",
            place as isize - self.from as isize,
            name,
            self.all[place],
            expected.all[place]
        ))
    }
}
