//! Words that may be lent as a program table: those of a script with some of them changed, of two scripts mixed, or any at all.

use second::layout::{FIRST_LINES, LINE, LINES, LINE_COUNT};
use second::numbers::{MOST_LINES, TABLE_WORDS};
use second::random::Random;

/// The words after the last line.
fn end_of_lines(words: &[u16]) -> usize {
    LINES + LINE * usize::from(words[LINE_COUNT]).min(MOST_LINES)
}

/// Mostly a place that the script uses, else one close by or any.
fn place(random: &mut Random, words: &[u16]) -> usize {
    let end = end_of_lines(words);
    match random.weighted(&[10, 10, 60, 10, 10]) {
        0 => random.below(FIRST_LINES),
        1 => random.between(FIRST_LINES, LINES - 1),
        2 => random.between(LINES, end - 1),
        3 => random.between(end, end + LINE - 1),
        _ => random.below(TABLE_WORDS),
    }
}

/// Another word for a place: none, the next or the one before, one bit off, as the places beside it have it, small, or any.
fn other_word(random: &mut Random, words: &[u16], place: usize) -> u16 {
    let word = words[place];
    loop {
        let other = match random.below(8) {
            0 => 0,
            1 => word.wrapping_add(1),
            2 => word.wrapping_sub(1),
            3 => word ^ 1 << random.below(16),
            4 => words[(place + 1) % TABLE_WORDS],
            5 => words[(place + TABLE_WORDS - 1) % TABLE_WORDS],
            6 => random.below(16) as u16,
            _ => random.word() as u16,
        };
        if other != word {
            return other;
        }
    }
}

/// A script's words with some of them changed.
pub fn changed(random: &mut Random, words: &[u16], times: usize) -> Vec<u16> {
    let mut changed = words.to_vec();
    for _ in 0..times {
        let place = place(random, words);
        changed[place] = other_word(random, &changed, place);
    }
    changed
}

/// Other words for a place, three at least, each once: none, the next, the one before, and one over 255.
pub fn other_words(word: u16) -> Vec<u16> {
    let near = [0, word.wrapping_add(1), word.wrapping_sub(1), word ^ 256];
    let mut others: Vec<u16> = near.into_iter().filter(|other| *other != word).collect();
    others.sort_unstable();
    others.dedup();
    others
}

/// Two scripts' words: the lines from one on are the other's, or the head is, or each word is of either.
pub fn mixed(random: &mut Random, words: &[u16], others: &[u16]) -> Vec<u16> {
    let cut = match random.below(3) {
        0 => LINES,
        1 => random.between(LINES, end_of_lines(words)),
        _ => {
            let pairs = words.iter().zip(others);
            return pairs
                .map(|(word, other)| if random.chance(50) { *word } else { *other })
                .collect();
        }
    };
    [&words[..cut], &others[cut..]].concat()
}

/// Any words, or small ones that say they are a few lines.
pub fn any(random: &mut Random) -> Vec<u16> {
    if random.chance(50) {
        return (0..TABLE_WORDS).map(|_| random.word() as u16).collect();
    }
    let mut words = vec![0; TABLE_WORDS];
    words[..FIRST_LINES].fill_with(|| random.below(3) as u16);
    words[LINE_COUNT] = random.below(8) as u16;
    for row in words[LINES..].chunks_mut(LINE).take(8) {
        row[0] = random.below(15) as u16;
        row[1..4].fill_with(|| random.below(4) as u16);
    }
    words
}
