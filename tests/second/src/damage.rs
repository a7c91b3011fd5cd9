//! Damage to a text: bytes changed, lines dropped, doubled or exchanged, cut ends, numbers and words
//! changed, and lines of an edition where they do not belong.

use crate::random::Random;

const LISTED: &[u8] = b"abcdefghijklmnopqrstuvwxyz0123456789() \n";
const STRAY: &[u8] = b"A[]{}\t\r.;-_\"\0\x7f\x80\xff";
const NUMBERS: &[&str] = &[
    "0",
    "1",
    "2",
    "3",
    "4",
    "5",
    "9",
    "15",
    "16",
    "31",
    "32",
    "63",
    "64",
    "99",
    "100",
    "255",
    "256",
    "300",
    "999",
    "007",
    "00",
    "01",
    "0256",
    "1000",
    "12345678901234567890",
];
const WORDS: &[&str] = &[
    "kind", "fields", "does", "thread", "method", "let", "give", "read", "take", "field", "swap",
    "call", "new", "cast", "spawn", "send", "recv", "imm", "iso", "local", "unsafe", "turns", "is",
    "script", "copy",
];
const CAPS: &[&str] = &["imm", "iso", "local", "unsafe"];
const EDITIONS: &[&str] = &[
    "(script 2)\n",
    "(script 1)\n",
    "(script 3)\n",
    "(script 02)\n",
    "(script 256)\n",
    "(script)\n",
    "(script 2 )\n",
    " (script 2)\n",
    "(script 2)",
];

/// Damages the text in one to three places.
pub fn damage(random: &mut Random, text: &mut Vec<u8>) {
    let times = 1 + random.weighted(&[70, 20, 10]);
    for _ in 0..times {
        damage_once(random, text);
    }
}

fn damage_once(random: &mut Random, text: &mut Vec<u8>) {
    match random.weighted(&[10, 6, 8, 8, 12, 10, 10, 8, 18, 10, 8, 6, 6]) {
        0 => change_byte(random, text, LISTED),
        1 => change_byte(random, text, STRAY),
        2 => insert_byte(random, text),
        3 => drop_byte(random, text),
        4 => drop_line(random, text),
        5 => double_line(random, text),
        6 => exchange_lines(random, text),
        7 => cut(random, text),
        8 => change_number(random, text),
        9 => change_word(random, text),
        10 => change_cap(random, text),
        11 => insert_edition(random, text),
        _ => drop_first_line(text),
    }
}

fn change_byte(random: &mut Random, text: &mut [u8], from: &[u8]) {
    let place = random.below(text.len());
    if let (Some(byte), Some(other)) = (text.get_mut(place), random.pick(from)) {
        *byte = other;
    }
}

fn insert_byte(random: &mut Random, text: &mut Vec<u8>) {
    let place = random.between(0, text.len());
    if let Some(byte) = random.pick(LISTED) {
        text.insert(place, byte);
    }
}

fn drop_byte(random: &mut Random, text: &mut Vec<u8>) {
    if !text.is_empty() {
        text.remove(random.below(text.len()));
    }
}

fn lines_of(text: &[u8]) -> Vec<Vec<u8>> {
    text.split_inclusive(|byte| *byte == b'\n')
        .map(|line| line.to_vec())
        .collect()
}

fn drop_first_line(text: &mut Vec<u8>) {
    let lines = lines_of(text);
    *text = lines.get(1..).map_or(Vec::new(), <[_]>::concat);
}

/// Puts a line of an edition, or one that looks like it, before the others or among them.
fn insert_edition(random: &mut Random, text: &mut Vec<u8>) {
    let mut lines = lines_of(text);
    let place = if random.chance(50) {
        0
    } else {
        random.between(0, lines.len())
    };
    let edition = random.weighted(&[50, 20, 5, 5, 5, 5, 5, 5, 5]);
    lines.insert(place, EDITIONS[edition].as_bytes().to_vec());
    *text = lines.concat();
}

fn drop_line(random: &mut Random, text: &mut Vec<u8>) {
    let mut lines = lines_of(text);
    if !lines.is_empty() {
        lines.remove(random.below(lines.len()));
    }
    *text = lines.concat();
}

fn double_line(random: &mut Random, text: &mut Vec<u8>) {
    let mut lines = lines_of(text);
    let place = random.below(lines.len());
    if let Some(line) = lines.get(place).cloned() {
        lines.insert(place, line);
    }
    *text = lines.concat();
}

fn exchange_lines(random: &mut Random, text: &mut Vec<u8>) {
    let mut lines = lines_of(text);
    if !lines.is_empty() {
        let (first, second) = (random.below(lines.len()), random.below(lines.len()));
        lines.swap(first, second);
    }
    *text = lines.concat();
}

/// Cuts the text at a byte, or at the end of a line.
fn cut(random: &mut Random, text: &mut Vec<u8>) {
    let place = random.between(0, text.len());
    text.truncate(place);
    if random.chance(60) {
        let end = text
            .iter()
            .rposition(|byte| *byte == b'\n')
            .map_or(0, |last| last + 1);
        text.truncate(end);
    }
}

/// Puts another number in the stead of one of the text's own.
pub fn change_number(random: &mut Random, text: &mut Vec<u8>) {
    let numbers = parts(text, u8::is_ascii_digit);
    change_part(random, text, &numbers, NUMBERS);
}

fn change_word(random: &mut Random, text: &mut Vec<u8>) {
    let words = parts(text, u8::is_ascii_lowercase);
    change_part(random, text, &words, WORDS);
}

/// Puts another K in the stead of one of the text's own.
fn change_cap(random: &mut Random, text: &mut Vec<u8>) {
    let mut caps = parts(text, u8::is_ascii_lowercase);
    caps.retain(|(start, end)| {
        let word = &text[*start..*end];
        CAPS.iter().any(|cap| cap.as_bytes() == word)
    });
    change_part(random, text, &caps, CAPS);
}

/// Where the longest parts of such bytes begin and end.
fn parts(text: &[u8], of: fn(&u8) -> bool) -> Vec<(usize, usize)> {
    let starts = (0..text.len())
        .filter(|place| of(&text[*place]) && (*place == 0 || !of(&text[*place - 1])));
    let length = |start: usize| text[start..].iter().take_while(|byte| of(byte)).count();
    starts.map(|start| (start, start + length(start))).collect()
}

/// Puts another word or number in the stead of one of these parts.
fn change_part(random: &mut Random, text: &mut Vec<u8>, parts: &[(usize, usize)], others: &[&str]) {
    if let (Some((start, end)), Some(other)) = (random.pick(parts), random.pick(others)) {
        text.splice(start..end, other.bytes());
    }
}
