//! Lists of turns of varied shape: round robin, random, bursts, one thread alone, threads out of
//! range, and mixtures.

use crate::random::Random;

pub fn list(random: &mut Random) -> Vec<u8> {
    let parts = random.weighted(&[2, 60, 25, 13]);
    let mut turns = Vec::new();
    for _ in 0..parts {
        turns.extend(part(random));
    }
    turns
}

/// A list that gives threads 0 to n - 1 their turns by rounds.
pub fn rounds(threads: usize, length: usize) -> Vec<u8> {
    (0..length)
        .map(|place| (place % threads.max(1)) as u8)
        .collect()
}

fn part(random: &mut Random) -> Vec<u8> {
    let threads = random.between(1, 6);
    let length = random.between(5, 160);
    match random.weighted(&[35, 35, 15, 10, 5]) {
        0 => rounds(threads, length),
        1 => (0..length).map(|_| random.below(threads) as u8).collect(),
        2 => bursts(random, threads, length),
        3 => vec![random.below(threads) as u8; length.min(40)],
        _ => (0..length).map(|_| random.below(256) as u8).collect(),
    }
}

fn bursts(random: &mut Random, threads: usize, length: usize) -> Vec<u8> {
    let mut turns = Vec::new();
    while turns.len() < length {
        let thread = random.below(threads) as u8;
        let run = random.between(1, 20);
        turns.extend(std::iter::repeat(thread).take(run));
    }
    turns
}
