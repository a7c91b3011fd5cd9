//! The compiled box: in `calls` the calls of a C host, in `bytes` what they answer; and the same on tables of words.

pub mod bytes;
mod calls;

use second::machine::{End, Stop};
use second::numbers::Refusal;

/// Words as the bytes that cross, low byte first.
fn as_bytes(words: &[u16]) -> Vec<u8> {
    words.iter().flat_map(|word| word.to_le_bytes()).collect()
}

fn take_back(bytes: &[u8], words: &mut [u16]) {
    for (word, pair) in words.iter_mut().zip(bytes.chunks(2)) {
        *word = u16::from_le_bytes([pair[0], pair[1]]);
    }
}

/// Reads a script into a lent table of words: nothing, or the refusal with its line.
pub fn read(text: &[u8], table: &mut [u16]) -> Result<(), Refusal> {
    let mut lent = as_bytes(table);
    let answer = bytes::read(text, &mut lent);
    take_back(&lent, table);
    answer
}

/// Runs a script on lent tables of words: its end and its moves, or the refusal with its line.
pub fn run(
    text: &[u8],
    turns: &[u8],
    program: &mut [u16],
    state: &mut [u16],
) -> Result<(End, usize), Refusal> {
    let (mut lent_program, mut lent_state) = (as_bytes(program), as_bytes(state));
    let answer = bytes::run(text, turns, &mut lent_program, &mut lent_state);
    take_back(&lent_program, program);
    take_back(&lent_state, state);
    answer
}

/// A number that an answer does not have must be 0.
fn told(end: u16, numbers: [usize; 5]) -> Result<(End, usize), Refusal> {
    match (end, numbers) {
        (0, [0, 0, 0, 0, moves]) => Ok((End::Finished, moves)),
        (1, [0, 0, 0, 0, moves]) => Ok((End::Stuck, moves)),
        (2, [0, 0, 0, 0, moves]) => Ok((End::Open, moves)),
        (3, [number, thread, block, line, moves]) => {
            let stop = Stop {
                number: byte(number),
                thread: byte(thread),
                block: byte(block),
                line: byte(line),
            };
            Ok((End::Stopped(stop), moves))
        }
        (4, [number, 0, 0, line, 0]) => Err(refused(number, line)),
        _ => panic!("no answer of a run: {} {:?}", end, numbers),
    }
}

fn refused(number: usize, line: usize) -> Refusal {
    Refusal {
        number: byte(number),
        line,
    }
}

/// A number of an answer; one over 255, which no answer has, is 255.
fn byte(number: usize) -> u8 {
    u8::try_from(number).unwrap_or(u8::MAX)
}
