//! What the calls of a C host answer, as include/box.h says it: words cross as bytes, low byte first.

use second::machine::End;
use second::numbers::Refusal;
use second::races::Race;

use super::{byte, calls, refused, told};

/// Reads a script into a lent table: nothing, or the refusal with its line.
pub fn read(text: &[u8], program: &mut [u8]) -> Result<(), Refusal> {
    match calls::read(text, program) {
        (0, [0]) => Ok(()),
        (0, [line]) => panic!("a script was read, at line {}", line),
        (number, [line]) => Err(refused(number.into(), line)),
    }
}

/// Writes the text that reads to a lent table into a lent buffer: how many bytes, or the number of the refusal.
pub fn write(program: &[u8], script: &mut [u8]) -> Result<usize, u8> {
    match calls::write(program, script) {
        (0, [length]) => Ok(length),
        (number, [0]) => Err(byte(number.into())),
        answer => panic!("no answer of a writing: {:?}", answer),
    }
}

/// Runs a script on lent tables: its end and its moves, or the refusal with its line.
pub fn run(
    text: &[u8],
    turns: &[u8],
    program: &mut [u8],
    state: &mut [u8],
) -> Result<(End, usize), Refusal> {
    let (end, numbers) = calls::run(text, turns, program, state);
    told(end, numbers)
}

/// Runs a script and lists what a thread reaches: how many objects, or the refusal with its line.
pub fn reach(
    text: &[u8],
    turns: &[u8],
    program: &mut [u8],
    state: &mut [u8],
    thread: usize,
    list: &mut [u8],
) -> Result<usize, Refusal> {
    match calls::reach(text, turns, program, state, thread, list) {
        (0, [count, 0]) => Ok(count),
        (number @ 1.., [0, line]) => Err(refused(number.into(), line)),
        answer => panic!("no answer of a report: {:?}", answer),
    }
}

/// Runs a script and tells how many places hold an object: so many, or the refusal with its line.
pub fn holders(
    text: &[u8],
    turns: &[u8],
    program: &mut [u8],
    state: &mut [u8],
    object: usize,
) -> Result<usize, Refusal> {
    match calls::holders(text, turns, program, state, object) {
        (0, [count, 0]) => Ok(count),
        (number @ 1.., [0, line]) => Err(refused(number.into(), line)),
        answer => panic!("no answer of a count: {:?}", answer),
    }
}

/// Runs a script and draws its objects into a lent buffer: how many bytes, or the refusal with its line.
pub fn draw(
    text: &[u8],
    turns: &[u8],
    program: &mut [u8],
    state: &mut [u8],
    drawing: &mut [u8],
) -> Result<usize, Refusal> {
    match calls::draw(text, turns, program, state, drawing) {
        (0, [length, 0]) => Ok(length),
        (number @ 1.., [0, line]) => Err(refused(number.into(), line)),
        answer => panic!("no answer of a drawing: {:?}", answer),
    }
}

/// Runs a script and looks for races: the one that is named, if there is one, or the refusal with its line.
pub fn race(
    text: &[u8],
    turns: &[u8],
    program: &mut [u8],
    state: &mut [u8],
) -> Result<Option<Race>, Refusal> {
    match calls::race(text, turns, program, state) {
        (0, [0, 0, 0, 0, 0, 0]) => Ok(None),
        (0, [1, first, second, object, field, 0]) => Ok(Some(Race {
            first,
            second,
            object: u16::try_from(object).unwrap_or(u16::MAX),
            field: byte(field),
        })),
        (number @ 1.., [0, 0, 0, 0, 0, line]) => Err(refused(number.into(), line)),
        answer => panic!("no answer of a question for races: {:?}", answer),
    }
}

/// Finds a line of a text: where it starts and how long it is.
pub fn line(text: &[u8], n: usize) -> (usize, usize) {
    let (length, [start]) = calls::line(text, n);
    (start, length)
}

/// The version of the library.
pub fn version() -> u32 {
    let (version, []) = calls::version();
    version
}

#[cfg(test)]
mod tests {
    use super::version;

    /// A number that the header defines.
    fn defined(name: &str) -> u32 {
        let define = format!("#define BOX_VERSION_{} ", name);
        let header = include_str!("../../../../include/box.h");
        let line = header.lines().find_map(|line| line.strip_prefix(&define));
        line.expect("the header defines it")
            .parse()
            .expect("a number")
    }

    #[test]
    fn the_library_has_the_version_of_the_header() {
        let parts = ["MAJOR", "MINOR", "PATCH"].map(defined);
        assert_eq!(
            version(),
            parts.iter().fold(0, |so_far, part| 100 * so_far + part)
        );
    }
}
