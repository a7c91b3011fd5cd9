//! What box explain says: a page for each number, headed by the word that documents 01 and 02 give it, that fits on a terminal.

use crate::started::Start;
use crate::tally::Tally;

#[rustfmt::skip]
const WORDS: [&str; 21] = [
    "overlong", "stray byte", "malformed", "over count", "unbound", "self taken", "unfinished", "dangling", "short table", "absent", "no field",
    "no method", "wrong thing", "permission", "cast", "used up", "no thread", "no script", "alias", "foreign",
    "no object",
];

/// What kind of number it is.
fn kind(number: usize) -> &'static str {
    match number {
        17 | 21 => "Not reported: ",
        18 => "Not written: ",
        1..=9 => "Refused: ",
        _ => "Stopped: ",
    }
}

pub fn all(tally: &mut Tally, wrapper: &str) {
    for (place, word) in WORDS.iter().enumerate() {
        let number = place + 1;
        let got = Start::of(&[wrapper, "explain", &number.to_string()]).ended();
        let lines: Vec<&str> = got.out.lines().collect();
        let told = got.status == Ok(0)
            && got.err.is_empty()
            && lines.len() == 5
            && lines[0] == format!("{} {}", number, word)
            && lines[1].starts_with(kind(number))
            && lines[3].starts_with("What to do")
            && lines.iter().all(|line| line.len() <= 80);
        tally.holds(told, || format!("box explain {}: {}", number, got));
    }
}
