//! A printed run, taken apart again.

#[derive(Clone, Debug, PartialEq, Eq)]
pub enum Answer {
    Refused {
        number: u8,
        line: usize,
    },
    End {
        word: String,
        moves: usize,
    },
    Stopped {
        number: u8,
        /// Thread, block and line.
        place: [usize; 3],
        moves: usize,
    },
}

impl Answer {
    pub fn moves(&self) -> usize {
        match self {
            Answer::Refused { .. } => 0,
            Answer::End { moves, .. } | Answer::Stopped { moves, .. } => *moves,
        }
    }
}

#[derive(Clone, Debug, PartialEq, Eq)]
pub struct Printed {
    pub answer: Answer,
    /// The lines after the first, with every object made unsafe.
    pub erased: Vec<String>,
}

pub fn taken_apart(output: &[u8]) -> Result<Printed, String> {
    let text = String::from_utf8_lossy(output);
    let mut lines = text.lines();
    let first = lines.next().unwrap_or("");
    Ok(Printed {
        answer: answer(first).ok_or(format!("no answer: {}", first))?,
        erased: lines.map(erased).collect(),
    })
}

fn answer(line: &str) -> Option<Answer> {
    let words: Vec<&str> = line
        .strip_prefix('(')?
        .strip_suffix(')')?
        .split(' ')
        .collect();
    let number = |place: usize| words[place].parse::<usize>().ok();
    match words[..] {
        ["refused", _, _] => Some(Answer::Refused {
            number: number(1)? as u8,
            line: number(2)?,
        }),
        ["end", word, _] => Some(Answer::End {
            word: word.to_string(),
            moves: number(2)?,
        }),
        ["stopped", _, _, _, _, _] => Some(Answer::Stopped {
            number: number(1)? as u8,
            place: [number(2)?, number(3)?, number(4)?],
            moves: number(5)?,
        }),
        _ => None,
    }
}

/// An object's third word is its capability.
fn erased(line: &str) -> String {
    let mut words: Vec<&str> = line.split(' ').collect();
    if words.len() > 2 && words[0] == "(object" {
        words[2] = "unsafe";
    }
    words.join(" ")
}
