//! What the runs came to.

use second::numbers::*;

use crate::printed::Answer;

const ENDS: [&str; 3] = ["finished", "stuck", "open"];

#[derive(Clone, Debug, Default, PartialEq, Eq)]
pub struct Counts {
    pub ended: [u64; ENDS.len()],
    pub numbers: [u64; FOREIGN as usize + 1],
    pub stripped: u64,
    pub stopped_alone: u64,
}

impl Counts {
    pub fn add(&mut self, answer: &Answer) {
        match answer {
            Answer::Refused { number, .. } | Answer::Stopped { number, .. } => {
                self.numbers[usize::from(*number)] += 1
            }
            Answer::End { word, .. } => {
                let place = ENDS.iter().position(|end| end == word);
                self.ended[place.unwrap_or(ENDS.len() - 1)] += 1
            }
        }
    }

    pub fn join(&mut self, other: &Counts) {
        let add =
            |all: &mut [u64], more: &[u64]| all.iter_mut().zip(more).for_each(|(a, b)| *a += b);
        add(&mut self.ended, &other.ended);
        add(&mut self.numbers, &other.numbers);
        self.stripped += other.stripped;
        self.stopped_alone += other.stopped_alone;
    }

    /// Every refusal but 9, since boxrun lends tables of its own, which are never short; and every stop.
    pub fn rows(&self) -> Vec<(String, u64)> {
        let ends = ENDS.iter().map(|end| format!("end {}", end));
        let mut rows: Vec<(String, u64)> = ends.zip(self.ended).collect();
        for number in (OVERLONG..SHORT_TABLE).chain(STOPS) {
            let word = if number < ABSENT {
                "refused"
            } else {
                "stopped"
            };
            let name = format!("{} {}", word, number);
            rows.push((name, self.numbers[usize::from(number)]));
        }
        rows.push(("stripped runs compared".to_string(), self.stripped));
        rows.push(("stopped by a guard alone".to_string(), self.stopped_alone));
        rows
    }
}
