//! The drawing of a run: the length that `box_draw` answers, both tables, and every byte of the buffer, which is full of old bytes before: the
//! second interpreter's drawing at its front, the others as they were. In short buffers, and of scripts that are refused, nothing changes.

use second::drawing::{draw, Drawn};
use second::holders::holders;
use second::machine::End;
use second::numbers::*;
use second::random::Random;
use second::rings::{has_ring, shares};
use second::script::Cap;

use crate::host::{same, Lent, Tables};
use crate::lent::Part;
use crate::library::bytes;

/// What docs/DRAWING.md says that a drawing has at most, and what the longest has: object 0 has no fields, and 100 numbers have fewer than three digits.
const MOST_DRAWING: usize = 42_283;
const LONGEST: usize = 41_527;

/// Buffers that are too short, tried on every run.
const SHORT: [usize; 3] = [0, 1, DRAWING_BYTES - 1];

/// Numbers of objects by their first: the row at place n holds those from FIRST[n] to before the next.
const FIRST: [usize; 7] = [0, 1, 2, 10, 11, 100, MOST_OBJECTS];

/// What was drawn.
#[derive(Clone, Debug, Default)]
pub struct Counts {
    pub objects: [u64; FIRST.len()],
    pub caps: [u64; Cap::ALL.len()],
    pub fields: [u64; MOST_FIELDS],
    pub rings: u64,
    pub shared: u64,
    pub unheld: u64,
    pub stopped: u64,
    pub longer_buffers: u64,
    pub short_buffers: [u64; SHORT.len()],
    pub longest: u64,
    pub refused: [u64; SHORT_TABLE as usize + 1],
}

impl Counts {
    pub fn rows(&self) -> Vec<(String, u64)> {
        let size = |place: usize| match FIRST.get(place + 1) {
            Some(next) if next - 1 > FIRST[place] => format!("{} to {}", FIRST[place], next - 1),
            _ => FIRST[place].to_string(),
        };
        let objects = self.objects.iter().enumerate();
        let mut rows: Vec<(String, u64)> = objects
            .map(|(place, count)| (format!("{} objects", size(place)), *count))
            .collect();
        let caps = Cap::ALL.iter().zip(self.caps);
        rows.extend(caps.map(|(cap, count)| (format!("a node {}", cap.word()), count)));
        let fields = self.fields.iter().enumerate();
        rows.extend(fields.map(|(field, count)| (format!("an edge of field {}", field), *count)));
        let telling = [
            ("objects in a ring", self.rings),
            ("an object held twice", self.shared),
            ("an object that nothing holds", self.unheld),
            ("a stopped run", self.stopped),
            ("a longer buffer", self.longer_buffers),
            ("41,527 bytes, the longest", self.longest),
        ];
        rows.extend(telling.map(|(name, count)| (name.to_string(), count)));
        for (length, count) in SHORT.iter().zip(self.short_buffers) {
            rows.push((format!("a buffer of {} bytes", length), count));
        }
        for number in OVERLONG..=SHORT_TABLE {
            rows.push((
                format!("refused {}", number),
                self.refused[usize::from(number)],
            ));
        }
        rows
    }

    /// What came of a call: a run is looked at once, in the buffer that just suffices.
    fn add(&mut self, buffer: usize, answer: &Result<Drawn, Refusal>) {
        let short = SHORT.iter().position(|length| *length == buffer);
        match (answer, short) {
            (Err(refusal), Some(place)) => {
                self.short_buffers[place] += u64::from(refusal.number == SHORT_TABLE)
            }
            (Err(refusal), None) => self.refused[usize::from(refusal.number)] += 1,
            (Ok(drawn), _) if buffer == DRAWING_BYTES => self.add_drawn(drawn),
            (Ok(_), _) => self.longer_buffers += 1,
        }
    }

    fn add_drawn(&mut self, drawn: &Drawn) {
        let state = &drawn.run.state;
        let count = state.objects.len();
        let all: Vec<u16> = (0..count as u16).collect();
        self.objects[FIRST.iter().filter(|first| **first <= count).count() - 1] += 1;
        for (place, cap) in Cap::ALL.iter().enumerate() {
            self.caps[place] += u64::from(state.objects.iter().any(|object| object.cap == *cap));
        }
        for field in 0..MOST_FIELDS {
            let has = state
                .objects
                .iter()
                .any(|object| object.fields.len() > field);
            self.fields[field] += u64::from(has);
        }
        self.rings += u64::from(has_ring(state, &all));
        self.shared += u64::from(shares(state, &all));
        self.unheld += u64::from(all.iter().any(|object| holders(state, *object) == 0));
        self.stopped += u64::from(matches!(drawn.run.end, End::Stopped(_)));
        self.longest += u64::from(drawn.text.len() == LONGEST);
    }
}

/// One call in this buffer, and every byte that was lent for it. `after` are the tables as the run leaves them.
fn one(lent: &Lent, after: &Tables, old: &Part) -> Result<Result<Drawn, Refusal>, String> {
    let (program, state) = lent.tables.words();
    let theirs = draw(&lent.text, &lent.turns, program, state, old.bytes().len());
    let (mut tables, mut drawing) = (lent.tables.clone(), old.clone());
    let (program, state) = (tables.program.lend(), tables.state.lend());
    let ours = bytes::draw(&lent.text, &lent.turns, program, state, drawing.lend());
    let length = theirs.as_ref().map(|drawn| drawn.text.len());
    same(&ours, &length.map_err(|refusal| *refusal))?;
    match &theirs {
        Ok(drawn) if drawn.text.len() > MOST_DRAWING => {
            return Err(format!("a drawing of {} bytes", drawn.text.len()))
        }
        Ok(drawn) => {
            tables.same(after)?;
            drawing.same("the buffer", &old.with_bytes(drawn.text.as_bytes()))?;
        }
        Err(_) => {
            tables.same(&lent.tables)?;
            drawing.same("the buffer", old)?;
        }
    }
    Ok(theirs)
}

/// In a buffer that just suffices, in a longer one, and in some that are too short.
pub fn of_run(
    random: &mut Random,
    lent: &Lent,
    after: &Tables,
    counts: &mut Counts,
) -> Result<(), String> {
    let told = |length: usize, fault| format!("box_draw in {} bytes: {}", length, fault);
    let any_short = random.below(DRAWING_BYTES);
    let longer = DRAWING_BYTES + random.between(1, 40);
    for length in SHORT.into_iter().chain([any_short, DRAWING_BYTES, longer]) {
        let answer = one(lent, after, &Part::of(random, length));
        counts.add(length, &answer.map_err(|fault| told(length, fault))?);
    }
    Ok(())
}
