//! The holders of every object of a run, and of objects never made: the count that `box_holders` tells, the one that stands in the object's
//! record, and the second interpreter's, which is always taken afresh. Of short lists after every number of turns.

use second::holders::{holders_but_self, holders_of};
use second::machine::{End, Run};
use second::numbers::*;
use second::script::{Cap, Program};
use second::state::{Frame, State, Value};

use crate::host::{same, Lent, Tables};
use crate::library::bytes;
use crate::runs;

/// Lists of at most so many turns are tried after every number of them.
const SHORT: usize = 24;

/// Numbers of no object, some of them that of one in fewer bits; the first that is not made comes before them.
const NEVER: [usize; 6] = [MOST_OBJECTS, 257, 65_535, 65_536, 1 << 32, usize::MAX];

/// Counts by their first: the row at place n holds those from FIRST[n] to before the next.
const FIRST: [usize; 10] = [0, 1, 2, 4, 8, 16, 32, 64, 128, 256];

/// What the counts came to, and what made them hard to keep.
#[derive(Clone, Debug, Default)]
pub struct Counts {
    pub held: [u64; FIRST.len()],
    pub by_selves: u64,
    pub iso_by_selves: u64,
    pub by_fields_alone: u64,
    pub by_itself: u64,
    pub by_messages: u64,
    pub by_two_threads: u64,
    pub stopped: u64,
    pub after_prefixes: u64,
    pub refused: [u64; NO_OBJECT as usize + 1],
}

impl Counts {
    pub fn rows(&self) -> Vec<(String, u64)> {
        let size = |place: usize| match FIRST.get(place + 1) {
            Some(next) if next - 1 == FIRST[place] => FIRST[place].to_string(),
            Some(next) => format!("{} to {}", FIRST[place], next - 1),
            None => format!("{} or more", FIRST[place]),
        };
        let held = self.held.iter().enumerate();
        let mut rows: Vec<(String, u64)> = held
            .map(|(place, count)| (format!("held by {}", size(place)), *count))
            .collect();
        let telling = [
            ("self slots among them", self.by_selves),
            ("an iso, self slots among them", self.iso_by_selves),
            ("fields alone", self.by_fields_alone),
            ("a field of its own", self.by_itself),
            ("a message among them", self.by_messages),
            ("two threads among them", self.by_two_threads),
            ("a stopped run", self.stopped),
            ("after some turns of a short list", self.after_prefixes),
        ];
        rows.extend(telling.map(|(name, count)| (name.to_string(), count)));
        for number in (OVERLONG..=SHORT_TABLE).chain([NO_OBJECT]) {
            rows.push((
                format!("refused {}", number),
                self.refused[usize::from(number)],
            ));
        }
        rows
    }

    fn add(&mut self, (program, run): &(Program, Run), object: u16, count: usize) {
        let (state, held) = (&run.state, Value::Obj(object));
        let selves = count - holders_but_self(program, state, object);
        let fields = state.objects.iter().flat_map(|object| &object.fields);
        let in_fields = fields.filter(|value| **value == held).count();
        let mut messages = state.channels.iter().map(|channel| channel.message);
        let own = state.object(object);
        self.held[FIRST.iter().filter(|first| **first <= count).count() - 1] += 1;
        self.by_selves += u64::from(selves > 0);
        self.iso_by_selves += u64::from(selves > 0 && own.cap == Cap::Iso);
        self.by_fields_alone += u64::from(count > 0 && in_fields == count);
        self.by_itself += u64::from(own.fields.contains(&held));
        self.by_messages += u64::from(messages.any(|message| message == held));
        self.by_two_threads += u64::from(threads_that_hold(state, held) > 1);
        self.stopped += u64::from(matches!(run.end, End::Stopped(_)));
    }
}

fn threads_that_hold(state: &State, held: Value) -> usize {
    let holds = |frame: &Frame| frame.slots.contains(&held);
    let threads = state.threads.iter();
    threads
        .filter(|thread| thread.frames.iter().any(holds))
        .count()
}

/// One count, and every byte that was lent for it. `after` are the tables as they must be then, the counts in them.
fn one(
    lent: &Lent,
    after: &Tables,
    object: usize,
    theirs: &Result<usize, Refusal>,
) -> Result<(), String> {
    let mut tables = lent.tables.clone();
    let (program, state) = (tables.program.lend(), tables.state.lend());
    let ours = bytes::holders(&lent.text, &lent.turns, program, state, object);
    same(&ours, theirs)?;
    tables.same(after)
}

/// The holders after all turns of a list; every call makes the run anew.
fn after_all(lent: &Lent, counts: &mut Counts) -> Result<(), String> {
    let ran = runs::by_second(
        (&lent.text, &lent.turns),
        lent.tables.words(),
        Program::clone,
    );
    let (made, after) = match &ran {
        Ok(ran) => (ran.1.state.objects.len(), lent.tables.after(ran)),
        Err(_) => (0, lent.tables.clone()),
    };
    for object in (0..=made).chain(NEVER) {
        let theirs = match &ran {
            Ok((_, run)) => holders_of(&run.state, object),
            Err(refusal) => Err(*refusal),
        };
        one(lent, &after, object, &theirs)
            .map_err(|fault| format!("box_holders on object {}: {}", object, fault))?;
        match (&ran, &theirs) {
            (Ok(ran), Ok(count)) => counts.add(ran, object as u16, *count),
            (_, Err(refusal)) | (Err(refusal), _) => {
                counts.refused[usize::from(refusal.number)] += 1
            }
        }
    }
    Ok(())
}

/// The holders of every object, and where the list is short, after every number of its turns.
pub fn of_all_objects(lent: &Lent, counts: &mut Counts) -> Result<(), String> {
    after_all(lent, counts)?;
    if lent.turns.len() > SHORT {
        return Ok(());
    }
    for made in 0..lent.turns.len() {
        let mut fewer = lent.clone();
        fewer.turns.truncate(made);
        after_all(&fewer, counts).map_err(|fault| format!("after {} turns: {}", made, fault))?;
        counts.after_prefixes += 1;
    }
    Ok(())
}
