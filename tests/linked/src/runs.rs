//! Random scripts and turns, run by the compiled box and by the second interpreter, guarded and stripped: the same answer, both tables'
//! words by docs/LAYOUT.md, and every other lent word as it was; and demand 3, on the box's own tables.

use second::input;
use second::layout;
use second::machine::{self, End, Run};
use second::numbers::*;
use second::random::Random;
use second::reading;
use second::script::{Edition, Expr, Program};
use second::stripped::{strip, strip_text};
use second::{generate, turns};

use crate::agree::{self, same_words};
use crate::{lent, library};

const ENDS: usize = 3;

/// How many runs ended in each way, and how many had each refusal or stop.
#[derive(Clone, Debug, Default, PartialEq, Eq)]
pub struct Answers {
    pub ended: [u64; ENDS],
    pub numbers: [u64; FOREIGN as usize + 1],
}

const END_NAMES: [&str; ENDS] = ["finished", "stuck", "open"];

impl Answers {
    pub fn rows(&self) -> Vec<(String, u64)> {
        let ends = END_NAMES.iter().map(|name| name.to_string());
        let mut rows: Vec<(String, u64)> = ends.zip(self.ended).collect();
        for number in (OVERLONG..=SHORT_TABLE).chain(STOPS) {
            let word = if number < ABSENT {
                "refused"
            } else {
                "stopped"
            };
            rows.push((
                format!("{} {}", word, number),
                self.numbers[usize::from(number)],
            ));
        }
        rows
    }

    pub fn add(&mut self, answer: &Result<(End, usize), Refusal>) {
        match answer {
            Err(refusal) => self.numbers[usize::from(refusal.number)] += 1,
            Ok((End::Stopped(stop), _)) => self.numbers[usize::from(stop.number)] += 1,
            Ok((End::Finished, _)) => self.ended[0] += 1,
            Ok((End::Stuck, _)) => self.ended[1] += 1,
            Ok((End::Open, _)) => self.ended[2] += 1,
        }
    }
}

/// What the runs came to: their answers, those of the second edition and their stops at a copy, and the lists of each telling length.
#[derive(Clone, Debug, Default, PartialEq, Eq)]
pub struct Counts {
    pub answers: Answers,
    pub edition_2: u64,
    pub at_copies: [u64; COPY_STOPS.len()],
    pub lists: [u64; LENGTHS.len()],
    pub demand_3: u64,
    pub guarded_alone: u64,
}

/// The numbers with which a copy stops.
const COPY_STOPS: [u8; 4] = [ABSENT, WRONG_THING, USED_UP, FOREIGN];

const LENGTHS: [usize; 4] = [0, 1, MOST_TURNS, MOST_TURNS + 1];

impl Counts {
    pub fn rows(&self) -> Vec<(String, u64)> {
        let mut rows = self.answers.rows();
        rows.push(("runs of edition 2".to_string(), self.edition_2));
        for (number, count) in COPY_STOPS.iter().zip(self.at_copies) {
            rows.push((format!("stopped {} at a copy", number), count));
        }
        for (length, count) in LENGTHS.iter().zip(self.lists) {
            rows.push((format!("lists of {}", length), count));
        }
        rows.push(("demand 3, tables compared".to_string(), self.demand_3));
        rows.push(("stopped by a guard alone".to_string(), self.guarded_alone));
        rows
    }

    pub fn missing(&self) -> Vec<String> {
        zeros(self.rows())
    }

    fn add(&mut self, ran: &Ran) {
        self.answers.add(&ran.answer);
        if let Some(program) = &ran.program {
            self.edition_2 += u64::from(program.edition == Edition::Two);
            if let Some(place) = copy_stop(program, &ran.answer) {
                self.at_copies[place] += 1;
            }
        }
    }
}

/// The place of the number with which a copy stopped the run.
fn copy_stop(program: &Program, answer: &Result<(End, usize), Refusal>) -> Option<usize> {
    let stop = match answer {
        Ok((End::Stopped(stop), _)) => stop,
        _ => return None,
    };
    let lets = &program.blocks[usize::from(stop.block)].lets;
    match lets.get(usize::from(stop.line))? {
        Expr::Copy { .. } => COPY_STOPS.iter().position(|number| *number == stop.number),
        _ => None,
    }
}

/// The rows that nothing has reached.
pub fn zeros(rows: Vec<(String, u64)>) -> Vec<String> {
    let empty = rows.into_iter().filter(|(_, count)| *count == 0);
    empty.map(|(name, _)| name).collect()
}

/// What is lent to a run.
#[derive(Clone, Debug)]
pub struct Lent {
    pub text: Vec<u8>,
    pub turns: Vec<u8>,
    pub program: Vec<u16>,
    pub state: Vec<u16>,
}

/// A list of one of the telling lengths, or one that a generator makes.
fn turns_of(random: &mut Random, input: &[u8]) -> Vec<u8> {
    let length = match random.weighted(&[940, 15, 15, 20, 10]) {
        0 => match input::parts(input) {
            Ok(parts) => return parts.turns,
            Err(_) => return turns::list(random),
        },
        place => LENGTHS[place - 1],
    };
    let threads = random.between(1, 6);
    (0..length).map(|_| random.below(threads) as u8).collect()
}

/// The n-th script and list of turns of a seed.
pub fn inputs(random: &mut Random, seed: u64, n: u64) -> (Vec<u8>, Vec<u8>) {
    let input = generate::input(seed, n);
    let turns = turns_of(random, &input);
    let text = match input::parts(&input) {
        Ok(parts) if random.chance(90) => parts.script.to_vec(),
        _ => agree::text(random, seed, n),
    };
    (text, turns)
}

/// What the second interpreter says of a run's inputs, its tables of so many words: the program, changed, and its run.
pub fn by_second(
    (text, turns): (&[u8], &[u8]),
    (program, state): (usize, usize),
    change: fn(&Program) -> Program,
) -> Result<(Program, Run), Refusal> {
    let tables = [(program, TABLE_WORDS), (state, TABLE_WORDS)];
    reading::lengths(text.len(), turns.len(), &tables)?;
    let program = change(&reading::read_lines(text)?);
    let run = machine::run(&program, turns);
    Ok((program, run))
}

/// The script and the turns, as boxrun takes them.
pub fn shown(text: Vec<u8>, turns: &[u8]) -> Vec<u8> {
    [text, generate::turns_text(turns)].concat()
}

fn lent(seed: u64, n: u64) -> Lent {
    let mut random = Random::of(seed ^ 0x6c65_6e74, n);
    let (text, turns) = inputs(&mut random, seed, n);
    Lent {
        text,
        turns,
        program: lent::table(&mut random),
        state: lent::table(&mut random),
    }
}

/// What both say of one run, or how they differ.
fn one(lent: &Lent, change: fn(&Program) -> Program) -> Result<Ran, String> {
    let (mut program, mut state) = (lent.program.clone(), lent.state.clone());
    let ours = library::run(&lent.text, &lent.turns, &mut program, &mut state);
    let lengths = (program.len(), state.len());
    let by_second = by_second((&lent.text, &lent.turns), lengths, change);
    let (theirs, program_words, state_words) = match &by_second {
        Err(refusal) => (Err(*refusal), lent.program.clone(), lent.state.clone()),
        Ok((read, run)) => (
            Ok((run.end, run.moves as usize)),
            [&layout::program(read), &lent.program[TABLE_WORDS..]].concat(),
            [&layout::state(&run.state), &lent.state[TABLE_WORDS..]].concat(),
        ),
    };
    if ours != theirs {
        return Err(format!(
            "the box says {:?}, the second interpreter {:?}",
            ours, theirs
        ));
    }
    same_words("the program table", &program, &program_words)?;
    same_words("the state table", &state, &state_words)?;
    Ok(Ran {
        answer: ours,
        program: by_second.ok().map(|(program, _)| program),
        state,
    })
}

/// The answer, the program if it was read, and the words of the state.
struct Ran {
    answer: Result<(End, usize), Refusal>,
    program: Option<Program>,
    state: Vec<u16>,
}

/// "Before the guarded run stops, tables are equal, capabilities aside, and so are the moves; both are finished or neither is .."
fn matches(guarded: &Ran, stripped: &Ran) -> Result<(), String> {
    let (guarded_end, stripped_end) = match (&guarded.answer, &stripped.answer) {
        (Ok((end, moves)), Ok((other, others))) if moves == others => (end, other),
        (left, right) => return Err(format!("guarded {:?}, stripped {:?}", left, right)),
    };
    let finished = |end: &End| *end == End::Finished;
    let stuck = *guarded_end != End::Stuck || *stripped_end == End::Stuck;
    if finished(guarded_end) != finished(stripped_end) || !stuck {
        return Err(format!(
            "guarded {:?}, stripped {:?}",
            guarded_end, stripped_end
        ));
    }
    same_words(
        "the guarded table, erased,",
        &layout::erased(&guarded.state),
        &stripped.state,
    )
}

fn both(lent: &Lent, counts: &mut Counts) -> Result<(), String> {
    let guarded = one(lent, Program::clone)?;
    counts.add(&guarded);
    if let Some(place) = LENGTHS
        .iter()
        .position(|length| *length == lent.turns.len())
    {
        counts.lists[place] += 1;
    }
    let other = Lent {
        text: strip_text(&lent.text),
        ..lent.clone()
    };
    if guarded.answer.is_err() || other.text.len() > MOST_TEXT {
        return Ok(());
    }
    let stripped = one(&other, strip)?;
    counts.add(&stripped);
    match guarded.answer {
        Ok((End::Stopped(stop), _)) if by_guard(stop.number) => {
            counts.guarded_alone += 1;
            Ok(())
        }
        Ok((End::Stopped(_), _)) if guarded.answer == stripped.answer => Ok(()),
        _ => {
            counts.demand_3 += 1;
            matches(&guarded, &stripped)
        }
    }
}

/// Many runs of a seed; the first difference, with its script and its turns.
pub fn many(seed: u64, count: u64) -> Result<Counts, (Vec<u8>, String)> {
    let mut counts = Counts::default();
    for n in 0..count {
        let lent = lent(seed, n);
        if let Err(fault) = both(&lent, &mut counts) {
            return Err((shown(lent.text, &lent.turns), fault));
        }
    }
    Ok(counts)
}
