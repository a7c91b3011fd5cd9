//! Random scripts and turns through the calls of a C host, held against the second interpreter: the same answers, every byte of both tables
//! and of the list by docs/LAYOUT.md, of the drawing by docs/DRAWING.md, and every other byte as it was.

use std::fmt::Debug;

use second::graphs::longest_drawing;
use second::layout;
use second::machine::Run;
use second::numbers::*;
use second::random::Random;
use second::script::Program;

use crate::lent::Part;
use crate::library::bytes;
use crate::{agree, drawings, finder, holders, races, reports, runs};

/// What the calls came to.
#[derive(Clone, Debug, Default)]
pub struct Counts {
    pub read: agree::Counts,
    pub run: runs::Answers,
    pub reach: reports::Counts,
    pub holders: holders::Counts,
    pub draw: drawings::Counts,
    pub race: races::Counts,
    pub line: finder::Counts,
}

impl Counts {
    pub fn rows(&self) -> Vec<(String, u64)> {
        let parts = [
            ("read", self.read.rows()),
            ("run", self.run.rows()),
            ("reach", self.reach.rows()),
            ("holders", self.holders.rows()),
            ("draw", self.draw.rows()),
            ("race", self.race.rows()),
            ("line", self.line.rows()),
        ];
        let mut rows = Vec::new();
        for (call, part) in parts {
            rows.extend(
                part.into_iter()
                    .map(|(name, count)| (format!("{}: {}", call, name), count)),
            );
        }
        rows
    }

    /// Runs with a race are for `race`: random scripts seldom share an object that is swapped.
    pub fn missing(&self) -> Vec<String> {
        let mut race = self.race.rows();
        race.retain(|(name, _)| name != "a race");
        let rest = [
            self.run.rows(),
            self.reach.rows(),
            self.holders.rows(),
            self.draw.rows(),
            race,
            self.line.rows(),
        ]
        .concat();
        [self.read.missing(), runs::zeros(rest)].concat()
    }
}

/// Both lent tables.
#[derive(Clone, Debug)]
pub struct Tables {
    pub program: Part,
    pub state: Part,
}

impl Tables {
    pub fn words(&self) -> (usize, usize) {
        (self.program.words(), self.state.words())
    }

    /// As a run leaves them.
    pub fn after(&self, (program, run): &(Program, Run)) -> Tables {
        Tables {
            program: self.program.with(&layout::program(program)),
            state: self.state.with(&layout::state(&run.state)),
        }
    }

    pub fn same(&self, expected: &Tables) -> Result<(), String> {
        self.program.same("the program table", &expected.program)?;
        self.state.same("the state table", &expected.state)
    }
}

/// What is lent to a report, and so to a run and to a reading.
#[derive(Clone, Debug)]
pub struct Lent {
    pub text: Vec<u8>,
    pub turns: Vec<u8>,
    pub tables: Tables,
    pub list: Part,
}

fn lent(random: &mut Random, seed: u64, n: u64) -> Lent {
    let (text, turns) = runs::inputs(random, seed, n);
    Lent {
        text,
        turns,
        tables: Tables {
            program: Part::old(random, TABLE_WORDS),
            state: Part::old(random, TABLE_WORDS),
        },
        list: Part::old(random, LIST_WORDS),
    }
}

/// The run that has the longest drawing, in tables that just suffice.
fn longest(random: &mut Random) -> Lent {
    let (text, turns) = longest_drawing();
    Lent {
        text: text.into_bytes(),
        turns,
        tables: Tables {
            program: Part::of(random, 2 * TABLE_WORDS),
            state: Part::of(random, 2 * TABLE_WORDS),
        },
        list: Part::of(random, 2 * LIST_WORDS),
    }
}

/// How two answers differ, told in words.
pub fn same<T: PartialEq + Debug>(ours: &T, theirs: &T) -> Result<(), String> {
    if ours == theirs {
        return Ok(());
    }
    Err(format!(
        "answers {:?}, the second interpreter {:?}",
        ours, theirs
    ))
}

fn read(lent: &Lent, counts: &mut agree::Counts) -> Result<(), String> {
    let mut program = lent.tables.program.clone();
    let ours = bytes::read(&lent.text, program.lend());
    let theirs = agree::by_second(&lent.text, program.words());
    let expected = match &theirs {
        Ok(read) => lent.tables.program.with(&layout::program(read)),
        Err(_) => lent.tables.program.clone(),
    };
    same(&ours, &theirs.map(|_| ()))?;
    program.same("the program table", &expected)?;
    counts.add(&lent.text, &ours);
    Ok(())
}

/// The tables as the run leaves them.
pub fn run(lent: &Lent, counts: &mut runs::Answers) -> Result<Tables, String> {
    let mut tables = lent.tables.clone();
    let ours = bytes::run(
        &lent.text,
        &lent.turns,
        tables.program.lend(),
        tables.state.lend(),
    );
    let theirs = runs::by_second((&lent.text, &lent.turns), tables.words(), Program::clone);
    let expected = match &theirs {
        Ok(ran) => lent.tables.after(ran),
        Err(_) => lent.tables.clone(),
    };
    let answer = theirs.map(|(_, run)| (run.end, run.moves as usize));
    same(&ours, &answer)?;
    tables.same(&expected)?;
    counts.add(&ours);
    Ok(tables)
}

fn one(random: &mut Random, lent: &Lent, counts: &mut Counts) -> Result<(), String> {
    read(lent, &mut counts.read).map_err(|fault| format!("box_read: {}", fault))?;
    let after = run(lent, &mut counts.run).map_err(|fault| format!("box_run: {}", fault))?;
    reports::of_all_threads(lent, &after, &mut counts.reach)?;
    holders::of_all_objects(lent, &mut counts.holders)?;
    drawings::of_run(random, lent, &after, &mut counts.draw)?;
    races::of_run(lent, &after, &mut counts.race)?;
    finder::lines(random, &lent.text, &mut counts.line)
}

/// Many inputs of a seed, and then the one of the longest drawing; the first difference, with its script and its turns.
pub fn many(seed: u64, count: u64) -> Result<Counts, (Vec<u8>, String)> {
    let mut counts = Counts::default();
    for n in 0..=count {
        let mut random = Random::of(seed ^ 0x686f_7374, n);
        let lent = if n < count {
            lent(&mut random, seed, n)
        } else {
            longest(&mut random)
        };
        if let Err(fault) = one(&mut random, &lent, &mut counts) {
            return Err((runs::shown(lent.text, &lent.turns), fault));
        }
    }
    Ok(counts)
}
